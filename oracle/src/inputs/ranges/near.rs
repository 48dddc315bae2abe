//! Random inputs around the ceilings: keys of 1,024 bytes, joined and not, buffers of 65,536.
use super::random::of_family;
use super::{call2, family_image, Inputs};
use crate::answers::ranges::{Input, FROM_PREFIX_AND_SUBRANGE};
use crate::checks::{BUFFER_CEILING, KEY_CEILING};
use crate::inputs::{byte, Chance, Family};

/// Keys of about so many bytes.
pub fn family_of(length: usize, chance: &mut Chance) -> Family {
    let alphabet: &[u8] = *chance.of(&[&[0xFF][..], &[0x00, 0xFF], &[0x00, 0x01, 0x61], &[]]);
    let stem = (0..length).map(|_| byte(chance, alphabet)).collect();
    Family { stem, alphabet }
}

pub fn near_ceilings(call: u8, count: usize, out: &mut Inputs) {
    for _ in 0..count {
        let chance = &mut out.chance;
        let length = KEY_CEILING - 4 + chance.below(8);
        let input = if call == FROM_PREFIX_AND_SUBRANGE {
            let prefix = family_of(chance.below(length), chance);
            let rest = family_of(length - prefix.stem.len(), chance);
            let key = prefix.key(chance);
            call2(call, &key, &family_image(&rest, chance))
        } else {
            of_family(call, &family_of(length, chance), chance)
        };
        out.put(&input);
    }
}

/// One argument has about 65,536 bytes, so it is refused; by which stop depends on its front.
pub fn near_full(call: u8, count: usize, out: &mut Inputs) {
    for _ in 0..count {
        let chance = &mut out.chance;
        let family = Family::new(chance, true);
        let mut input: Input = of_family(call, &family, chance);
        let length = BUFFER_CEILING - 3 + chance.below(7);
        let fill = *chance.of(&[0, 1, 0x61, 0xFF]);
        if chance.percent(60) || input.b.is_empty() {
            input.a.resize(length, fill);
        }
        if chance.percent(60) && !input.b.is_empty() {
            input.b.resize(length, fill);
        }
        out.put(&input);
    }
}
