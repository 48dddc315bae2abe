//! Random inputs.
use super::{bound_call, call1, call2, lengths_at, rooms, Inputs, MOST_ROOM};
use crate::answers::ranges::{
    Input, AS_POINT, CMP_BOUND, COMPARE_KEYS, CONTAINS, FROM_PREFIX, FROM_PREFIX_AND_SUBRANGE,
    INTERSECT, NON_EMPTY, UNION,
};
use crate::checks::KEY_CEILING;
use crate::inputs::{range_image, Chance, Family};
use crate::{key_of, kind_of};

/// A range image, one in ten damaged.
pub fn family_image(family: &Family, chance: &mut Chance) -> Vec<u8> {
    let mut good = range_image(&family.range(chance));
    if !chance.percent(10) {
        return good;
    }
    match chance.below(8) {
        0 | 1 => good.truncate(chance.below(good.len())),
        2 | 3 => {
            let at = chance.below(good.len());
            good[at] = chance.next() as u8;
        }
        4 => {
            let more = 1 + chance.below(3);
            good.extend((0..more).map(|_| chance.next() as u8));
        }
        5 => good[0] |= *chance.of(&[0xC0, 0x30]),
        6 => good[0] |= 1 << chance.below(4),
        _ => {
            if let Some(&at) = lengths_at(&good).last() {
                let length = *chance.of(&[0u16, 1, 5, 1_024, 1_025, 2_000, 65_535]);
                good[at..at + 2].copy_from_slice(&length.to_be_bytes());
            }
        }
    }
    good
}

pub fn random(call: u8, count: usize, out: &mut Inputs) {
    for _ in 0..count {
        let small = out.small;
        let chance = &mut out.chance;
        let family = Family::new(chance, small);
        let mut input = if call == FROM_PREFIX_AND_SUBRANGE {
            let prefix = family.key(chance);
            let mut suffixes = Family::new(chance, small);
            if prefix.len() + suffixes.stem.len() > KEY_CEILING && !chance.percent(20) {
                let room = KEY_CEILING.saturating_sub(prefix.len());
                suffixes.stem.truncate(room);
            }
            call2(call, &prefix, &family_image(&suffixes, chance))
        } else {
            of_family(call, &family, chance)
        };
        if call == FROM_PREFIX || call == FROM_PREFIX_AND_SUBRANGE {
            let rooms = rooms(&input);
            input.room = match chance.below(10) {
                0..=5 => *chance.of(&rooms),
                6 => chance.below(65_536),
                _ => MOST_ROOM,
            };
        }
        out.put(&input);
    }
}

/// A call on keys and ranges of one family.
pub fn of_family(call: u8, family: &Family, chance: &mut Chance) -> Input {
    match call {
        COMPARE_KEYS => call2(call, &family.key(chance), &family.key(chance)),
        CMP_BOUND => random_bounds(family, chance),
        NON_EMPTY => {
            // The one call that takes ranges which fail.
            if chance.percent(40) {
                let range = (family.bound(chance), family.bound(chance));
                call1(call, &range_image(&range))
            } else {
                call1(call, &family_image(family, chance))
            }
        }
        AS_POINT => call1(call, &family_image(family, chance)),
        INTERSECT | UNION => call2(
            call,
            &family_image(family, chance),
            &family_image(family, chance),
        ),
        FROM_PREFIX => call1(call, &family.key(chance)),
        FROM_PREFIX_AND_SUBRANGE => call2(call, &family.key(chance), &family_image(family, chance)),
        CONTAINS => call2(call, &family_image(family, chance), &family.key(chance)),
        _ => unreachable!(),
    }
}

fn random_bounds(family: &Family, chance: &mut Chance) -> Input {
    let (a, b) = (family.bound(chance), family.bound(chance));
    let (mut x, mut y) = (kind_of(&a), kind_of(&b));
    if chance.percent(6) {
        x = *chance.of(&[0, 1, 2, 3, 4, 255]);
    }
    if chance.percent(6) {
        y = *chance.of(&[0, 1, 2, 3, 4, 255]);
    }
    let none = vec![];
    let a = key_of(&a).unwrap_or(&none);
    let b = key_of(&b).unwrap_or(&none);
    bound_call(x, y, chance.below(2) as u8, a, b)
}
