//! The steps of a visible size once more, for comparison with the originals: in whole numbers, so that
//! each rounding stands here as document 01 and IEEE 754 have it. A position in the key space is
//! counted in parts of 2^64.
use super::paper;
use crate::{key_of, Bound, Range, View};

/// So many digits has a number.
const DIGITS: u32 = 53;
/// f64::EPSILON, 2^-52, as a position.
const EPSILON: u128 = 1 << 12;

/// `digits` times 2 to the power of `power`. It has 53 digits, or it is 0 with power 0.
#[derive(Clone, Copy, Debug, PartialEq, Eq)]
pub struct Number {
    digits: u128,
    power: i32,
}

/// 1e-6, and 1.0.
const LEAST: Number = Number {
    digits: 0x10_C6F7_A0B5_ED8D,
    power: -72,
};
const MOST: Number = Number {
    digits: 1 << 52,
    power: -52,
};

/// Whole digits of a number that has more of them: to the nearest, of two that are as near to the even
/// one. `more` says that it has digits behind all of these.
fn rounded(digits: u128, cut: u32, more: bool) -> u128 {
    if cut == 0 {
        return digits;
    }
    let (kept, lost, half) = (digits >> cut, digits & ((1 << cut) - 1), 1 << (cut - 1));
    let is_up = lost > half || lost == half && (more || kept & 1 == 1);
    kept + u128::from(is_up)
}

fn length_of(digits: u128) -> u32 {
    128 - digits.leading_zeros()
}

impl Number {
    /// The nearest number to these digits times 2 to this power.
    fn nearest(digits: u128, power: i32, more: bool) -> Number {
        if digits == 0 {
            return Number {
                digits: 0,
                power: 0,
            };
        }
        let cut = length_of(digits).saturating_sub(DIGITS);
        let kept = rounded(digits, cut, more);
        // Rounded up, it may have a digit more, and then all others are 0.
        let more = length_of(kept).saturating_sub(DIGITS);
        let short = DIGITS.saturating_sub(length_of(kept));
        Number {
            digits: (kept >> more) << short,
            power: power + (cut + more) as i32 - short as i32,
        }
    }

    fn less(self, other: Number) -> bool {
        (self.power, self.digits) < (other.power, other.digits)
    }

    /// As an f64 of this value has them. For values from 1e-6 to 1.0.
    pub fn bits(self) -> u64 {
        let digits = (self.digits - (1 << 52)) as u64;
        ((self.power + 1_075) as u64) << 52 | digits
    }

    /// The whole number nearest to it; of two that are as near the greater.
    fn round(self) -> u64 {
        let digits = self.digits;
        let whole = match self.power {
            0.. => digits << self.power,
            -64.. => (digits + (1 << (-self.power - 1))) >> -self.power,
            _ => 0,
        };
        whole as u64
    }
}

/// The nearest position that has 53 digits.
fn near(position: u128) -> u128 {
    let cut = length_of(position).saturating_sub(DIGITS);
    rounded(position, cut, false) << cut
}

/// "Bytes are read from after the common prefix, at most eight."
fn position(key: &[u8], skip: usize) -> u128 {
    let bytes = key.iter().skip(skip).take(8);
    bytes.zip(0..).fold(0, |position, (byte, place)| {
        near(position + (u128::from(*byte) << (56 - 8 * place)))
    })
}

/// From the start to the end of a range.
fn length(range: &Range, skip: usize) -> u128 {
    let at = |bound, open| key_of(bound).map_or(open, |key| position(key, skip));
    near(at(&range.1, 1 << 64) - at(&range.0, 0))
}

fn quotient(a: u128, b: u128) -> Number {
    let more = a.leading_zeros() - 1;
    let a = a << more;
    Number::nearest(a / b, -(more as i32), a % b != 0)
}

/// None if the table is shown whole.
pub fn fraction(view: &View) -> Option<Number> {
    let (first, last) = (&view.table.first, view.table.last.as_ref()?);
    let own = (
        Bound::Included(first.clone()),
        Bound::Included(last.clone()),
    );
    let visible = view.visible.as_ref()?;
    let effective = paper::intersect(&own, visible).unwrap().range;
    if effective == own {
        return None;
    }
    let same = first.iter().zip(last).take_while(|(a, b)| a == b);
    let skip = same.count();
    let (all, seen) = (length(&own, skip).max(EPSILON), length(&effective, skip));
    if seen == 0 {
        return None;
    }
    let part = quotient(seen, all);
    Some(if part.less(LEAST) {
        LEAST
    } else if MOST.less(part) {
        MOST
    } else {
        part
    })
}

/// Of a view that passes check 7.
pub fn size(view: &View) -> u64 {
    let raw = view.table.index_offset + view.table.index_len;
    if view.visible.is_none() {
        return raw;
    }
    let size = match fraction(view) {
        None => raw,
        Some(part) => Number::nearest(u128::from(raw) * part.digits, part.power, false).round(),
    };
    size.max(1)
}
