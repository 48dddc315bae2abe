//! All inputs of a few bytes over the alphabet 00, 01, 61, FF. They are many, so each function
//! takes the part of them that begins with the given key, bound, range or head.
use super::{bound_call, call1, call2, Inputs};
use crate::answers::ranges::{
    COMPARE_KEYS, CONTAINS, FROM_PREFIX, FROM_PREFIX_AND_SUBRANGE, INTERSECT, UNION,
};
use crate::inputs::{range_image, small_keys};
use crate::{key_of, kind_of, Bound, Key, Range};

pub const ALPHABET: [u8; 4] = [0x00, 0x01, 0x61, 0xFF];

pub fn pairs_of_keys(first: &Key, keys: &[Key], out: &mut Inputs) {
    for second in keys {
        out.put(&call2(COMPARE_KEYS, first, second));
    }
}

pub fn pairs_of_bounds(first: &Bound, bounds: &[Bound], out: &mut Inputs) {
    let none = vec![];
    let key = |bound| key_of(bound).unwrap_or(&none);
    for second in bounds {
        for z in [0, 1] {
            let (x, y) = (kind_of(first), kind_of(second));
            out.put(&bound_call(x, y, z, key(first), key(second)));
        }
    }
}

/// Every kind's number, with a key and without.
pub fn pairs_of_kinds(first: u8, out: &mut Inputs) {
    for second in 0..=255 {
        for (a, b) in [("", ""), ("a", ""), ("", "a"), ("a", "a")] {
            let z = (first ^ second) & 1;
            out.put(&bound_call(first, second, z, a.as_bytes(), b.as_bytes()));
        }
    }
}

/// A call on one range, for every byte after a head.
pub fn after_head(call: u8, head: u8, tails: &[Key], out: &mut Inputs) {
    for tail in tails {
        let image = [&[head], &tail[..]].concat();
        let key: &[u8] = if call == CONTAINS { b"a" } else { b"" };
        out.put(&call2(call, &image, key));
    }
}

pub fn on_ranges(call: u8, ranges: &[Range], out: &mut Inputs) {
    for range in ranges {
        out.put(&call1(call, &range_image(range)));
    }
}

pub fn held_keys(range: &Range, keys: &[Key], out: &mut Inputs) {
    let image = range_image(range);
    for key in keys {
        out.put(&call2(CONTAINS, &image, key));
    }
}

/// Both calls on two ranges.
pub fn pairs_of_ranges(first: &Range, ranges: &[Range], out: &mut Inputs) {
    let first = range_image(first);
    for second in ranges {
        let second = range_image(second);
        out.put(&call2(INTERSECT, &first, &second));
        out.put(&call2(UNION, &first, &second));
    }
}

/// Each length of the lent buffer up to some more than the answer's.
pub fn prefixes(longest: usize, out: &mut Inputs) {
    for prefix in small_keys(&ALPHABET, longest) {
        for room in 0..=2 * (prefix.len() + 2) + 4 {
            let mut input = call1(FROM_PREFIX, &prefix);
            input.room = room;
            out.put(&input);
        }
    }
}

pub fn subranges(prefix: &Key, ranges: &[Range], out: &mut Inputs) {
    for range in ranges {
        let mut input = call2(FROM_PREFIX_AND_SUBRANGE, prefix, &range_image(range));
        input.room = 2 * prefix.len() + out.chance.below(14);
        out.put(&input);
    }
}
