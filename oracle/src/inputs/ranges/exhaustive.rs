//! All keys of up to two bytes over a small alphabet, in all kinds of bound.
use super::{bound_call, call1, call2, rooms, Inputs, MOST_ROOM};
use crate::answers::ranges::{
    Input, AS_POINT, CMP_BOUND, COMPARE_KEYS, CONTAINS, FROM_PREFIX, FROM_PREFIX_AND_SUBRANGE,
    INTERSECT, NON_EMPTY, UNION,
};
use crate::inputs::{all_bounds, all_ranges, order_class, range_image, small_keys};
use crate::{key_of, kind_of, Bound, Key, Range};
use std::cmp::Ordering;

/// How two keys lie to each other: order, and whether one begins with the other.
fn relation(a: &[u8], b: &[u8]) -> u8 {
    match a.cmp(b) {
        Ordering::Equal => 0,
        Ordering::Less => 1 + u8::from(b.starts_with(a)),
        Ordering::Greater => 3 + u8::from(a.starts_with(b)),
    }
}

pub fn exhaustive(call: u8, out: &mut Inputs) {
    let keys = small_keys(&[0x00, 0x61, 0xFF], 2);
    let mut ranges = all_ranges(&keys);
    out.chance.shuffle(&mut ranges);
    match call {
        COMPARE_KEYS => {
            for a in &keys {
                for b in &keys {
                    out.put(&call2(call, a, b));
                }
            }
        }
        CMP_BOUND => bounds(&keys, out),
        NON_EMPTY | AS_POINT => single(call, &ranges, out),
        INTERSECT | UNION => {
            let few = [&[][..], b"a", b"a\0", b"a\xFF", b"b", b"\xFF"].map(|key| key.to_vec());
            pairs(call, &all_ranges(&few), true, out);
            pairs(call, &ranges, false, out);
        }
        FROM_PREFIX => prefixes(out),
        FROM_PREFIX_AND_SUBRANGE => subranges(&keys, &ranges, out),
        CONTAINS => held(&keys, &ranges, out),
        _ => unreachable!(),
    }
}

fn bounds(keys: &[Key], out: &mut Inputs) {
    let limit = out.limit(2, usize::MAX);
    let mut bounds = all_bounds(keys);
    out.chance.shuffle(&mut bounds);
    for a in &bounds {
        for b in &bounds {
            for z in [0, 1] {
                let (x, y) = (kind_of(a), kind_of(b));
                let none = vec![];
                let a = key_of(a).unwrap_or(&none);
                let b = key_of(b).unwrap_or(&none);
                let class = [x, y, z, relation(a, b)];
                out.put_some(&bound_call(x, y, z, a, b), limit, &class);
            }
        }
    }
}

fn single(call: u8, ranges: &[Range], out: &mut Inputs) {
    let limit = out.limit(3, usize::MAX);
    for range in ranges {
        let class = related_class(range);
        let point = call == AS_POINT && class == [1, 1, 0];
        let limit = if point { usize::MAX } else { limit };
        out.put_some(&call1(call, &range_image(range)), limit, &class);
    }
}

/// Both good: by order of the four bounds, or in a big run all of them. Else: stop 4, a few of
/// each kind.
fn pairs(call: u8, ranges: &[Range], all: bool, out: &mut Inputs) {
    let (good, stopped) = (out.limit(1, 60), out.limit(4, 40));
    let mut pairs: Vec<(usize, usize)> = (0..ranges.len())
        .flat_map(|i| (0..ranges.len()).map(move |j| (i, j)))
        .collect();
    out.chance.shuffle(&mut pairs);
    for (i, j) in pairs {
        let (a, b) = (&ranges[i], &ranges[j]);
        let input = call2(call, &range_image(a), &range_image(b));
        let fail = [a, b].map(|range| !crate::non_empty(range));
        if fail != [false; 2] {
            out.put_some(&input, stopped, &fail.map(u8::from));
        } else if all && !out.small {
            out.put(&input);
        } else {
            let class = order_class(&[&a.0, &a.1, &b.0, &b.1]);
            out.put_some(&input, good, &class);
        }
    }
}

fn prefixes(out: &mut Inputs) {
    for prefix in small_keys(&[0x00, 0x61, 0xFF], out.limit(3, 5)) {
        out.put_rooms(&call1(FROM_PREFIX, &prefix));
    }
    let small = out.small;
    for byte in (0..=255u8).filter(|byte| !small || byte % 16 > 13) {
        for prefix in [&[byte][..], &[byte, 0xFF]] {
            out.put(&Input {
                room: MOST_ROOM,
                ..call1(FROM_PREFIX, prefix)
            });
        }
    }
}

fn subranges(keys: &[Key], ranges: &[Range], out: &mut Inputs) {
    let (limit, few) = (out.limit(1, usize::MAX), out.limit(1, 30));
    let mut prefixes = keys.to_vec();
    out.chance.shuffle(&mut prefixes);
    for range in ranges {
        for prefix in &prefixes {
            let mut input = call2(FROM_PREFIX_AND_SUBRANGE, prefix, &range_image(range));
            let last = prefix.iter().rev().take_while(|byte| **byte == 0xFF);
            let trailing = last.count() as u8;
            let mut class = order_class(&[&range.0, &range.1]);
            class.extend([prefix.len() as u8, trailing]);
            input.room = 60_000 + out.chance.below(5_000);
            out.put_some(&input, limit, &class);
            // Each room for a few.
            class.truncate(2);
            for (i, room) in rooms(&input).into_iter().enumerate() {
                let class = [&class[..], &[0xFF, i as u8]].concat();
                input.room = room;
                out.put_some(&input, few, &class);
            }
        }
    }
}

fn held(keys: &[Key], ranges: &[Range], out: &mut Inputs) {
    let limit = out.limit(2, usize::MAX);
    let mut keys = keys.to_vec();
    out.chance.shuffle(&mut keys);
    for range in ranges {
        for key in &keys {
            let input = call2(CONTAINS, &range_image(range), key);
            if crate::non_empty(range) {
                let asked = Bound::Included(key.clone());
                let class = order_class(&[&range.0, &range.1, &asked]);
                out.put_some(&input, limit, &class);
            } else {
                out.put_some(&input, 30, &[]);
            }
        }
    }
}

/// Kinds, and how the two keys lie to each other.
fn related_class(range: &Range) -> Vec<u8> {
    let mut class = vec![kind_of(&range.0), kind_of(&range.1)];
    if let (Some(start), Some(end)) = (key_of(&range.0), key_of(&range.1)) {
        class.push(relation(start, end));
    }
    class
}
