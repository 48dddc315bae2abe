//! Document 01's own words on ranges, for comparison with the originals.
use super::ranges::Sided;
use crate::{key_of, Bound, Key, Range};
use std::cmp::Ordering;

/// "ordered by the first unequal byte, a proper prefix coming first"
pub fn cmp_keys(a: &[u8], b: &[u8]) -> i32 {
    match a.iter().zip(b).find(|(a, b)| a != b) {
        Some((a, b)) => sign(a.cmp(b)),
        None => sign(a.len().cmp(&b.len())),
    }
}

fn sign(order: Ordering) -> i32 {
    match order {
        Ordering::Less => -1,
        Ordering::Equal => 0,
        Ordering::Greater => 1,
    }
}

/// "At equal keys, included comes before excluded as a start and after it as an end. An
/// unbounded start is least, an unbounded end greatest."
pub fn cmp_bound(a: &Bound, b: &Bound, start: bool) -> i32 {
    let unbounded = if start { -1 } else { 1 };
    let (Some(key_a), Some(key_b)) = (key_of(a), key_of(b)) else {
        let is = [a, b].map(|bound| i32::from(*bound == Bound::Unbounded));
        return unbounded * (is[0] - is[1]);
    };
    let included = if start { -1 } else { 1 };
    let is = [a, b].map(|bound| i32::from(matches!(bound, Bound::Included(_))));
    match cmp_keys(key_a, key_b) {
        0 => included * (is[0] - is[1]),
        order => order,
    }
}

/// "with two keys, start < end, or equality if both are included. With an unbounded side it is
/// true."
pub fn passes(range: &Range) -> bool {
    match range {
        (Bound::Unbounded, _) | (_, Bound::Unbounded) => true,
        (Bound::Included(start), Bound::Included(end)) => cmp_keys(start, end) <= 0,
        (
            Bound::Included(start) | Bound::Excluded(start),
            Bound::Included(end) | Bound::Excluded(end),
        ) => cmp_keys(start, end) < 0,
    }
}

pub fn holds(range: &Range, key: &[u8]) -> bool {
    let after = match &range.0 {
        Bound::Unbounded => true,
        Bound::Included(start) => cmp_keys(start, key) <= 0,
        Bound::Excluded(start) => cmp_keys(start, key) < 0,
    };
    let before = match &range.1 {
        Bound::Unbounded => true,
        Bound::Included(end) => cmp_keys(key, end) <= 0,
        Bound::Excluded(end) => cmp_keys(key, end) < 0,
    };
    after && before
}

/// "the greater start and the lesser end; of equal bounds, the second range's start and the
/// first's end"
pub fn intersect(a: &Range, b: &Range) -> Option<Sided> {
    let start = if cmp_bound(&a.0, &b.0, true) > 0 {
        1
    } else {
        2
    };
    let end = if cmp_bound(&a.1, &b.1, false) <= 0 {
        1
    } else {
        2
    };
    let bound = |side, first: &Bound, second: &Bound| match side {
        1 => first.clone(),
        _ => second.clone(),
    };
    let range = (bound(start, &a.0, &b.0), bound(end, &a.1, &b.1));
    passes(&range).then_some(Sided { range, start, end })
}

/// "The next prefix drops trailing FF bytes, then adds one to the last byte left. If none is
/// left, the end is unbounded."
fn next_prefix(prefix: &[u8]) -> Option<Key> {
    let mut next = prefix.to_vec();
    while next.last() == Some(&0xFF) {
        next.pop();
    }
    *next.last_mut()? += 1;
    Some(next)
}

/// The keys that are the prefix and then a key of the subrange. It may fail `passes`.
pub fn joined(prefix: &[u8], subrange: &Range) -> Range {
    let with = |key: &Key| [prefix, key].concat();
    let start = match &subrange.0 {
        Bound::Unbounded if prefix.is_empty() => Bound::Unbounded,
        Bound::Unbounded => Bound::Included(prefix.to_vec()),
        Bound::Included(key) => Bound::Included(with(key)),
        Bound::Excluded(key) => Bound::Excluded(with(key)),
    };
    let end = match &subrange.1 {
        Bound::Unbounded => next_prefix(prefix).map_or(Bound::Unbounded, Bound::Excluded),
        Bound::Included(key) => Bound::Included(with(key)),
        Bound::Excluded(key) => Bound::Excluded(with(key)),
    };
    (start, end)
}

/// The key of a range that is one point.
pub fn point(range: &Range) -> Option<&Key> {
    match range {
        (Bound::Included(start), Bound::Included(end)) if start == end => Some(start),
        _ => None,
    }
}
