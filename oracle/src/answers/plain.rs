//! The lookups once more, over plain lists that are gone through from the front, for comparison
//! with the originals. Where the originals panic (no partitions) these answer, as document 01 has it.
use super::paper::{cmp_bound, cmp_keys, holds, passes};
use crate::{key_of, Bound, Key, Range};

/// "`partition_point` counts the leading first keys that satisfy the test."
pub fn partition_point(first_keys: &[Key], at_or_below: bool, key: &[u8]) -> usize {
    let most = if at_or_below { 0 } else { -1 };
    let test = |first: &&Key| cmp_keys(first, key) <= most;
    first_keys.iter().take_while(test).count()
}

/// "`first_partition_including_key` answers none" with no partitions.
pub fn first_including(first_keys: &[Key], key: &[u8]) -> Option<usize> {
    match partition_point(first_keys, false, key) {
        0 => (first_keys.first()?.as_slice() == key).then_some(0),
        count => Some(count - 1),
    }
}

pub fn last_including(first_keys: &[Key], key: &[u8]) -> Option<usize> {
    partition_point(first_keys, true, key).checked_sub(1)
}

/// "a covering is 0..0" with no partitions. A point goes the way of every range.
pub fn covering(first_keys: &[Key], range: &Range) -> (usize, usize) {
    let start = key_of(&range.0).map_or(0, |key| first_including(first_keys, key).unwrap_or(0));
    let past = match &range.1 {
        Bound::Unbounded => Some(first_keys.len()),
        Bound::Included(key) => last_including(first_keys, key).map(|last| last + 1),
        Bound::Excluded(key) => {
            last_including(first_keys, key).map(|last| last + usize::from(first_keys[last] != *key))
        }
    };
    (start, past.unwrap_or(start))
}

fn meet(a: &Range, b: &Range) -> bool {
    let start = [&a.0, &b.0][usize::from(cmp_bound(&a.0, &b.0, true) <= 0)];
    let end = [&a.1, &b.1][usize::from(cmp_bound(&a.1, &b.1, false) > 0)];
    passes(&(start.clone(), end.clone()))
}

/// From a view's effective start to an end bound.
pub fn intersects(effective: &Range, end: &Bound, asked: &Range) -> bool {
    let slot = (effective.0.clone(), end.clone());
    passes(&slot) && meet(&slot, asked)
}

/// The key that a view's effective range starts with.
fn start_key(effective: &Range) -> &Key {
    match &effective.0 {
        Bound::Included(key) => key,
        other => panic!("an effective range starts included: {other:?}"),
    }
}

/// The end of a view before the next one: up to its start, with that key if the view holds it.
pub fn end_before(effective: &Range, next: Option<&Range>) -> Bound {
    match next.map(start_key) {
        None => Bound::Unbounded,
        Some(key) if holds(effective, key) => Bound::Included(key.clone()),
        Some(key) => Bound::Excluded(key.clone()),
    }
}

/// The first and past the last view that meets the range, each counted up to the next one.
pub fn views_covering(effective: &[Range], asked: &Range) -> (usize, usize) {
    let meets = |place: &usize| {
        let end = end_before(&effective[*place], effective.get(place + 1));
        intersects(&effective[*place], &end, asked)
    };
    let places = || 0..effective.len();
    match (places().find(meets), places().rev().find(meets)) {
        (Some(first), Some(last)) => (first, last + 1),
        _ => (0, 0),
    }
}

pub fn overlaps(effective: &[Range], asked: &Range) -> bool {
    match (effective.first(), effective.last()) {
        (Some(first), Some(last)) => meet(&(first.0.clone(), last.1.clone()), asked),
        _ => false,
    }
}
