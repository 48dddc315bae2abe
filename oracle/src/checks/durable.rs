//! Durable intervals, and what they leave of a range.
use crate::{key_of, Bound, Job, Key, Part, Range};

/// From a key on (none: from the least) up to, without, a key (none: no end).
pub struct Durable {
    pub start: Option<Key>,
    pub end: Option<Key>,
}

impl Durable {
    pub fn holds(&self, key: &Key) -> bool {
        self.start.as_ref().is_none_or(|start| start <= key)
            && self.end.as_ref().is_none_or(|end| key < end)
    }

    pub fn range(&self) -> Range {
        (
            self.start.clone().map_or(Bound::Unbounded, Bound::Included),
            self.end.clone().map_or(Bound::Unbounded, Bound::Excluded),
        )
    }
}

/// The last written key of an unfinished part.
pub fn last_written(part: &Part) -> Option<&Key> {
    if part.completed {
        return None;
    }
    part.outputs.last().and_then(|table| table.last.as_ref())
}

/// Of a part that passes the checks 10 and 11.
pub fn durable(part: &Part) -> Option<Durable> {
    let start = key_of(&part.range.0).cloned();
    if part.completed {
        let end = key_of(&part.range.1).cloned();
        return Some(Durable { start, end });
    }
    let last = last_written(part)?.clone();
    if start.as_ref() == Some(&last) {
        return None;
    }
    Some(Durable {
        start,
        end: Some(last),
    })
}

pub fn all_durable(job: &Job) -> Vec<Durable> {
    job.parts.iter().filter_map(durable).collect()
}

/// The least key, of those from this one on, that lies in no interval. It is this key or the
/// end of an interval.
pub fn least_outside(intervals: &[Durable], from: &Key) -> Option<Key> {
    let mut key = from.clone();
    while let Some(interval) = intervals.iter().find(|interval| interval.holds(&key)) {
        key = interval.end.clone()?;
    }
    Some(key)
}

/// Effective ranges start included.
pub fn start_of(range: &Range) -> &Key {
    let Bound::Included(start) = &range.0 else {
        panic!("an effective range that does not start included");
    };
    start
}

pub fn ends_before(range: &Range, key: &Key) -> bool {
    match &range.1 {
        Bound::Unbounded => false,
        Bound::Included(end) => end < key,
        Bound::Excluded(end) => end <= key,
    }
}

/// What is left of an effective range: its longest parts that lie in no interval.
pub fn left_of(intervals: &[Durable], range: &Range) -> Vec<Range> {
    let mut left = vec![];
    let mut from = Some(start_of(range).clone());
    while let Some(start) = from.and_then(|key| least_outside(intervals, &key)) {
        if ends_before(range, &start) {
            break;
        }
        // Where the next interval begins, if that is inside the range.
        let next = intervals
            .iter()
            .filter_map(|interval| interval.start.as_ref())
            .filter(|next| **next > start && !ends_before(range, next))
            .min();
        let end = next.map_or(range.1.clone(), |next| Bound::Excluded(next.clone()));
        left.push((Bound::Included(start), end));
        from = next.cloned();
    }
    left
}
