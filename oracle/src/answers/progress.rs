//! What the calls on durable intervals answer. Values are the originals', and asserted to be document 01's.
use super::paper::{holds, intersect};
use crate::checks::{all_durable, check_job, check_subtraction, outputs, Checked, Durable};
use crate::{key_of, Bound, Interval, Job, Key, Range};

/// Their numbers among the records on samples and plans.
pub const FROM_COMPACTION: u8 = 10;
pub const SUBTRACT_FROM: u8 = 11;

/// What a call is asked.
#[derive(Clone, Debug, Default, PartialEq, Eq, Hash)]
pub struct Case {
    pub call: u8,
    /// A job, or an interval.
    pub first: Vec<u8>,
    /// A range, or nothing.
    pub second: Vec<u8>,
}

/// With room enough.
pub fn value(case: &Case) -> Checked<Vec<Range>> {
    match case.call {
        FROM_COMPACTION => Ok(intervals(&check_job(&case.first)?)),
        SUBTRACT_FROM => {
            let (interval, range) = check_subtraction(&case.first, &case.second)?;
            Ok(subtracted(&interval, &range))
        }
        call => panic!("no call {call} on durable intervals"),
    }
}

/// The original also makes the views of the outputs, which draw ids: two for each output are enough, as no two
/// that follow one another are equal.
fn intervals(job: &Job) -> Vec<Range> {
    let supply = [[5; 10], [6; 10]].concat().repeat(outputs(job).count());
    let progress = crate::from_compaction(job, &supply).unwrap();
    let ranges: Vec<Range> = progress.intervals.iter().map(range_of).collect();
    let paper: Vec<Range> = all_durable(job).iter().map(Durable::range).collect();
    assert_eq!(ranges, paper);
    // What the original cuts outputs with.
    for (interval, range) in progress.intervals.iter().zip(&ranges) {
        assert_eq!(crate::interval_to_range(interval).as_ref(), Ok(range));
    }
    ranges
}

fn range_of(interval: &Interval) -> Range {
    let (start, end) = (interval.start.clone(), interval.end.clone());
    (
        start.map_or(Bound::Unbounded, Bound::Included),
        end.map_or(Bound::Unbounded, Bound::Excluded),
    )
}

/// The keys of the range below the interval, and those from its end on.
fn subtracted(interval: &Durable, range: &Range) -> Vec<Range> {
    let of = Interval {
        start: interval.start.clone(),
        end: interval.end.clone(),
    };
    let planned = crate::interval_of_planned_range(&interval.range());
    assert_eq!(planned.as_ref(), Ok(&of));
    let left = crate::subtract_from(&of, range).unwrap();
    let below = |key: &Key| (Bound::Unbounded, Bound::Excluded(key.clone()));
    let from = |key: &Key| (Bound::Included(key.clone()), Bound::Unbounded);
    let beside = [
        interval.start.as_ref().map(below),
        interval.end.as_ref().map(from),
    ];
    let both = beside
        .iter()
        .flatten()
        .filter_map(|beside| intersect(range, beside));
    assert_eq!(left, both.map(|both| both.range).collect::<Vec<_>>());
    for key in near(interval, range) {
        let count = left.iter().filter(|left| holds(left, &key)).count();
        let is = holds(range, &key) && !interval.holds(&key);
        assert_eq!(count, usize::from(is));
    }
    left
}

/// Each key that is given, the one after it and its longest proper prefix.
fn near(interval: &Durable, range: &Range) -> Vec<Key> {
    let given = [
        interval.start.as_ref(),
        interval.end.as_ref(),
        key_of(&range.0),
        key_of(&range.1),
    ];
    let mut keys = vec![vec![]];
    for key in given.into_iter().flatten() {
        keys.push(key.clone());
        keys.push([&key[..], &[0]].concat());
        keys.push(key[..key.len().saturating_sub(1)].to_vec());
    }
    keys
}
