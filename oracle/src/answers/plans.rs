//! What the calls that plan answer. Values are the originals', and asserted to be document 01's, which
//! are worked out here once more over plain lists.
use super::paper::holds;
use crate::checks::{
    check_anchors, check_planned, check_sampled, check_sampling, runs_of, Checked,
};
use crate::{Anchors, Block, Bound, Key, Range, View};

pub const SAMPLE_ANCHORS: u8 = 1;
pub const SELECT_BOUNDARIES: u8 = 2;
pub const PLAN_SUBCOMPACTION_RANGES: u8 = 3;

/// What a call that plans is asked. What it does not have is 0 or empty.
#[derive(Clone, Debug, Default, PartialEq, Eq, Hash)]
pub struct Case {
    pub call: u8,
    /// The anchors of a table, or the requested parts.
    pub setting: u64,
    /// The data end offset, or the least range bytes.
    pub number: u64,
    /// An index, anchors or an image.
    pub first: Vec<u8>,
    /// A range, or the indexes of the image's views.
    pub second: Vec<u8>,
}

#[derive(Clone, Debug, PartialEq, Eq)]
pub enum Value {
    Anchors(Anchors),
    Plan(Vec<Range>),
}

/// With room enough.
pub fn value(case: &Case) -> Checked<Value> {
    match case.call {
        SAMPLE_ANCHORS => {
            let (index, range) = check_sampling(case.setting, &case.first, &case.second)?;
            let anchors = sampled(case.setting, case.number, &index, &range);
            Ok(Value::Anchors(anchors))
        }
        SELECT_BOUNDARIES => {
            let anchors = check_anchors(case.setting, &case.first)?;
            Ok(Value::Plan(selected(case.setting, case.number, &anchors)))
        }
        PLAN_SUBCOMPACTION_RANGES => planned(case),
        call => panic!("no call {call} that plans"),
    }
}

fn sampled(most: u64, data_end: u64, index: &[Block], range: &Range) -> Anchors {
    let anchors = crate::sample_anchors(index, data_end, most as usize, range).unwrap();
    assert_eq!(anchors, plain_anchors(most, data_end, index, range));
    assert!(anchors.len() as u64 <= most.max(1));
    anchors
}

fn selected(parts: u64, least: u64, anchors: &Anchors) -> Vec<Range> {
    let plan = crate::select_boundaries(anchors, parts as usize, least).unwrap();
    let boundaries = plain_boundaries(parts, least, anchors);
    assert_eq!(plan, ranges_between(&boundaries));
    assert!(plan.len() as u64 <= parts.max(1));
    let smallest = anchors.iter().map(|(key, _)| key).min();
    assert!(boundaries.first() > smallest || boundaries.is_empty());
    assert!(boundaries.is_sorted_by(|a, b| a < b));
    plan
}

fn planned(case: &Case) -> Checked<Value> {
    let given = check_planned(case.setting, &case.first, &case.second)?;
    let most = crate::MAX_ANCHORS_PER_SST as u64;
    assert_eq!(most, 128);
    let mut anchors = vec![];
    for (view, index) in given.views().zip(&given.indexes) {
        let effective = crate::effective_range(view).unwrap();
        anchors.extend(sampled(most, view.table.filter_offset, index, &effective));
    }
    check_sampled(&anchors)?;
    let raw_size = |view: &View| view.table.index_offset + view.table.index_len;
    let least = given.views().map(raw_size).max().unwrap_or(0);
    let plan = selected(case.setting, least, &anchors);
    let indexes = given.indexes;
    let runs = runs_of(given.image.runs);
    let parts = case.setting as usize;
    let original = crate::plan_subcompaction_ranges(&runs, &indexes, parts).unwrap();
    assert_eq!(original, plan);
    Ok(Value::Plan(plan))
}

// ---- document 01

/// As few blocks in a group as make at most so many groups.
fn plain_anchors(most: u64, data_end: u64, index: &[Block], range: &Range) -> Anchors {
    let most = most.max(1) as usize;
    let stride = (1..).find(|stride| index.chunks(*stride).count() <= most);
    let starts = (0..index.len()).step_by(stride.unwrap());
    let anchors = starts.map(|at| {
        let end = index.get(at + stride.unwrap());
        let end = end.map_or(data_end, |block| block.offset);
        let bytes = end.checked_sub(index[at].offset);
        (index[at].first.clone(), bytes.unwrap_or(0))
    });
    anchors.filter(|(key, _)| holds(range, key)).collect()
}

/// "Target = max(total div parts, least range bytes). One unbounded range results if parts ≤ 1, target = 0
/// or target ≥ total. Anchors are sorted by key; equal keys keep their given order. A boundary exceeds the
/// smallest anchor key and the boundary before it. At most max(1, parts) ranges result."
fn plain_boundaries(parts: u64, least: u64, anchors: &Anchors) -> Vec<Key> {
    let total: u128 = anchors.iter().map(|(_, bytes)| u128::from(*bytes)).sum();
    if parts <= 1 {
        return vec![];
    }
    let target = (total / u128::from(parts)).max(least.into());
    if target == 0 || target >= total {
        return vec![];
    }
    // No two places are equal, so that any sort is a stable one.
    let mut order: Vec<usize> = (0..anchors.len()).collect();
    order.sort_unstable_by_key(|place| (&anchors[*place].0, *place));
    let mut boundaries: Vec<Key> = vec![];
    let (mut before, mut last) = (0, &anchors[order[0]].0);
    for place in order {
        let (key, bytes) = &anchors[place];
        let threshold = target * (boundaries.len() as u128 + 1);
        if before >= threshold && key > last && boundaries.len() as u64 + 1 < parts {
            boundaries.push(key.clone());
            last = key;
        }
        before += u128::from(*bytes);
    }
    boundaries
}

/// Each but the last ends excluded where the next starts included.
fn ranges_between(boundaries: &[Key]) -> Vec<Range> {
    let keys = || boundaries.iter().cloned();
    let starts = [Bound::Unbounded].into_iter();
    let starts = starts.chain(keys().map(Bound::Included));
    let ends = keys().map(Bound::Excluded).chain([Bound::Unbounded]);
    starts.zip(ends).collect()
}
