//! Every lookup of a few keys and ranges: in all lists of first keys, and in all runs of a few views.
use super::lists::ascending_lists;
use super::{covering, images_of, of_key, of_view, of_views, up_to, Inputs, RANGE_CALLS};
use crate::answers::lookups::{Asked, COMPACTED_INTERSECTION};
use crate::checks::{check_4, check_5};
use crate::inputs::{all_bounds, all_ranges, image, index, run};
use crate::{Bound, Key, View};

/// Every list of first keys that does not descend.
pub fn every_list(keys: &[Key], most: usize) -> Vec<Vec<Key>> {
    let mut keys = keys.to_vec();
    keys.sort();
    ascending_lists(&keys, most)
}

/// Every list of so many first keys, most of which descend.
pub fn every_order(keys: &[Key], count: usize) -> Vec<Vec<Key>> {
    let mut lists = vec![vec![]];
    for _ in 0..count {
        let longer = |list: &Vec<Key>| {
            let list = list.clone();
            keys.iter()
                .map(move |key| [list.clone(), vec![key.clone()]].concat())
        };
        lists = lists.iter().flat_map(longer).collect();
    }
    lists
}

/// Each lookup of each key, and of each range over them.
pub fn of_each(keys: &[Key]) -> Vec<Asked> {
    let mut asked: Vec<Asked> = keys.iter().flat_map(|key| of_key(key)).collect();
    let ranges = images_of(&all_ranges(keys));
    asked.extend(ranges.iter().map(|range| covering(range)));
    asked
}

/// All of them in each list.
pub fn in_lists(lists: &[Vec<Key>], asked: &[Asked], out: &mut Inputs) {
    for list in lists {
        out.put(&index(list), asked);
    }
}

/// Some of them in each list.
pub fn some_in_lists(lists: &[Vec<Key>], asked: &[Asked], count: usize, out: &mut Inputs) {
    for list in lists {
        let some: Vec<Asked> = (0..count).map(|_| out.chance.of(asked).clone()).collect();
        out.put(&index(list), &some);
    }
}

/// Each lookup of a range in a run of one view: with each end bound at place 0, and at places that are
/// not there.
pub fn of_one_view(keys: &[Key]) -> Vec<Asked> {
    let ends = all_bounds(keys);
    let mut asked = vec![];
    for (number, range) in images_of(&all_ranges(keys)).iter().enumerate() {
        asked.extend(RANGE_CALLS.map(|call| of_view(call, 0, 0, range)));
        for end in &ends {
            asked.push(up_to(0, 0, super::kind_and_key(end), range));
        }
        let end = &ends[number % ends.len()];
        let far = [1, 2, 3, u64::MAX][number % 4];
        asked.extend(of_views(0, far, end, range));
        asked.extend(of_views(far, 0, end, range));
    }
    asked
}

/// The lookups of each range in a run of some views that depend on more than one of them.
pub fn of_some_views(keys: &[Key], count: u64) -> Vec<Asked> {
    let mut asked = vec![];
    for range in images_of(&all_ranges(keys)) {
        asked.extend(
            RANGE_CALLS[..2]
                .iter()
                .map(|call| of_view(*call, 0, 0, &range)),
        );
        for place in 0..count {
            asked.push(of_view(COMPACTED_INTERSECTION, 0, place, &range));
        }
    }
    asked
}

/// All of them in each run.
pub fn in_runs(runs: &[Vec<View>], asked: &[Asked], out: &mut Inputs) {
    for views in runs {
        out.put(&image(&[run(3, views)]), asked);
    }
}

/// Some of them in each run of one view.
pub fn some_in_runs(views: &[View], asked: &[Asked], count: usize, out: &mut Inputs) {
    for view in views {
        let some: Vec<Asked> = (0..count).map(|_| out.chance.of(asked).clone()).collect();
        out.put(&image(&[run(3, std::slice::from_ref(view))]), &some);
    }
}

/// The views that pass the checks.
pub fn good_views(views: &[View]) -> Vec<View> {
    let good = |view: &&View| check_4(view).and_then(|()| check_5(view)).is_ok();
    views.iter().filter(good).cloned().collect()
}

fn start(view: &View) -> Bound {
    crate::effective_range(view).unwrap().0
}

/// Runs that begin with a view and go on with others whose starts do not descend.
pub fn runs_from(first: &View, views: &[View], count: usize) -> Vec<Vec<View>> {
    let mut runs = vec![vec![first.clone()]];
    for _ in 1..count {
        let longer = |run: &Vec<View>| {
            let (run, least) = (run.clone(), start(run.last().unwrap()));
            let next = views
                .iter()
                .filter(move |next| crate::cmp_start(&least, &start(next)) <= 0);
            next.map(move |next| [run.clone(), vec![next.clone()]].concat())
        };
        runs = runs.iter().flat_map(longer).collect();
    }
    runs
}
