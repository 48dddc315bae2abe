//! All commits over a few keys with one or two views, parts and outputs.
use super::{Inputs, Model};
use crate::answers::commits::Case;
use crate::checks::{check_4, check_5};
use crate::inputs::images::every::every_view;
use crate::inputs::{all_ranges, image, part, run, table, view, write_job};
use crate::{kind_of, Key, Part, Range, Run, Table, View};

/// Keys k and k00, and the empty key.
pub fn few_keys() -> Vec<Key> {
    vec![vec![], b"a".to_vec(), b"a\0".to_vec()]
}

/// Every view over these keys that is accepted, and views of the tables 20 and 21, which are
/// outputs.
pub fn good_views(keys: &[Key]) -> Vec<View> {
    let mut views = every_view(keys);
    views.retain(|view| check_4(view).and_then(|()| check_5(view)).is_ok());
    for number in [20, 21] {
        views.push(view(number, b"a", Some(b"a"), None));
    }
    views
}

/// Some that differ in what a commit leaves of them.
pub fn some_views() -> Vec<View> {
    vec![
        view(1, b"", None, None),
        view(2, b"a", Some(b"a"), None),
        view(3, b"", Some(b"a\0"), None),
        view(20, b"", Some(b"a"), None),
    ]
}

/// No outputs, one, or if asked two; the tables 20 and 21. Some lack a last key.
fn every_outputs(keys: &[Key], two: bool, whole: bool) -> Vec<Vec<Table>> {
    let mut lasts: Vec<Option<&Key>> = keys.iter().map(Some).collect();
    lasts.extend((!whole).then_some(None));
    let one = |number: u8| {
        let of = |first: &Key| {
            let ends = lasts.iter().filter(|last| !whole || Some(first) <= **last);
            let tables = ends.map(|last| table(number, first, last.map(Vec::as_slice)));
            tables.collect::<Vec<_>>()
        };
        keys.iter().flat_map(of).collect::<Vec<_>>()
    };
    let mut outputs = vec![vec![]];
    outputs.extend(one(20).into_iter().map(|table| vec![table]));
    if two {
        for first in one(20) {
            outputs.extend(
                one(21)
                    .into_iter()
                    .map(|second| vec![first.clone(), second]),
            );
        }
    }
    outputs
}

fn every_part(ranges: &[Range], outputs: &[Vec<Table>]) -> Vec<Part> {
    let mut parts = vec![];
    for range in ranges {
        for completed in [false, true] {
            parts.extend(
                outputs
                    .iter()
                    .map(|outputs| part(range.clone(), completed, outputs)),
            );
        }
    }
    parts
}

/// Ranges that a part may have.
fn planned(keys: &[Key]) -> Vec<Range> {
    let mut ranges = all_ranges(keys);
    ranges.retain(|range| {
        kind_of(&range.0) != 2 && kind_of(&range.1) != 1 && crate::non_empty(range)
    });
    ranges
}

/// Parts with any range and at most one output.
pub fn any_parts(keys: &[Key]) -> Vec<Part> {
    every_part(&all_ranges(keys), &every_outputs(keys, false, false))
}

/// Parts with a range that is taken and at most one output, or two.
pub fn good_parts(keys: &[Key], two: bool) -> Vec<Part> {
    every_part(&planned(keys), &every_outputs(keys, two, true))
}

/// The commit has a supply that is enough for all, and often the last bytes of it are not used.
fn case(runs: &[Run], destination: u32, parts: &[Part], out: &mut Inputs) -> Case {
    let sources: Vec<u32> = runs.iter().map(|run| run.id).collect();
    let model = Model::new(runs, destination, &sources, parts);
    let length = *out.chance.of(&[60, 40, 20]);
    let supply = (0..8).flat_map(|_| out.chance.next().to_be_bytes());
    let ids = supply.take(length).collect();
    Case {
        image: image(&model.runs),
        job: write_job(&model.job).0,
        ids,
        room: 700 + out.chance.below(3),
    }
}

/// Each of the parts, on a run of one view.
pub fn one_part(view: &View, parts: &[Part], out: &mut Inputs) {
    for one in parts {
        let case = case(&[run(7, &[view.clone()])], 7, &[one.clone()], out);
        out.put(&case);
    }
}

/// Two parts, the first of which is given.
pub fn two_parts(view: &View, first: &Part, parts: &[Part], out: &mut Inputs) {
    for second in parts {
        let pair = [first.clone(), second.clone()];
        let case = case(&[run(7, &[view.clone()])], 7, &pair, out);
        out.put(&case);
    }
}

/// Each of the parts, on a run of two views that overlap or not, the first of which is given.
pub fn two_views(first: &View, views: &[View], parts: &[Part], out: &mut Inputs) {
    for second in views {
        let seven = run(7, &[first.clone(), second.clone()]);
        for one in parts {
            let case = case(&[seven.clone()], 7, &[one.clone()], out);
            out.put(&case);
        }
    }
}

/// Each of the parts, on two runs of one view each; the destination is the one or the other.
pub fn two_runs(first: &View, second: &View, parts: &[Part], out: &mut Inputs) {
    let runs = [run(7, &[first.clone()]), run(9, &[second.clone()])];
    for (place, one) in parts.iter().enumerate() {
        let destination = [7, 9][place % 2];
        let case = case(&runs, destination, &[one.clone()], out);
        out.put(&case);
    }
}

/// Every byte after the front of a job; the image has the runs 0 and 1, without views.
pub fn after_front(front: &[u8], tails: &[Key], out: &mut Inputs) {
    let image = image(&[run(0, &[]), run(1, &[])]);
    for tail in tails {
        out.put(&Case {
            image: image.clone(),
            job: [front, tail].concat(),
            ids: vec![],
            room: 13,
        });
    }
}

/// Every list of records of one part with two outputs that grows, from a run of one view.
pub fn one_part_lists(view: &View, parts: &[Part], out: &mut Inputs) {
    for whole in parts.iter().filter(|part| part.completed) {
        if whole.outputs.len() < 2 {
            continue;
        }
        let stage = |count: usize, completed| Part {
            completed,
            outputs: whole.outputs[..count].to_vec(),
            ..whole.clone()
        };
        let stages = [
            stage(0, false),
            stage(1, false),
            stage(2, false),
            stage(2, true),
        ];
        // Which of the stages are committed.
        for chosen in [0b0110, 0b1010, 0b1100, 0b1110, 0b1111] {
            let mut image = None;
            let mut accepted = 0;
            for (place, stage) in stages.iter().enumerate() {
                if chosen >> place & 1 == 0 {
                    continue;
                }
                let mut case = case(&[run(7, &[view.clone()])], 7, &[stage.clone()], out);
                case.image = image.take().unwrap_or(case.image);
                let answer = out.to.take_listed(&case);
                accepted += usize::from(answer.is_ok());
                image = Some(answer.unwrap_or(case.image));
            }
            out.to.end_list(accepted);
        }
    }
}
