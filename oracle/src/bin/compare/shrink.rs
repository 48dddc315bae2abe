//! The smallest input of a difference: whatever can be left out without losing it is left out.
use crate::call::{Call, Question};
use crate::comparison::find;
use crate::lent::Lent;
use oracle::checks::{
    read_anchors, read_image, read_index, read_indexes, read_job, read_range, runs_of,
};
use oracle::inputs::plans::end_to_end;
use oracle::inputs::{anchors, image, range_image, write_index, write_job};
use oracle::{key_of, Block, Bound, Index, Job, Key, Range, Run, Table};
use std::time::Instant;

/// No more than so many inputs are tried, for no longer than so many seconds.
const TRIES: usize = 40_000;
const SECONDS: u64 = 60;
/// A long list loses no less than one part in so many at once, or there were too much to try.
const FINEST: usize = 64;

/// What makes an input small: few bytes, then small numbers.
fn weight(question: &Question) -> (usize, usize, u64, u64) {
    let slices = [&question.a, &question.b, &question.c];
    let sum = slices.into_iter().flatten().map(|byte| u64::from(*byte));
    let places = question.x.saturating_add(question.y);
    let places = places.saturating_add(question.number.into());
    (question.size(), question.room, places, sum.sum())
}

pub fn smallest(question: Question, lent: &mut Lent) -> Question {
    let mut least = question;
    let mut tries = 0;
    let began = Instant::now();
    'smaller: loop {
        for other in smaller(&least) {
            tries += 1;
            if tries > TRIES || began.elapsed().as_secs() > SECONDS {
                return least;
            }
            if weight(&other) < weight(&least) && find(&other, lent).is_some() {
                least = other;
                continue 'smaller;
            }
        }
        return least;
    }
}

/// Inputs that lack something, those that lack much before the others.
fn smaller(question: &Question) -> Vec<Question> {
    let mut list = vec![];
    let with = |set: &dyn Fn(&mut Question)| {
        let mut other = question.clone();
        set(&mut other);
        other
    };
    let as_values = match question.call {
        call if call.is_in_indexes() => smaller_indexes(&question.a),
        Call::SampleAnchors => smaller_indexes(&question.a),
        Call::SelectBoundaries => smaller_anchors(&question.a),
        Call::FromCompaction => smaller_jobs(&question.a),
        Call::SubtractFrom => smaller_ranges(&question.a),
        call if call.is_on_ranges() => smaller_ranges(&question.a),
        _ => smaller_images(&question.a),
    };
    for bytes in as_values {
        list.push(with(&|other| other.a.clone_from(&bytes)));
    }
    let as_values = if question.call == Call::Commit {
        smaller_jobs(&question.b)
    } else {
        smaller_ranges(&question.b)
    };
    for bytes in as_values {
        list.push(with(&|other| other.b.clone_from(&bytes)));
    }
    if question.call == Call::PlanSubcompactionRanges {
        for (a, b) in smaller_plans(&question.a, &question.b) {
            list.push(with(&|other| {
                other.a.clone_from(&a);
                other.b.clone_from(&b);
            }));
        }
    }
    for bytes in smaller_bytes(&question.a) {
        list.push(with(&|other| other.a.clone_from(&bytes)));
    }
    for bytes in smaller_bytes(&question.b) {
        list.push(with(&|other| other.b.clone_from(&bytes)));
    }
    for bytes in smaller_bytes(&question.c) {
        list.push(with(&|other| other.c.clone_from(&bytes)));
    }
    for room in [0, question.room / 2, question.room.saturating_sub(1)] {
        list.push(with(&|other| other.room = room));
    }
    for place in [0, question.x / 2] {
        list.push(with(&|other| other.x = place));
    }
    for place in [0, question.y / 2] {
        list.push(with(&|other| other.y = place));
    }
    for number in [0, question.number / 2] {
        list.push(with(&|other| other.number = number));
    }
    list
}

/// Bytes taken out, many at once and then one by one; then bytes made less.
fn smaller_bytes(bytes: &[u8]) -> Vec<Vec<u8>> {
    let mut list = vec![];
    let mut count = bytes.len();
    while count > 0 {
        for from in (0..=bytes.len() - count).step_by(count) {
            list.push([&bytes[..from], &bytes[from + count..]].concat());
        }
        if bytes.len() / count > FINEST {
            break;
        }
        count /= 2;
    }
    if bytes.len() <= 300 {
        for at in (0..bytes.len()).filter(|at| bytes[*at] != 0) {
            for value in [0, bytes[at] / 2, bytes[at] - 1] {
                let mut other = bytes.to_vec();
                other[at] = value;
                list.push(other);
            }
        }
    }
    list
}

fn smaller_keys(key: &Key) -> Vec<Key> {
    match key.len() {
        0 => vec![],
        1 => vec![vec![]],
        length => vec![
            vec![],
            key[..length / 2].to_vec(),
            key[..length - 1].to_vec(),
        ],
    }
}

fn smaller_bounds(bound: &Bound) -> Vec<Bound> {
    let mut list = vec![];
    if let Some(key) = key_of(bound) {
        list.push(Bound::Unbounded);
        list.extend(smaller_keys(key).into_iter().map(|key| match bound {
            Bound::Included(_) => Bound::Included(key),
            _ => Bound::Excluded(key),
        }));
    }
    list
}

fn smaller_of(range: &Range) -> Vec<Range> {
    let starts = smaller_bounds(&range.0).into_iter();
    let mut list: Vec<Range> = starts.map(|start| (start, range.1.clone())).collect();
    let ends = smaller_bounds(&range.1).into_iter();
    list.extend(ends.map(|end| (range.0.clone(), end)));
    list
}

fn smaller_ranges(bytes: &[u8]) -> Vec<Vec<u8>> {
    let Ok(range) = read_range(bytes) else {
        return vec![];
    };
    smaller_of(&range).iter().map(range_image).collect()
}

fn smaller_tables(table: &Table) -> Vec<Table> {
    let mut list = vec![];
    let mut with = |set: &dyn Fn(&mut Table)| {
        let mut other = table.clone();
        set(&mut other);
        list.push(other);
    };
    with(&|table| table.last = None);
    for key in smaller_keys(&table.first) {
        with(&|table| table.first.clone_from(&key));
    }
    for key in table.last.iter().flat_map(smaller_keys) {
        with(&|table| table.last = Some(key.clone()));
    }
    with(&|table| table.index_offset = 0);
    with(&|table| table.index_len = 0);
    with(&|table| table.filter_offset = 0);
    list
}

/// Without a part of a list.
fn without<T: Clone>(list: &[T]) -> Vec<Vec<T>> {
    let mut lists = vec![];
    let mut count = list.len();
    while count > 0 {
        for from in (0..=list.len() - count).step_by(count) {
            lists.push([&list[..from], &list[from + count..]].concat());
        }
        if list.len() / count > FINEST {
            break;
        }
        count /= 2;
    }
    lists
}

fn smaller_images(bytes: &[u8]) -> Vec<Vec<u8>> {
    let Ok(runs) = read_image(bytes) else {
        return vec![];
    };
    let runs = runs_of(runs);
    let mut list = without(&runs);
    let with = |place: usize, run: Run| {
        let mut other = runs.clone();
        other[place] = run;
        other
    };
    for (place, run) in runs.iter().enumerate() {
        for views in without(&run.views) {
            list.push(with(
                place,
                Run {
                    views,
                    ..run.clone()
                },
            ));
        }
    }
    for (place, run) in runs.iter().enumerate() {
        let id = Run {
            id: place as u32,
            ..run.clone()
        };
        list.push(with(place, id));
        // Of a long run the views themselves stay.
        for (at, view) in run.views.iter().enumerate().take(20) {
            let tables = smaller_tables(&view.table).into_iter();
            let ranges = view.visible.iter().flat_map(smaller_of);
            let mut views = vec![view.clone()];
            views[0].visible = None;
            views.extend(tables.map(|table| oracle::View {
                table,
                ..view.clone()
            }));
            views.extend(ranges.map(|range| oracle::View {
                visible: Some(range),
                ..view.clone()
            }));
            for view in views {
                let mut run = run.clone();
                run.views[at] = view;
                list.push(with(place, run));
            }
        }
    }
    list.iter().map(|runs| image(runs)).collect()
}

fn smaller_indexes(bytes: &[u8]) -> Vec<Vec<u8>> {
    let Ok(blocks) = read_index(bytes) else {
        return vec![];
    };
    let mut list = without(&blocks);
    for (at, block) in blocks.iter().enumerate().take(20) {
        let mut with = |block: Block| {
            let mut other = blocks.clone();
            other[at] = block;
            list.push(other);
        };
        for first in smaller_keys(&block.first) {
            let offset = block.offset;
            with(Block { offset, first });
        }
        let first = block.first.clone();
        with(Block { offset: 0, first });
    }
    list.iter().map(|blocks| write_index(blocks).0).collect()
}

fn smaller_anchors(bytes: &[u8]) -> Vec<Vec<u8>> {
    let Ok(given) = read_anchors(bytes) else {
        return vec![];
    };
    let mut list = without(&given);
    for (at, (key, bytes)) in given.iter().enumerate().take(20) {
        let mut with = |anchor: (Key, u64)| {
            let mut other = given.clone();
            other[at] = anchor;
            list.push(other);
        };
        for key in smaller_keys(key) {
            with((key, *bytes));
        }
        for bytes in [0, *bytes / 2] {
            with((key.clone(), bytes));
        }
    }
    list.iter().map(|list| anchors(list)).collect()
}

/// Without some views and their indexes; with smaller indexes.
fn smaller_plans(image_bytes: &[u8], bytes: &[u8]) -> Vec<(Vec<u8>, Vec<u8>)> {
    let Ok(runs) = read_image(image_bytes) else {
        return vec![];
    };
    let runs = runs_of(runs);
    let views: usize = runs.iter().map(|run| run.views.len()).sum();
    let Ok(indexes) = read_indexes(bytes, views) else {
        return vec![];
    };
    let mut list = vec![];
    for kept in without(&(0..views).collect::<Vec<_>>()) {
        let mut places = 0..;
        let mut runs = runs.clone();
        for run in &mut runs {
            run.views.retain(|_| kept.contains(&places.next().unwrap()));
        }
        runs.retain(|run| !run.views.is_empty());
        let indexes: Vec<Index> = kept.iter().map(|at| indexes[*at].clone()).collect();
        list.push((image(&runs), end_to_end(&indexes)));
    }
    for (at, index) in indexes.iter().enumerate().take(20) {
        let front = end_to_end(&indexes[..at]);
        let back = end_to_end(&indexes[at + 1..]);
        for smaller in smaller_indexes(&write_index(index).0) {
            list.push((image_bytes.to_vec(), [&front[..], &smaller, &back].concat()));
        }
    }
    list
}

fn smaller_jobs(bytes: &[u8]) -> Vec<Vec<u8>> {
    let Ok(job) = read_job(bytes) else {
        return vec![];
    };
    let mut list: Vec<Job> = vec![];
    for parts in without(&job.parts) {
        list.push(Job {
            parts,
            ..job.clone()
        });
    }
    for sources in without(&job.sources) {
        list.push(Job {
            sources,
            ..job.clone()
        });
    }
    for (place, part) in job.parts.iter().enumerate() {
        let mut with = |set: &dyn Fn(&mut oracle::Part)| {
            let mut other = job.clone();
            set(&mut other.parts[place]);
            list.push(other);
        };
        for outputs in without(&part.outputs) {
            with(&|part| part.outputs.clone_from(&outputs));
        }
        for range in smaller_of(&part.range) {
            with(&|part| part.range.clone_from(&range));
        }
        for (at, table) in part.outputs.iter().enumerate().take(20) {
            for table in smaller_tables(table) {
                with(&|part| part.outputs[at] = table.clone());
            }
        }
    }
    list.iter().map(|job| write_job(job).0).collect()
}
