//! What document 01 asks of a list of commits of one job's growing records.
use super::{all_durable, outputs};
use crate::answers::paper;
use crate::{key_of, Bound, Job, Key, Range, Run, Table};

/// "the same destination, sources and planned ranges, output lists that begin with the earlier
/// ones, and keeps every completed part completed"
pub fn is_later(earlier: &Job, later: &Job) -> bool {
    let parts = earlier.parts.iter().zip(&later.parts);
    earlier.destination == later.destination
        && earlier.sources == later.sources
        && earlier.parts.len() == later.parts.len()
        && parts.into_iter().all(|(earlier, later)| {
            earlier.range == later.range
                && later.outputs.starts_with(&earlier.outputs)
                && (later.completed || !earlier.completed)
        })
}

/// A run's tables, each with the range that a view shows of it.
fn views(run: &Run) -> Vec<(&Table, Range)> {
    let views = run.views.iter();
    views
        .map(|view| (&view.table, crate::effective_range(view).unwrap()))
        .collect()
}

/// The tables through which a key is shown.
fn shown<'a>(views: &[(&'a Table, Range)], key: &Key) -> Vec<&'a Table> {
    let holding = views.iter().filter(|(_, range)| paper::holds(range, key));
    holding.map(|(table, _)| *table).collect()
}

/// Whether two lists have the same tables, each as often.
fn alike(a: &[&Table], b: &[&Table]) -> bool {
    let count = |list: &[&Table], table: &Table| list.iter().filter(|x| **x == table).count();
    a.len() == b.len() && a.iter().all(|table| count(a, table) == count(b, table))
}

/// The keys of an image and a job, and each followed by 00.
fn keys_of(runs: &[Run], job: &Job) -> Vec<Key> {
    let views = || runs.iter().flat_map(|run| &run.views);
    let ranges = views().filter_map(|view| view.visible.as_ref());
    let ranges = ranges.chain(job.parts.iter().map(|part| &part.range));
    let tables = views().map(|view| &view.table).chain(outputs(job));
    let mut keys: Vec<Key> = vec![vec![]];
    keys.extend(tables.flat_map(|table| std::iter::once(&table.first).chain(&table.last).cloned()));
    keys.extend(
        ranges.flat_map(|(start, end)| [start, end].into_iter().filter_map(key_of).cloned()),
    );
    keys.sort();
    keys.dedup();
    keys.iter()
        .flat_map(|key| [key.clone(), [&key[..], &[0]].concat()])
        .collect()
}

/// The first half of demand 3, at the keys of the first image and the record: a durable key is
/// shown by the destination through the outputs and by no other source, any other key as in the
/// first image; what is no source is untouched. Answers what is not so.
pub fn shows_wrongly(first: &[Run], after: &[Run], record: &Job) -> Option<String> {
    let ids = |runs: &[Run]| runs.iter().map(|run| run.id).collect::<Vec<_>>();
    if ids(first) != ids(after) {
        return Some("the runs are not the same".into());
    }
    let keys = keys_of(first, record);
    let intervals = all_durable(record);
    let own = |table| (table, own_range(table));
    let written: Vec<(&Table, Range)> = outputs(record).map(own).collect();
    for (before, now) in first.iter().zip(after) {
        if !record.sources.contains(&before.id) {
            if before != now {
                return Some(format!("run {} is no source and changed", now.id));
            }
            continue;
        }
        let (old, new) = (views(before), views(now));
        for key in &keys {
            let durable = intervals.iter().any(|interval| interval.holds(key));
            let due = match durable {
                false => shown(&old, key),
                true if now.id == record.destination => shown(&written, key),
                true => vec![],
            };
            if !alike(&due, &shown(&new, key)) {
                return Some(format!("run {} shows key {key:02x?} wrongly", now.id));
            }
        }
    }
    None
}

/// "first key included to last key included"; outputs have a last key.
fn own_range(table: &Table) -> Range {
    let last = table.last.clone().map_or(Bound::Unbounded, Bound::Included);
    (Bound::Included(table.first.clone()), last)
}
