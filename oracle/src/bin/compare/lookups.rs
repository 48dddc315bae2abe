//! The comparison of the lookups in indexes and images.
use crate::answer::{expected_lookup, Answer};
use crate::call::{mark, mixed, Call, Question};
use crate::comparison::Comparison;
use crate::ranges::{rooms, within};
use crate::shards::Shards;
use oracle::answers::lookups::{Asked, Read, Value};
use oracle::checks::Checked;
use oracle::inputs::images::every::every_view;
use oracle::inputs::lookups::every::{
    every_list, every_order, good_views, in_lists, in_runs, of_each, of_one_view, of_some_views,
    runs_from, some_in_lists, some_in_runs,
};
use oracle::inputs::lookups::{self as inputs, near, Inputs, Takes};
use oracle::inputs::{small_keys, Chance};
use oracle::{key_of, kind_of, Key, View};
use std::collections::HashMap;
use std::sync::Arc;

struct Lookups<'a, 'b>(&'a mut Comparison<'b>);

impl Takes for Lookups<'_, '_> {
    /// The buffer is read once for all lookups in it.
    fn take(&mut self, buffer: &[u8], asked: &[Asked]) {
        let to = &mut *self.0;
        let Some(first) = asked.iter().find(|asked| is_wanted(to, asked)) else {
            return;
        };
        let question = Question::lookup(buffer, first);
        let is_index = first.is_of_index();
        let read = to.sure(&question, || Read::new(is_index, buffer));
        for asked in asked {
            assert_eq!(asked.is_of_index(), is_index);
            if is_wanted(to, asked) {
                ask(to, &read, Question::lookup(buffer, asked), asked);
            }
        }
    }
}

fn is_wanted(to: &Comparison, asked: &Asked) -> bool {
    !to.skips(Call::of_lookup(asked.call))
}

/// The answer with room enough is worked out once, and asked for with several rooms.
fn ask(to: &mut Comparison, read: &Read, mut question: Question, asked: &Asked) {
    let known: Checked<Value> = to.sure(&question, || read.value(asked));
    if let (Ok(Value::Shown(shown)), Some(view)) = (&known, read.view(asked)) {
        to.tally.views.push(mark_of(view));
        to.tally.parts += u64::from(shown.is_some());
    }
    if !question.call.writes() {
        let expected = expected_lookup(&known, &question);
        return to.compare(&question, &expected);
    }
    question.room = usize::MAX;
    let whole = expected_lookup(&known, &question);
    debug_assert!(matches!(whole, Err(_) | Ok(Answer::Wrote(_))));
    let chance = mixed(question.mark(), 4);
    for room in rooms(&whole, 0, chance) {
        question.room = room;
        to.compare(&question, &within(&whole, room));
    }
}

/// A number that tells views apart by their keys and raw sizes.
fn mark_of(view: &View) -> u64 {
    let (table, bytes) = (&view.table, |key: Option<&Key>| match key {
        Some(key) => mark(1, key),
        None => 0,
    });
    let mut marked = mixed(table.index_offset + table.index_len, mark(0, &table.first));
    marked = mixed(marked, bytes(table.last.as_ref()));
    let bounds = view.visible.iter().flat_map(|range| [&range.0, &range.1]);
    bounds.fold(marked, |marked, bound| {
        let kind = u64::from(kind_of(bound));
        mixed(mixed(marked, kind), bytes(key_of(bound)))
    })
}

pub fn made(to: &mut Comparison, chance: Chance, small: bool, make: impl FnOnce(&mut Inputs)) {
    make(&mut Inputs {
        to: &mut Lookups(to),
        small,
        chance,
        classes: HashMap::new(),
    });
}

pub fn add(shards: &mut Shards, full: bool) {
    let parts: [fn(&mut Inputs); 8] = [
        inputs::from_the_papers,
        inputs::lists,
        inputs::one_view,
        inputs::few_views,
        |out| {
            inputs::places(out);
            inputs::damage(out);
            inputs::damaged_ranges(out);
        },
        inputs::faults_of_indexes,
        inputs::faults_of_images,
        inputs::ceilings,
    ];
    for part in parts {
        shards.add(move |to, chance| made(to, chance, !full, part));
    }
    add_every_list(shards, full);
    add_every_run(shards, full);
    add_random(shards, full);
}

fn add_random(shards: &mut Shards, full: bool) {
    let scale = if full { 20 } else { 1 };
    let random: [(usize, fn(usize, &mut Inputs)); 8] = [
        (8_000, inputs::random_indexes),
        (8_000, inputs::random_images),
        (500, near::near_keys),
        (25, near::near_full_indexes),
        (10, near::near_views),
        (15, near::long_runs),
        (10, near::near_full_images),
        (40, near::near_full_asked),
    ];
    for (count, make) in random {
        shards.add_split(count * scale, count * 2, move |to, chance, count| {
            made(to, chance, false, |out| make(count, out))
        });
    }
}

/// Keys of up to two bytes: of three letters, or of two.
fn short_keys(full: bool) -> Vec<Key> {
    let alphabet: &[u8] = if full {
        &[0x00, 0x61, 0xFF]
    } else {
        &[0x00, 0x61]
    };
    small_keys(alphabet, 2)
}

fn add_every_list(shards: &mut Shards, full: bool) {
    let keys = short_keys(full);
    let asked = Arc::new(of_each(&keys));
    let lists = every_list(&keys, if full { 4 } else { 3 });
    for some in lists.chunks(60) {
        let (some, asked) = (some.to_vec(), asked.clone());
        shards.add(move |to, chance| made(to, chance, false, |out| in_lists(&some, &asked, out)));
    }
    // In any order, so that most descend.
    for count in [2, 3] {
        let (lists, asked) = (every_order(&short_keys(false), count), asked.clone());
        shards.add(move |to, chance| {
            made(to, chance, false, |out| {
                some_in_lists(&lists, &asked, 12, out)
            })
        });
    }
}

fn keys(list: &[&[u8]]) -> Vec<Key> {
    list.iter().map(|key| key.to_vec()).collect()
}

fn add_runs(shards: &mut Shards, runs: Vec<Vec<View>>, asked: &Arc<Vec<Asked>>) {
    let asked = asked.clone();
    shards.add(move |to, chance| made(to, chance, false, |out| in_runs(&runs, &asked, out)));
}

/// Runs of no view and of one over a few keys; runs of two and of three over fewer.
fn add_every_run(shards: &mut Shards, full: bool) {
    let all = keys(&[b"", b"a", b"a\0", b"b", b"\xFF"]);
    let of = &all[..if full { 5 } else { 2 }];
    let asked = Arc::new(of_one_view(of));
    add_runs(shards, vec![vec![]], &asked);
    let views = every_view(of);
    for some in good_views(&views).chunks(40) {
        let runs = some.iter().map(|view| vec![view.clone()]).collect();
        add_runs(shards, runs, &asked);
    }
    // Those that are refused too.
    shards.add(move |to, chance| {
        made(to, chance, false, |out| {
            some_in_runs(&views, &asked, 60, out)
        })
    });
    let (two, three) = if full { (3, 2) } else { (2, 1) };
    for (count, keys) in [(2, &all[..two]), (3, &all[..three])] {
        let views = good_views(&every_view(keys));
        let asked = Arc::new(of_some_views(keys, count));
        for first in &views {
            add_runs(shards, runs_from(first, &views, count as usize), &asked);
        }
    }
}
