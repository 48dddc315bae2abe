//! The comparison of the calls that sample and plan.
use crate::answer::{expected_plan, Answer, Expected};
use crate::call::{mixed, Call, Question};
use crate::comparison::Comparison;
use crate::ranges::{rooms, within};
use crate::shards::Shards;
use oracle::answers::plans::{self, Case};
use oracle::checks::BUFFER_CEILING;
use oracle::inputs::plans::every::{any_bytes, every_anchor, lists_from, plans_of, samples_of};
use oracle::inputs::plans::{self as inputs, Inputs, Rooms, Takes};
use oracle::inputs::ranges::every::ALPHABET;
use oracle::inputs::{small_keys, Chance};
use oracle::Key;
use std::collections::HashMap;
use std::sync::Arc;

struct Plans<'a, 'b>(&'a mut Comparison<'b>);

impl Takes for Plans<'_, '_> {
    /// The answer with room enough is worked out once, and asked for with several rooms.
    fn take(&mut self, case: &Case, asked: Rooms) {
        let to = &mut *self.0;
        let mut question = Question::plan(case);
        if to.skips(question.call) {
            return;
        }
        question.room = usize::MAX;
        let known = to.sure(&question, || plans::value(case));
        let whole = expected_plan(&known, &question);
        let own = question.mark();
        if question.call != Call::SampleAnchors {
            count_plan(to, &whole, own);
        }
        let chance = mixed(own, 5);
        let rooms = match (asked, &whole) {
            (Rooms::Each, Ok(Answer::Wrote(bytes))) => {
                let length = bytes.bytes.len();
                vec![length, length + 1, length - 1, length / 2, 0]
            }
            (Rooms::Each, _) => vec![0, 5_000],
            (Rooms::Some, _) => rooms(&whole, 0, chance),
        };
        for room in rooms {
            question.room = room;
            to.compare(&question, &within(&whole, room));
        }
    }
}

/// A plan's first byte is the count of its ranges.
fn count_plan(to: &mut Comparison, whole: &Expected, own: u64) {
    if let Ok(Answer::Wrote(plan)) = whole {
        to.tally.plans.push(own);
        to.tally.split += u64::from(plan.bytes[0] > 1);
        to.tally.long += u64::from(plan.bytes.len() > BUFFER_CEILING);
    }
}

fn made(to: &mut Comparison, chance: Chance, small: bool, make: impl FnOnce(&mut Inputs)) {
    make(&mut Inputs {
        to: &mut Plans(to),
        small,
        chance,
        classes: HashMap::new(),
    });
}

pub fn add(shards: &mut Shards, full: bool) {
    let parts: [fn(&mut Inputs); 6] = [
        inputs::from_the_papers,
        inputs::damage,
        inputs::faults_of_anchors,
        inputs::faults_of_indexes,
        inputs::faults_of_images,
        inputs::ceilings,
    ];
    for part in parts {
        shards.add(move |to, chance| made(to, chance, !full, part));
    }
    add_every(shards, full);
    let scale = if full { 100 } else { 1 };
    let random: [(usize, fn(usize, &mut Inputs)); 8] = [
        (18_000, inputs::random_anchors),
        (12, inputs::long_anchors),
        (4_000, inputs::random_indexes),
        (4_000, inputs::random_images),
        (30, inputs::wide_images),
        (300, inputs::near_totals),
        (3, inputs::near_most_sampled),
        (4, inputs::long_plans),
    ];
    for (count, make) in random {
        shards.add_split(count * scale, count * 2, move |to, chance, count| {
            made(to, chance, false, |out| make(count, out))
        });
    }
}

fn keys(list: &[&[u8]]) -> Vec<Key> {
    list.iter().map(|key| key.to_vec()).collect()
}

/// All short lists of anchors over a few keys and numbers, with each number of parts and least range.
fn add_every(shards: &mut Shards, full: bool) {
    let all = keys(&[b"", b"a", b"a\0", b"b"]);
    let (of, most) = if full { (&all[..], 4) } else { (&all[1..3], 3) };
    let anchors = Arc::new(every_anchor(of, &[0, 1, 3]));
    for count in 1..=most {
        for first in anchors.to_vec() {
            let anchors = anchors.clone();
            shards.add(move |to, chance| {
                made(to, chance, false, |out| {
                    let lists = lists_from(&first, &anchors, count);
                    plans_of(&lists, &[2, 3, 4, 5], &[0, 1, 2, 4, 5], out);
                })
            });
        }
    }
    let some = if full { 12 } else { 1 };
    shards.add(move |to, chance| {
        made(to, chance, false, |out| {
            samples_of(&all, &[0, 4, 9], some, out)
        })
    });
    // Any bytes, also after a count and a number.
    let tails = Arc::new(small_keys(&ALPHABET, if full { 7 } else { 4 }));
    for front in [&[][..], &[0, 1, 0, 0, 0, 0, 0, 0, 0, 0]] {
        let tails = tails.clone();
        shards.add(move |to, chance| made(to, chance, false, |out| any_bytes(front, &tails, out)));
    }
}
