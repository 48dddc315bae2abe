//! The comparison of the calls on durable intervals.
use crate::answer::{expected_ranges, Answer};
use crate::call::{mixed, Question};
use crate::comparison::Comparison;
use crate::ranges::{rooms, within};
use crate::shards::Shards;
use oracle::answers::progress::{self, Case};
use oracle::inputs::plans::Rooms;
use oracle::inputs::progress::{self as inputs, Inputs, Takes};
use oracle::inputs::{all_ranges, small_keys, Chance};
use std::collections::HashMap;
use std::sync::Arc;

struct Progress<'a, 'b>(&'a mut Comparison<'b>);

impl Takes for Progress<'_, '_> {
    /// The answer with room enough is worked out once, and asked for with several rooms.
    fn take(&mut self, case: &Case, asked: Rooms) {
        let to = &mut *self.0;
        let mut question = Question::progress(case);
        if to.skips(question.call) {
            return;
        }
        question.room = usize::MAX;
        let known = to.sure(&question, || progress::value(case));
        if let Ok(ranges) = &known {
            to.tally.answered[ranges.len().min(2)] += 1;
        }
        let whole = expected_ranges(&known, &question);
        let rooms = match (asked, &whole) {
            (Rooms::Each, Ok(Answer::Wrote(bytes))) => {
                let length = bytes.bytes.len();
                vec![length, length + 1, length - 1, length / 2, 0]
            }
            (Rooms::Each, _) => vec![0, 5_000],
            (Rooms::Some, _) => rooms(&whole, 0, mixed(question.mark(), 9)),
        };
        for room in rooms {
            question.room = room;
            to.compare(&question, &within(&whole, room));
        }
    }
}

fn made(to: &mut Comparison, chance: Chance, make: impl FnOnce(&mut Inputs)) {
    make(&mut Inputs {
        to: &mut Progress(to),
        small: false,
        chance,
        classes: HashMap::new(),
    });
}

pub fn add(shards: &mut Shards, full: bool) {
    let parts: [fn(&mut Inputs); 8] = [
        inputs::few_jobs,
        inputs::every_job,
        inputs::jobs_of_commits,
        inputs::subtractions_from_the_papers,
        inputs::some_subtractions,
        inputs::damaged_subtractions,
        inputs::faults_of_subtractions,
        inputs::long_subtractions,
    ];
    for part in parts {
        shards.add(move |to, chance| made(to, chance, part));
    }
    // Any two ranges over keys of up to two bytes.
    let alphabet: &[u8] = if full { &[0, 0x61, 0xFF] } else { &[0] };
    let keys = Arc::new(small_keys(alphabet, 2));
    for interval in all_ranges(&keys) {
        let keys = keys.clone();
        shards.add(move |to, chance| {
            made(to, chance, |out| {
                inputs::every_subtraction(&keys, &interval, out)
            })
        });
    }
    let scale = if full { 60 } else { 1 };
    let random: [(usize, fn(usize, &mut Inputs)); 2] = [
        (20_000, inputs::random_jobs),
        (20_000, inputs::random_subtractions),
    ];
    for (count, make) in random {
        shards.add_split(count * scale, count * 2, move |to, chance, count| {
            made(to, chance, |out| make(count, out))
        });
    }
}
