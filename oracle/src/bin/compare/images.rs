//! The comparison of the calls on images.
use crate::answer::{expected_on, Answer};
use crate::call::{mark, mixed, Call, Question};
use crate::comparison::Comparison;
use crate::ranges::within;
use crate::shards::Shards;
use oracle::answers::images as answers;
use oracle::checks::{check_image, Checked, PlacedRun};
use oracle::inputs::images::every::{after_front, every_view, one_of_each, pairs_of_views};
use oracle::inputs::images::{self as inputs, near, Inputs, Takes};
use oracle::inputs::ranges::every::ALPHABET;
use oracle::inputs::{small_keys, Chance};
use oracle::Key;
use std::collections::HashMap;
use std::sync::Arc;

struct Images<'a, 'b>(&'a mut Comparison<'b>);

impl Takes for Images<'_, '_> {
    /// All three calls, each of the two others at the places and with the rooms that are asked
    /// for and at some more.
    fn take(&mut self, image: &[u8], _period: usize, calls: &[answers::Call]) {
        let to = &mut *self.0;
        let question = Question::new(Call::CheckImage, image, &[]);
        let checked = to.sure(&question, || check_image(image));
        let own = mark(0, image);
        to.tally.images.push(own);
        to.compare(&question, &expected_on(&checked, &question));
        if !to.skips(Call::CompactedEffectiveRange) {
            ask_places(to, image, &checked, calls, own);
        }
        if !to.skips(Call::List) {
            ask_lists(to, image, &checked, calls, own);
        }
    }
}

type Image = Checked<Vec<PlacedRun>>;

fn ask_places(
    to: &mut Comparison,
    image: &[u8],
    checked: &Image,
    calls: &[answers::Call],
    own: u64,
) {
    let asked = calls.iter().filter_map(|call| match call {
        answers::Call::EffectiveRange(run, view) => Some((*run, *view)),
        _ => None,
    });
    let mut places: Vec<(u64, u64)> = asked.collect();
    places.extend(more_places(checked, own));
    let mut question = Question::new(Call::CompactedEffectiveRange, image, &[]);
    for (run, view) in places {
        (question.x, question.y) = (run, view);
        let chance = mixed(question.mark(), 2) as usize;
        // The answer has 34 bytes.
        question.room = [34, 34, 34 + chance / 16 % 50, 34, 33, 0, 35, 34][chance % 8];
        let expected = to.sure(&question, || expected_on(checked, &question));
        to.compare(&question, &expected);
    }
}

/// All views of a small image and a place past the last; of others one or two.
fn more_places(checked: &Image, own: u64) -> Vec<(u64, u64)> {
    let Ok(runs) = checked else {
        return vec![(own & 1, own >> 1 & 1)];
    };
    let views: usize = runs.iter().map(|run| run.views.len()).sum();
    let count = runs.len() as u64;
    let mut places = vec![(own % (count + 1), own >> 8 & 3)];
    if views > 6 {
        let run = own % count;
        let views = runs[run as usize].views.len() as u64;
        places.push((run, (own >> 8) % (views + 1)));
        return places;
    }
    for (place, run) in (0..).zip(runs) {
        places.extend((0..run.views.len() as u64).map(|view| (place, view)));
    }
    places
}

fn ask_lists(
    to: &mut Comparison,
    image: &[u8],
    checked: &Image,
    calls: &[answers::Call],
    own: u64,
) {
    let mut question = Question::new(Call::List, image, &[]);
    question.room = usize::MAX;
    let whole = to.sure(&question, || expected_on(checked, &question));
    let more = (own >> 16) as usize % 90;
    let mut rooms = match &whole {
        Ok(Answer::Wrote(text)) => {
            let length = text.bytes.len();
            let mut rooms = vec![[length, length + more][own as usize % 2]];
            if own >> 1 & 3 == 0 {
                rooms.push([length - 1, 0, more % length][(own >> 3) as usize % 3]);
            }
            rooms
        }
        _ => vec![[0, 25, 300][own as usize % 3]],
    };
    rooms.extend(calls.iter().filter_map(|call| match call {
        answers::Call::List(room) => Some(*room as usize),
        _ => None,
    }));
    rooms.sort();
    rooms.dedup();
    for room in rooms {
        question.room = room;
        to.compare(&question, &within(&whole, room));
    }
}

fn made(to: &mut Comparison, chance: Chance, small: bool, make: impl FnOnce(&mut Inputs)) {
    make(&mut Inputs {
        to: &mut Images(to),
        small,
        chance,
        classes: HashMap::new(),
    });
}

pub fn add(shards: &mut Shards, full: bool) {
    let parts: [fn(&mut Inputs); 8] = [
        inputs::from_the_papers,
        inputs::one_view,
        inputs::several,
        inputs::places,
        inputs::sums,
        |out| {
            inputs::damage(out);
            inputs::ends(out);
        },
        inputs::pairs,
        |out| {
            inputs::ceilings(out);
            inputs::runs_with_views(out);
        },
    ];
    for part in parts {
        shards.add(move |to, chance| made(to, chance, !full, part));
    }
    add_every(shards, full);
    let scale = if full { 50 } else { 1 };
    for (small, count) in [(true, 45_000), (false, 15_000)] {
        shards.add_split(count * scale, 20_000, move |to, chance, count| {
            made(to, chance, small, |out| inputs::random(count, out))
        });
    }
    let near: [(usize, fn(usize, &mut Inputs)); 5] = [
        (4_000, near::near_keys),
        (8_000, near::near_sums),
        (400, near::near_runs),
        (15, near::near_views),
        (40, near::near_full),
    ];
    for (count, make) in near {
        shards.add_split(count * scale, count * 2, move |to, chance, count| {
            made(to, chance, false, |out| make(count, out))
        });
    }
}

fn keys(list: &[&[u8]]) -> Vec<Key> {
    list.iter().map(|key| key.to_vec()).collect()
}

fn add_every(shards: &mut Shards, full: bool) {
    // One view over the empty key, each byte, k and k00.
    let of = keys(&[b"", b"\0", b"\0\0", b"\x01", b"a", b"a\0", b"\xFF"]);
    let views = every_view(&if full { of } else { keys(&[b"", b"a", b"a\0"]) });
    for some in views.chunks(2_000) {
        let some = some.to_vec();
        shards.add(move |to, chance| made(to, chance, false, |out| one_of_each(&some, out)));
    }
    let views = every_view(&keys(if full { &[b"", b"a", b"a\0"] } else { &[b"a"] }));
    let all = Arc::new(views);
    for firsts in all.chunks(20) {
        let (firsts, all) = (firsts.to_vec(), all.clone());
        shards.add(move |to, chance| {
            made(to, chance, false, |out| {
                for first in &firsts {
                    pairs_of_views(first, &all, out);
                }
            })
        });
    }
    // Any bytes, and any bytes after one run's head and after a view's keys.
    let tails = Arc::new(small_keys(&ALPHABET, if full { 8 } else { 6 }));
    let table = [[0; 16], [1; 16]].concat();
    let front = [&[1, 0, 0, 0, 7, 0, 0x10][..], &table, &[0; 24]].concat();
    for (front, tails) in [(vec![], tails.clone()), (front, tails)] {
        shards
            .add(move |to, chance| made(to, chance, false, |out| after_front(&front, &tails, out)));
    }
}
