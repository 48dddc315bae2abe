//! The comparison of the range calls.
use crate::answer::{expected_of, Answer, Expected};
use crate::call::{mixed, Call, Question};
use crate::comparison::Comparison;
use crate::shards::Shards;
use oracle::answers::ranges::{self, value, Input};
use oracle::inputs::ranges::every::{self, ALPHABET};
use oracle::inputs::ranges::{
    damaged, full_buffers, long_keys, near_ceilings, near_full, random, stops, together, Inputs,
    Takes,
};
use oracle::inputs::{all_bounds, all_ranges, small_keys, Chance};
use oracle::{Key, Range};
use std::collections::HashMap;
use std::sync::Arc;

struct Ranges<'a, 'b>(&'a mut Comparison<'b>);

impl Takes for Ranges<'_, '_> {
    fn take(&mut self, input: &Input) {
        for call in calls(input.call) {
            if self.0.skips(*call) {
                continue;
            }
            let question = Question::on_ranges(*call, input);
            ask(self.0, question, input);
        }
    }
}

fn calls(number: u8) -> &'static [Call] {
    match number {
        ranges::COMPARE_KEYS => &[Call::Compare],
        ranges::CMP_BOUND => &[Call::CmpBound],
        ranges::NON_EMPTY => &[Call::NonEmpty],
        ranges::INTERSECT => &[
            Call::Intersect,
            Call::IntersectStartKey,
            Call::IntersectEndKey,
        ],
        ranges::UNION => &[Call::Union],
        ranges::FROM_PREFIX => &[Call::FromPrefix],
        ranges::FROM_PREFIX_AND_SUBRANGE => &[Call::FromPrefixAndSubrange],
        ranges::AS_POINT => &[Call::AsPoint],
        ranges::CONTAINS => &[Call::Contains],
        _ => panic!("no call {number}"),
    }
}

/// The answer with room enough is worked out once, and asked for with several rooms.
fn ask(to: &mut Comparison, mut question: Question, input: &Input) {
    if !question.call.writes() {
        let expected = to.sure(&question, || expected_of(&value(input), &question));
        return to.compare(&question, &expected);
    }
    let given = question.room;
    question.room = usize::MAX;
    let whole = to.sure(&question, || expected_of(&value(input), &question));
    let chance = mixed(question.mark(), 1);
    for room in rooms(&whole, given, chance) {
        question.room = room;
        to.compare(&question, &within(&whole, room));
    }
}

/// With this room, of a call whose answer with room enough is known.
pub fn within(whole: &Expected, room: usize) -> Expected {
    match whole {
        Ok(Answer::Wrote(bytes)) if room < bytes.bytes.len() => Err(16),
        other => other.clone(),
    }
}

/// Exactly enough or more; one time in four also too little. A room that was given is among
/// them.
pub fn rooms(whole: &Expected, given: usize, chance: u64) -> Vec<usize> {
    let more = (chance >> 8) as usize % 40;
    let Ok(Answer::Wrote(bytes)) = whole else {
        return vec![[0, 1, 17, 40 + more][chance as usize % 4]];
    };
    let length = bytes.bytes.len();
    let mut rooms = vec![[length, length, length + 1, length + more][chance as usize % 4]];
    if chance >> 2 & 3 == 0 {
        let short = [0, length.saturating_sub(1), more % (length + 1)][(chance >> 4) as usize % 3];
        rooms.push(short);
    }
    if given > 0 {
        rooms.push(given);
    }
    rooms.dedup();
    rooms
}

fn made(to: &mut Comparison, chance: Chance, make: impl FnOnce(&mut Inputs)) {
    make(&mut Inputs {
        to: &mut Ranges(to),
        small: false,
        chance,
        classes: HashMap::new(),
    });
}

pub fn add(shards: &mut Shards, full: bool) {
    add_every_short(shards, full);
    add_every_pair(shards, full);
    for call in 1..=9 {
        shards.add(move |to, chance| {
            made(to, chance, |out| {
                stops(call, out);
                together(call, out);
                long_keys(call, out);
                full_buffers(call, out);
            })
        });
        let scale = if full { 20 } else { 1 };
        shards.add_split(20_000 * scale, 100_000, move |to, chance, count| {
            made(to, chance, |out| random(call, count, out))
        });
        shards.add_split(2_500 * scale, 25_000, move |to, chance, count| {
            made(to, chance, |out| near_ceilings(call, count, out))
        });
        shards.add_split(50 * scale, 1_000, move |to, chance, count| {
            made(to, chance, |out| near_full(call, count, out))
        });
    }
    let count = if full { 2_000 } else { 100 };
    shards.add_split(count, 200, |to, chance, count| {
        made(to, chance, |out| damaged(count, out))
    });
}

/// What has one argument that is read field by field.
fn add_every_short(shards: &mut Shards, full: bool) {
    let tails = Arc::new(small_keys(&ALPHABET, if full { 6 } else { 4 }));
    for first in (0..=255u8).step_by(16) {
        let tails = tails.clone();
        shards.add(move |to, chance| {
            made(to, chance, |out| {
                for head in first..=first + 15 {
                    every::pairs_of_kinds(head, out);
                    for call in [ranges::NON_EMPTY, ranges::AS_POINT] {
                        every::after_head(call, head, &tails, out);
                    }
                    // The key comes after the range.
                    let some = &tails[..tails.len() / 4];
                    every::after_head(ranges::CONTAINS, head, some, out);
                }
            })
        });
    }
    let longest = if full { 6 } else { 4 };
    shards.add(move |to, chance| made(to, chance, |out| every::prefixes(longest, out)));
}

/// A shard for some of the first of two.
fn add_each<T: Clone + Send + Sync + 'static>(
    shards: &mut Shards,
    firsts: &[T],
    most: usize,
    work: impl Fn(&T, &mut Inputs) + Clone + Send + Sync + 'static,
) {
    for firsts in firsts.chunks(most) {
        let (firsts, work) = (firsts.to_vec(), work.clone());
        shards.add(move |to, chance| {
            made(to, chance, |out| {
                firsts.iter().for_each(|first| work(first, out))
            })
        });
    }
}

fn add_every_pair(shards: &mut Shards, full: bool) {
    let of = |longest: usize| small_keys(&ALPHABET, longest);
    let keys = Arc::new(of(if full { 4 } else { 3 }));
    let seconds = keys.clone();
    add_each(shards, &keys, 100, move |first, out| {
        every::pairs_of_keys(first, &seconds, out)
    });
    let bounds = Arc::new(all_bounds(&of(if full { 3 } else { 2 })));
    let seconds = bounds.clone();
    add_each(shards, &bounds, 60, move |first, out| {
        every::pairs_of_bounds(first, &seconds, out)
    });
    let ranges = all_ranges(&of(if full { 3 } else { 2 }));
    let keys = of(if full { 3 } else { 2 });
    add_each(shards, &ranges, 1_000, move |range, out| {
        every::held_keys(range, &keys, out);
        for call in [ranges::NON_EMPTY, ranges::AS_POINT] {
            every::on_ranges(call, std::slice::from_ref(range), out);
        }
    });
    let ranges = Arc::new(all_ranges(&if full { of(2) } else { few_keys() }));
    let seconds = ranges.clone();
    add_each(shards, &ranges, 40, move |first: &Range, out| {
        every::pairs_of_ranges(first, &seconds, out)
    });
    let prefixes = of(if full { 3 } else { 2 });
    add_each(shards, &prefixes, 10, move |prefix, out| {
        every::subranges(prefix, &ranges, out)
    });
}

/// The empty key, k and k00.
fn few_keys() -> Vec<Key> {
    [&[][..], &[0], &[1], b"a", b"a\0", &[0xFF]]
        .map(<[u8]>::to_vec)
        .to_vec()
}
