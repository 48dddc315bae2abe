//! The comparison of commits, alone and in lists.
use crate::answer::{Answer, Expected};
use crate::call::{mark, mixed, Question};
use crate::comparison::{Comparison, Difference};
use crate::lists::{held_to_demand_3, list_fault};
use crate::ranges::within;
use crate::shards::Shards;
use oracle::answers::commits::Case;
use oracle::checks::{Checked, Stop};
use oracle::inputs::commits::{self as inputs, every, near, Inputs, Takes};
use oracle::inputs::ranges::every::ALPHABET;
use oracle::inputs::{small_keys, Chance};
use oracle::{Part, View};
use std::collections::{BTreeMap, HashMap};
use std::sync::Arc;

struct Commits<'a, 'b> {
    to: &'a mut Comparison<'b>,
    /// The commits of the list so far, and whether each was accepted.
    list: Vec<(Case, bool)>,
    /// What the last accepted one wrote.
    last: Vec<u8>,
    judge: Judge,
}

/// Judges what a list left, given its first image with its last accepted record. Answers what
/// is wrong.
type Judge = fn(&mut Comparison, &Case, &[u8]) -> Option<String>;

impl<'a, 'b> Commits<'a, 'b> {
    fn new(to: &'a mut Comparison<'b>, judge: Judge) -> Self {
        Commits {
            to,
            list: vec![],
            last: vec![],
            judge,
        }
    }
}

impl Takes for Commits<'_, '_> {
    fn take(&mut self, case: &Case) -> Stop {
        ask(self.to, case).err().unwrap_or(0)
    }

    fn take_listed(&mut self, case: &Case) -> Checked<Vec<u8>> {
        let answer = ask(self.to, case);
        self.to.tally.listed += 1;
        self.list.push((case.clone(), answer.is_ok()));
        let Answer::Wrote(bytes) = answer? else {
            unreachable!("a commit writes an image");
        };
        self.last.clone_from(&bytes.bytes);
        Ok(bytes.bytes)
    }

    fn end_list(&mut self, _accepted: usize) {
        let list = std::mem::take(&mut self.list);
        self.to.tally.lists += 1;
        if let Some(held) = held_to_demand_3(&list) {
            self.to.tally.held += 1;
            if let Some(what) = (self.judge)(self.to, &held, &self.last) {
                let steps = list.into_iter().map(|(case, _)| case).collect();
                self.to.stop(Difference::List(steps, what));
            }
        }
    }
}

/// With the lent buffer that is given, and sometimes with another.
pub fn ask(to: &mut Comparison, case: &Case) -> Expected {
    let mut question = Question::commit(case);
    let own = mark(mark(mark(0, &case.image), &case.job), &case.ids);
    to.tally.commits.push(own);
    let answer = to.ask(&question);
    let Ok(Answer::Wrote(bytes)) = &answer else {
        return answer;
    };
    let length = bytes.bytes.len();
    let chance = mixed(question.mark(), 3) as usize;
    let more = chance / 64 % 200;
    let other = [
        length + more,
        length,
        length - 1,
        0,
        length - 1 - more % length,
        length + 1,
    ];
    if let Some(room) = other.get(chance % 24) {
        question.room = *room;
        to.compare(&question, &within(&answer, *room));
    }
    answer
}

fn made(to: &mut Comparison, chance: Chance, small: bool, make: impl FnOnce(&mut Inputs)) {
    let mut commits = Commits::new(to, list_fault);
    make(&mut Inputs {
        to: &mut commits,
        small,
        chance,
        classes: HashMap::new(),
        pairs: BTreeMap::new(),
    });
}

/// Some lists, each judged.
pub fn judged_lists(to: &mut Comparison, count: usize, seed: u64, judge: Judge) {
    let mut commits = Commits::new(to, judge);
    let mut inputs = Inputs {
        to: &mut commits,
        small: true,
        chance: Chance(seed),
        classes: HashMap::new(),
        pairs: BTreeMap::new(),
    };
    for _ in 0..count {
        inputs::random_list(&mut inputs, true);
    }
}

/// Each step of a list again, and what the list leaves.
pub fn list_again(to: &mut Comparison, steps: &[Case]) {
    let mut commits = Commits::new(to, list_fault);
    let mut image = steps[0].image.clone();
    for step in steps {
        let case = Case {
            image: image.clone(),
            ..step.clone()
        };
        if let Ok(new) = commits.take_listed(&case) {
            image = new;
        }
    }
    commits.end_list(0);
}

pub fn add(shards: &mut Shards, full: bool) {
    // The longest first: a thread that has it at the end keeps the others waiting.
    if full {
        shards.add(|to, chance| made(to, chance, true, inputs::most_pieces));
    }
    let parts: [fn(&mut Inputs); 5] = [
        inputs::odd,
        inputs::draws,
        |out| {
            inputs::damage(out);
            inputs::ends(out);
        },
        inputs::pairs,
        |out| {
            inputs::ceilings(out);
            inputs::uncovered_among_runs(out);
        },
    ];
    for part in parts {
        shards.add(move |to, chance| made(to, chance, !full, part));
    }
    add_every(shards, full);
    let scale = if full { 60 } else { 1 };
    for (small, count) in [(true, 20_000), (false, 10_000)] {
        shards.add_split(count * scale, 10_000, move |to, chance, count| {
            made(to, chance, small, |out| inputs::random(count, out))
        });
        shards.add_split(count * scale / 20, 500, move |to, chance, count| {
            made(to, chance, small, |out| {
                for place in 0..count {
                    inputs::random_list(out, place % 3 > 0);
                }
            })
        });
    }
    shards.add(|to, chance| made(to, chance, true, |out| inputs::lists(0, out)));
    let near: [(usize, fn(usize, &mut Inputs)); 7] = [
        (4_000, inputs::damaged),
        (4_000, near::near_needs),
        (500, near::near_keys),
        (20, near::near_parts),
        (10, near::near_full),
        (8, near::near_views),
        (8, near::near_outputs),
    ];
    for (count, make) in near {
        shards.add_split(count * scale, count * 2, move |to, chance, count| {
            made(to, chance, false, |out| make(count, out))
        });
    }
}

fn add_each(
    shards: &mut Shards,
    views: &[View],
    parts: Vec<Part>,
    work: impl Fn(&View, &[Part], &mut Inputs) + Clone + Send + Sync + 'static,
) {
    let parts = Arc::new(parts);
    for view in views {
        let (view, parts, work) = (view.clone(), parts.clone(), work.clone());
        shards.add(move |to, chance| made(to, chance, false, |out| work(&view, &parts, out)));
    }
}

fn add_every(shards: &mut Shards, full: bool) {
    let keys = every::few_keys();
    let some = every::some_views();
    let views = if full {
        every::good_views(&keys)
    } else {
        some.clone()
    };
    add_each(shards, &views, every::any_parts(&keys), every::one_part);
    let one = if full { &some[..] } else { &some[..1] };
    let two_outputs = every::good_parts(&keys, true);
    add_each(shards, &some, two_outputs.clone(), every::one_part);
    add_each(shards, one, two_outputs, every::one_part_lists);
    // Over two keys alone, so that all pairs of views can be tried.
    let two = &keys[..2];
    let views = every::good_views(if full { two } else { &two[..1] });
    let seconds = views.clone();
    let parts = every::good_parts(two, false);
    add_each(shards, &views, parts, move |first, parts, out| {
        every::two_views(first, &seconds, parts, out)
    });
    let parts = every::good_parts(&keys, false);
    let seconds = some.clone();
    add_each(shards, one, parts.clone(), move |first, parts, out| {
        for second in &seconds {
            every::two_runs(first, second, parts, out);
        }
    });
    add_each(shards, one, parts, |view, parts, out| {
        for first in parts {
            every::two_parts(view, first, parts, out);
        }
    });
    let tails = Arc::new(small_keys(&ALPHABET, if full { 7 } else { 5 }));
    let front = [0, 0, 0, 0, 1, 0, 0, 0, 0];
    for front in [&front[..0], &front[..4], &front] {
        let (front, tails) = (front.to_vec(), tails.clone());
        shards.add(move |to, chance| {
            made(to, chance, false, |out| {
                every::after_front(&front, &tails, out)
            })
        });
    }
}
