//! Random lookups.
use super::{covering, of_key, of_view, up_to, Inputs, RANGE_CALLS};
use crate::answers::images::at;
use crate::answers::lookups::Asked;
use crate::checks::{read_image, runs_of, BUFFER_CEILING};
use crate::inputs::images::{harm, random_runs};
use crate::inputs::ranges::damages;
use crate::inputs::{excluded, included, range_image, write_image, write_index, Chance, Family};
use crate::{key_of, non_empty, Block, Bound, Key, Range, Run};

/// Keys to ask for near those that a buffer has.
pub struct Near {
    pub keys: Vec<Key>,
}

impl Near {
    pub fn of_runs(runs: &[Run]) -> Near {
        let mut keys = vec![];
        for view in runs.iter().flat_map(|run| &run.views) {
            keys.push(view.table.first.clone());
            keys.extend(view.table.last.clone());
            let bounds = view.visible.iter().flat_map(|range| [&range.0, &range.1]);
            keys.extend(bounds.filter_map(|bound| key_of(bound).cloned()));
        }
        Near { keys }
    }

    pub fn key(&self, chance: &mut Chance) -> Key {
        let mut key = match self.keys.is_empty() {
            true => vec![],
            false => chance.of(&self.keys).clone(),
        };
        match chance.below(12) {
            0..=5 => {}
            6 | 7 => key.push(0),
            8 => {
                key.pop();
            }
            9 => {
                if let Some(last) = key.last_mut() {
                    *last = last.wrapping_add(if chance.percent(50) { 1 } else { 255 });
                }
            }
            10 => key.push(chance.next() as u8),
            _ => key.truncate(chance.below(key.len() + 1)),
        }
        key
    }

    pub fn bound(&self, chance: &mut Chance) -> Bound {
        match chance.below(6) {
            0 => Bound::Unbounded,
            1..=3 => Bound::Included(self.key(chance)),
            _ => Bound::Excluded(self.key(chance)),
        }
    }

    /// Mostly one that passes `non_empty`.
    pub fn range(&self, chance: &mut Chance) -> Range {
        let key = self.key(chance);
        match chance.below(12) {
            0 => return excluded(&key, &[&key[..], &[0]].concat()),
            1 | 2 => return included(&key, &key),
            _ => {}
        }
        let (mut start, mut end) = (self.bound(chance), self.bound(chance));
        if !non_empty(&(start.clone(), end.clone())) && !chance.percent(8) {
            std::mem::swap(&mut start, &mut end);
            if !non_empty(&(start.clone(), end.clone())) {
                return included(&key, &key);
            }
        }
        (start, end)
    }

    /// One in twelve damaged.
    pub fn range_image(&self, chance: &mut Chance) -> Vec<u8> {
        let good = range_image(&self.range(chance));
        if chance.percent(92) || good.len() > 300 {
            return good;
        }
        chance.of(&damages(&good, true)).clone()
    }

    /// A lookup in an index.
    pub fn of_index(&self, chance: &mut Chance) -> Asked {
        match chance.below(3) {
            0 => covering(&self.range_image(chance)),
            _ => of_key(&self.key(chance))[chance.below(5)].clone(),
        }
    }

    /// A lookup in an image, at a place that is mostly there.
    pub fn of_image(&self, runs: &[Run], chance: &mut Chance) -> Asked {
        let run = place(chance, runs.len());
        let views = at(runs, run).map_or(0, |run| run.views.len());
        let view = place(chance, views);
        let range = self.range_image(chance);
        if chance.percent(70) {
            return of_view(*chance.of(&RANGE_CALLS), run, view, &range);
        }
        let end = self.bound(chance);
        let (kind, key) = super::kind_and_key(&end);
        let kind = match chance.below(25) {
            0 => *chance.of(&[0, 1, 2, 3, 4, 128, 255]),
            _ => kind,
        };
        up_to(run, view, (kind, key), &range)
    }
}

fn place(chance: &mut Chance, count: usize) -> u64 {
    match chance.below(16) {
        0 => *chance.of(&[255, 256, 4_096, 65_536, 1 << 32, u64::MAX]),
        1 => count as u64,
        _ => chance.below(count.max(1)) as u64,
    }
}

/// First keys of a family, mostly ascending.
pub fn random_indexes(count: usize, out: &mut Inputs) {
    for _ in 0..count {
        let small = out.small;
        let chance = &mut out.chance;
        let family = Family::new(chance, small);
        let length = match chance.below(100) {
            0 if !small => 100 + chance.below(1_000),
            1..=5 => 0,
            6..=30 => 1,
            _ => chance.below(9),
        };
        let mut keys: Vec<Key> = (0..length).map(|_| family.key(chance)).collect();
        if chance.percent(90) {
            keys.sort();
        }
        let (mut bytes, marks) = write_index(&offset_at_random(&keys, chance));
        bytes.truncate(BUFFER_CEILING + 1 + chance.below(3));
        if chance.percent(12) {
            harm(&mut bytes, &marks, chance);
        }
        let near = Near { keys };
        let asked = 2 + chance.below(5);
        let asked: Vec<Asked> = (0..asked).map(|_| near.of_index(chance)).collect();
        out.put(&bytes, &asked);
    }
}

/// Offsets are no keys: they may be any, and fall.
fn offset_at_random(keys: &[Key], chance: &mut Chance) -> Vec<Block> {
    let blocks = keys.iter().map(|first| Block {
        offset: match chance.below(4) {
            0 => chance.next(),
            1 => u64::MAX,
            _ => chance.below(1 << 20) as u64,
        },
        first: first.clone(),
    });
    blocks.collect()
}

pub fn random_images(count: usize, out: &mut Inputs) {
    for _ in 0..count {
        let small = out.small;
        let chance = &mut out.chance;
        let runs = random_runs(chance, small);
        let (mut bytes, marks) = write_image(&runs);
        bytes.truncate(BUFFER_CEILING + 1 + chance.below(3));
        if chance.percent(10) {
            harm(&mut bytes, &marks, chance);
        }
        // What is damaged may be an image still, of other runs.
        let runs = read_image(&bytes).map_or(runs, runs_of);
        let near = Near::of_runs(&runs);
        let asked = 2 + chance.below(5);
        let asked: Vec<Asked> = (0..asked).map(|_| near.of_image(&runs, chance)).collect();
        out.put(&bytes, &asked);
    }
}
