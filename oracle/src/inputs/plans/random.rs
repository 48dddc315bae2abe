//! Random plans.
use super::damage::marked;
use super::every::{blocks_of, short_key};
use super::{planning, sampling, selecting, Inputs};
use crate::checks::BUFFER_CEILING;
use crate::inputs::images::{harm, random_runs};
use crate::inputs::lookups::Near;
use crate::inputs::{write_anchors, write_image, write_index, Chance, Family};
use crate::{key_of, Index, Key, Run, View};

/// Bytes of one anchor or block.
fn random_bytes(chance: &mut Chance) -> u64 {
    match chance.below(40) {
        0 => chance.next(),
        1 => (1 << 63) - 1,
        2 => 1 << 62,
        3 => u64::MAX,
        4..=9 => 0,
        10..=14 => chance.next() >> 30,
        15..=19 => chance.below(4_000) as u64,
        _ => chance.below(20) as u64,
    }
}

/// Mostly such that a total passes.
fn some_bytes(chance: &mut Chance, care: bool) -> u64 {
    let bytes = random_bytes(chance);
    if care && bytes > 1 << 50 {
        return bytes >> 20;
    }
    bytes
}

/// Requested parts: mostly few, at times many or too many.
fn random_parts(chance: &mut Chance) -> u64 {
    match chance.below(60) {
        0 => 65 + chance.below(200) as u64,
        1 => u64::MAX,
        2 => 0,
        3 => 1,
        4..=12 => 64,
        13..=22 => 2 + chance.below(63) as u64,
        _ => 2 + chance.below(9) as u64,
    }
}

/// Around what decides: a part's share, the total, and nothing.
pub(super) fn random_least(chance: &mut Chance, parts: u64, total: u128) -> u64 {
    let share = (total / u128::from(parts.clamp(1, 64))) as u64;
    let total = total as u64;
    let around = |chance: &mut Chance, number: u64| {
        let number = number.wrapping_add(chance.below(3) as u64);
        number.wrapping_sub(1)
    };
    match chance.below(24) {
        0 => u64::MAX,
        1 | 2 => around(chance, total),
        3..=6 => around(chance, share),
        7..=9 => around(chance, total / 2),
        10 => around(chance, total / 3),
        11 => chance.below(30) as u64,
        _ => 0,
    }
}

/// Keys in one of the orders that a sort may find.
pub(super) fn ordered(mut keys: Vec<Key>, chance: &mut Chance) -> Vec<Key> {
    match chance.below(8) {
        0 | 1 => keys.sort(),
        2 => {
            keys.sort();
            keys.reverse();
        }
        3 if !keys.is_empty() => {
            // Stretches that ascend, as several tables have them.
            let length = 1 + chance.below(keys.len());
            keys.chunks_mut(length).for_each(<[Key]>::sort);
        }
        4 => {
            let length = 1 + chance.below(keys.len().max(1));
            keys.chunks_mut(length).for_each(|some| {
                some.sort();
                some.reverse();
            });
        }
        _ => {}
    }
    keys
}

fn put_anchors(keys: Vec<Key>, care: bool, out: &mut Inputs) {
    let chance = &mut out.chance;
    let even = chance.percent(20).then(|| some_bytes(chance, care));
    let anchors: Vec<(Key, u64)> = keys
        .into_iter()
        .map(|key| (key, even.unwrap_or_else(|| some_bytes(chance, care))))
        .collect();
    let total: u128 = anchors.iter().map(|(_, bytes)| u128::from(*bytes)).sum();
    let (mut bytes, marks) = write_anchors(&anchors);
    bytes.truncate(BUFFER_CEILING + 1 + chance.below(3));
    if chance.percent(4) {
        harm(&mut bytes, &marks, chance);
    }
    let parts = random_parts(chance);
    let least = random_least(chance, parts, total);
    out.put(&selecting(parts, least, &bytes));
}

/// Few anchors, whose keys are near each other.
pub fn random_anchors(count: usize, out: &mut Inputs) {
    for _ in 0..count {
        let small = out.small;
        let chance = &mut out.chance;
        let is_short = small || !chance.percent(10);
        let family = Family::new(chance, is_short);
        let length = match chance.below(100) {
            0..=2 => 0,
            3..=5 => 1,
            6..=9 => 20 + chance.below(40),
            10..=12 if family.stem.len() < 40 => 60 + chance.below(80),
            _ => 2 + chance.below(12),
        };
        let care = chance.percent(94);
        let keys: Vec<Key> = match chance.below(10) {
            0 => vec![family.key(chance); length],
            1..=3 => {
                let few: Vec<Key> = (0..3).map(|_| short_key(&family, chance)).collect();
                (0..length).map(|_| chance.of(&few).clone()).collect()
            }
            _ if care => (0..length).map(|_| short_key(&family, chance)).collect(),
            _ => (0..length).map(|_| family.key(chance)).collect(),
        };
        let keys = ordered(keys, chance);
        put_anchors(keys, care, out);
    }
}

/// Up to 4,096 anchors.
pub fn long_anchors(count: usize, out: &mut Inputs) {
    for _ in 0..count {
        let chance = &mut out.chance;
        let length = match chance.below(8) {
            0 => 4_094 + chance.below(4),
            1 | 2 => 1_000 + chance.below(3_000),
            _ => 60 + chance.below(500),
        };
        let (most, stem) = match chance.below(4) {
            0 => (2, chance.below(3)),
            1 if length < 600 => (4, 60 + chance.below(40)),
            _ => (3, 0),
        };
        let stem = vec![b's'; stem];
        let key = |chance: &mut Chance| {
            let tail = chance.next().to_be_bytes();
            [&stem[..], &tail[..chance.below(most + 1)]].concat()
        };
        let keys = (0..length).map(|_| key(chance)).collect();
        let keys = ordered(keys, chance);
        put_anchors(keys, true, out);
    }
}

/// Offsets that mostly ascend, and where the last block ends.
fn random_offsets(chance: &mut Chance, count: usize) -> (Vec<u64>, u64) {
    let mut at = match chance.below(6) {
        0 => chance.below(1_000) as u64,
        1 => chance.next(),
        _ => 0,
    };
    let falls = chance.percent(12);
    let mut offsets = vec![];
    for _ in 0..count {
        offsets.push(at);
        let bytes = some_bytes(chance, true);
        at = match falls && chance.percent(30) {
            true => *chance.of(&[0, at.wrapping_sub(bytes), at / 2, u64::MAX]),
            false => at.wrapping_add(bytes),
        };
    }
    let end = match chance.below(16) {
        0 => 0,
        1 => u64::MAX,
        2 => chance.next(),
        3 => 1 << 63,
        _ => at,
    };
    (offsets, end)
}

/// An index with these first keys, and where its data end.
fn random_index(mut keys: Vec<Key>, chance: &mut Chance) -> (Index, u64) {
    if !chance.percent(2) {
        keys.sort();
    }
    let (offsets, end) = random_offsets(chance, keys.len());
    let mut offsets = offsets.into_iter();
    (blocks_of(keys, || offsets.next().unwrap()), end)
}

pub fn random_indexes(count: usize, out: &mut Inputs) {
    for _ in 0..count {
        let small = out.small;
        let chance = &mut out.chance;
        let is_short = small || !chance.percent(10);
        let family = Family::new(chance, is_short);
        let length = match chance.below(100) {
            0..=3 => 0,
            4 if family.stem.len() < 40 => 60 + chance.below(240),
            5..=14 => 10 + chance.below(20),
            _ => 1 + chance.below(9),
        };
        let keys: Vec<Key> = (0..length).map(|_| family.key(chance)).collect();
        let near = Near { keys: keys.clone() };
        let (index, end) = random_index(keys, chance);
        let (mut bytes, marks) = write_index(&index);
        bytes.truncate(BUFFER_CEILING + 1 + chance.below(3));
        if chance.percent(6) {
            harm(&mut bytes, &marks, chance);
        }
        for _ in 0..2 {
            let chance = &mut out.chance;
            let most = match chance.below(20) {
                0 => *chance.of(&[0, 4_095, 4_096, 4_097, u64::MAX]),
                1 => 128,
                _ => chance.below(length + 2) as u64,
            };
            let range = match chance.percent(30) {
                true => vec![0],
                false => near.range_image(chance),
            };
            out.put(&sampling(most, end, &bytes, &range));
        }
    }
}

/// First keys of a table: its own and those near, and keys outside of what is shown.
fn keys_of_table(view: &View, count: usize, chance: &mut Chance) -> Vec<Key> {
    let mut keys = vec![view.table.first.clone()];
    keys.extend(view.table.last.clone());
    let bounds = view.visible.iter().flat_map(|range| [&range.0, &range.1]);
    keys.extend(bounds.filter_map(|bound| key_of(bound).cloned()));
    let near = Near { keys };
    let key = |_| {
        let mut key = near.key(chance);
        key.truncate(1_024);
        key
    };
    (0..count).map(key).collect()
}

/// An index for each view; raw sizes are mostly small, so that there is something to split.
fn indexes_of(runs: &mut [Run], blocks: usize, chance: &mut Chance) -> Vec<Index> {
    let light = chance.percent(80);
    let care = chance.percent(90);
    let mut indexes = vec![];
    for view in runs.iter_mut().flat_map(|run| &mut run.views) {
        let count = match chance.below(40) {
            0 => 0,
            1 if blocks > 2 => 100 + chance.below(100),
            _ => chance.below(blocks + 1),
        };
        let keys = keys_of_table(view, count, chance);
        let (index, end) = random_index(keys, chance);
        indexes.push(index);
        let table = &mut view.table;
        table.filter_offset = end;
        if care && end > 1 << 53 {
            table.filter_offset = 500;
        }
        if light {
            table.index_offset = chance.below(25) as u64;
            table.index_len = chance.below(5) as u64;
        }
    }
    indexes
}

fn put_plans(mut runs: Vec<Run>, blocks: usize, out: &mut Inputs) {
    let chance = &mut out.chance;
    let indexes = indexes_of(&mut runs, blocks, chance);
    let (mut image, marks) = write_image(&runs);
    image.truncate(BUFFER_CEILING + 1 + chance.below(3));
    if chance.percent(4) {
        harm(&mut image, &marks, chance);
    }
    let (mut buffer, marks) = marked(&indexes);
    buffer.truncate(BUFFER_CEILING + 1 + chance.below(3));
    if chance.percent(4) && !marks.is_empty() {
        harm(&mut buffer, &marks, chance);
    }
    let other = random_parts(chance);
    for parts in [2 + chance.below(6) as u64, other] {
        out.put(&planning(parts, &image, &buffer));
    }
}

pub fn random_images(count: usize, out: &mut Inputs) {
    for _ in 0..count {
        let small = out.small || !out.chance.percent(8);
        let runs = random_runs(&mut out.chance, small);
        put_plans(runs, 6, out);
    }
}

/// Images of many views, each with few blocks.
pub fn wide_images(count: usize, out: &mut Inputs) {
    for _ in 0..count {
        let chance = &mut out.chance;
        let across = 1 + chance.below(6);
        let length = match chance.below(10) {
            0 => 700 + chance.below(324),
            1 | 2 => 200 + chance.below(300),
            _ => 10 + chance.below(90),
        } / across;
        let tail = |chance: &mut Chance| chance.next().to_be_bytes()[..2].to_vec();
        let runs: Vec<Run> = (0..across as u32)
            .map(|id| {
                let mut firsts: Vec<Key> = (0..length).map(|_| tail(chance)).collect();
                firsts.sort();
                let views = firsts.iter().map(|first| {
                    let last = chance.percent(30).then(|| [&first[..], b"z"].concat());
                    crate::inputs::view(id as u8, first, last.as_deref(), None)
                });
                crate::inputs::run(id, &views.collect::<Vec<_>>())
            })
            .collect();
        let blocks = *out.chance.of(&[1, 2, 3, 8]);
        put_plans(runs, blocks, out);
    }
}
