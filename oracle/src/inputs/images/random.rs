//! Random images.
use super::damage::harm;
use super::faults::{faulty, two_views, Fault, FAULTS};
use super::Inputs;
use crate::answers::images::{at, listing, Call};
use crate::checks::{check_image, BUFFER_CEILING, SIZE_CEILING};
use crate::inputs::{write_image, Chance, Family};
use crate::{Bound, Key, Run, Table, View};

fn random_number(chance: &mut Chance) -> u64 {
    match chance.below(40) {
        0 => u64::MAX,
        1 => 1 << 53,
        2 => (1 << 53) - 1,
        3 => chance.next(),
        4..=9 => chance.next() >> 12,
        10..=14 => 0,
        _ => chance.below(100_000) as u64,
    }
}

fn random_id(chance: &mut Chance) -> [u8; 16] {
    let mut id = [0; 16];
    if chance.percent(40) {
        id[15] = chance.below(4) as u8;
    } else {
        id[..8].copy_from_slice(&chance.next().to_be_bytes());
        id[8..].copy_from_slice(&chance.next().to_be_bytes());
    }
    id
}

/// A key that is not below `least`; without care, seldom one that is.
fn key_from(family: &Family, chance: &mut Chance, least: &Key, care: bool) -> Key {
    match chance.below(6) {
        0 => least.clone(),
        1 => [&least[..], &[0]].concat(),
        _ => {
            let key = family.key(chance);
            if key < *least && (care || chance.percent(97)) {
                least.clone()
            } else {
                key
            }
        }
    }
}

/// A view whose effective range starts at `start`; without care, seldom something else.
fn random_view(family: &Family, chance: &mut Chance, start: &Key, care: bool) -> View {
    let first = match chance.below(10) {
        0..=4 => start.clone(),
        5 | 6 => start[..chance.below(start.len() + 1)].to_vec(),
        7 => vec![],
        _ => start.clone().min(family.key(chance)),
    };
    let last = chance
        .percent(65)
        .then(|| key_from(family, chance, start.max(&first), care));
    let is_cut = first != *start;
    let visible = (is_cut && (care || chance.percent(96)) || chance.percent(35)).then(|| {
        let begin = match chance.below(10) {
            0..=2 if !is_cut => Bound::Unbounded,
            3 | 4 if !is_cut => Bound::Included(start.clone().min(family.key(chance))),
            _ if !care && chance.percent(2) => Bound::Excluded(start.clone()),
            _ => Bound::Included(start.clone()),
        };
        let end = match chance.below(10) {
            0 | 1 => Bound::Unbounded,
            2 if last.is_some() => Bound::Included(last.clone().unwrap()),
            3 if last.as_ref().is_some_and(|last| !care || last > start) => {
                Bound::Excluded(last.clone().unwrap())
            }
            4..=6 => Bound::Included(key_from(family, chance, start, care)),
            _ => {
                let key = key_from(family, chance, start, care);
                if key == *start && (care || chance.percent(95)) {
                    Bound::Excluded([&key[..], &[0]].concat())
                } else {
                    Bound::Excluded(key)
                }
            }
        };
        (begin, end)
    });
    let visible = if !care && chance.percent(2) {
        Some(family.range(chance))
    } else {
        visible
    };
    let mut index_offset = random_number(chance);
    let mut index_len = random_number(chance);
    if u128::from(index_offset) + u128::from(index_len) > SIZE_CEILING
        && (care || chance.percent(97))
    {
        index_offset >>= 12;
        index_len = *chance.of(&[0, 70, (1 << 53) - index_offset]);
    }
    View {
        id: random_id(chance),
        table: Table {
            id: random_id(chance),
            index_offset,
            index_len,
            filter_offset: random_number(chance),
            first,
            last,
        },
        visible,
    }
}

pub fn random_runs(chance: &mut Chance, small: bool) -> Vec<Run> {
    let care = chance.percent(60);
    let mut family = Family::new(chance, small);
    let count = match chance.below(200) {
        0..=9 => 0,
        10..=99 => 1,
        100..=189 => 2 + chance.below(3),
        190..=197 if !small => 5 + chance.below(30),
        198 if !small => 60 + chance.below(5),
        _ => 1,
    };
    let mut runs: Vec<Run> = vec![];
    for _ in 0..count {
        let views = match chance.below(400) {
            0 if !small && count < 3 => 200 + chance.below(830),
            1..=8 if !small && count < 5 => 10 + chance.below(90),
            9..=60 => 0,
            61..=200 => 1,
            _ => 1 + chance.below(5),
        };
        if views > 100 {
            family.stem.truncate(chance.below(8));
        }
        let mut starts: Vec<Key> = (0..views).map(|_| family.key(chance)).collect();
        if care || chance.percent(92) {
            starts.sort();
        }
        let id = match chance.below(10) {
            0..=4 => chance.below(20) as u32,
            5 | 6 => chance.next() as u32,
            7 => u32::MAX - chance.below(3) as u32,
            _ => 10u32.pow(chance.below(10) as u32) - chance.below(2) as u32,
        };
        let taken = runs.iter().any(|run| run.id == id);
        let id = if taken && (care || chance.percent(92)) {
            runs.iter().map(|run| run.id).max().unwrap().wrapping_add(1)
        } else {
            id
        };
        runs.push(Run {
            id,
            views: starts
                .iter()
                .map(|start| random_view(&family, chance, start, care))
                .collect(),
        });
    }
    runs
}

pub fn random(count: usize, out: &mut Inputs) {
    for _ in 0..count {
        let small = out.small;
        let chance = &mut out.chance;
        let runs = random_runs(chance, small);
        let (mut bytes, marks) = write_image(&runs);
        bytes.truncate(BUFFER_CEILING + 1 + chance.below(3));
        if chance.percent(22) {
            harm(&mut bytes, &marks, chance);
            if chance.percent(25) {
                harm(&mut bytes, &marks, chance);
            }
        }
        let mut calls = vec![Call::CheckImage];
        let place = |chance: &mut Chance, count: usize| match chance.below(12) {
            0 => *chance.of(&[255, 256, 4_096, 65_536, 1 << 32, u64::MAX]),
            1 => count as u64,
            _ => chance.below(count.max(1)) as u64,
        };
        for _ in 0..1 + chance.below(3) {
            let i = place(chance, runs.len());
            let views = at(&runs, i).map_or(0, |run| run.views.len());
            let j = place(chance, views);
            calls.push(Call::EffectiveRange(i, j));
        }
        let room = match check_image(&bytes) {
            Err(_) => *chance.of(&[0, 25, 1_000]),
            Ok(image) => {
                let text = listing(&image).len() as u64;
                // A long text is recorded seldom.
                match chance.below(10) {
                    0 => text - 1,
                    1 => chance.below(text as usize) as u64,
                    2 => text + 1 + chance.below(200) as u64,
                    3..=5 => text,
                    _ if text < 4_000 => text,
                    _ => text - 1,
                }
            }
        };
        calls.push(Call::List(room));
        out.put(&bytes, &calls);
    }
    // Two faults with a third, and with damage.
    for _ in 0..count / 20 {
        let chance = &mut out.chance;
        let fault = |chance: &mut Chance| (FAULTS[chance.below(FAULTS.len())].1, chance.below(2));
        let faults = [fault(chance), fault(chance)];
        if faults.iter().any(|(fault, _)| *fault == Fault::LongImage) {
            continue;
        }
        let mut bytes = faulty(faults);
        let (_, marks) = write_image(&two_views());
        harm(&mut bytes, &marks, chance);
        out.put_two(&bytes);
    }
}
