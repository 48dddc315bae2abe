//! Random commits.
use super::{Inputs, Model};
use crate::answers::commits::{whole, Case};
use crate::checks::{ends_before, BUFFER_CEILING, SIZE_CEILING};
use crate::inputs::{before, from_to, small_keys, write_job, Chance};
use crate::{key_of, Bound, Job, Key, Part, Range, Run, Table, View};
use std::collections::HashSet;

/// A few keys in order, near each other: over the bytes 00, 01, 61 and FF, with the empty key,
/// and k beside k followed by 00.
fn random_keys(chance: &mut Chance, small: bool) -> Vec<Key> {
    let stem = if small || chance.percent(70) {
        vec![]
    } else {
        let length = *chance.of(&[1, 3, 7, 8, 9, 40, 300]);
        (0..length).map(|_| *chance.of(&[0, 0x61, 0xFF])).collect()
    };
    let mut keys = small_keys(&[0x00, 0x01, 0x61, 0xFF], 1);
    keys.extend(
        [
            [0, 0],
            [1, 0],
            [0x61, 0],
            [0x61, 0x61],
            [0xFF, 0],
            [0xFF, 0xFF],
        ]
        .map(Vec::from),
    );
    keys.iter_mut()
        .skip(1)
        .for_each(|key| *key = [&stem[..], key].concat());
    keys.sort();
    keys.dedup();
    keys
}

fn random_id(chance: &mut Chance) -> [u8; 16] {
    let mut id = [0; 16];
    id[..8].copy_from_slice(&chance.next().to_be_bytes());
    id[8..].copy_from_slice(&chance.next().to_be_bytes());
    id
}

pub fn random_table(chance: &mut Chance, first: &Key, last: Option<&Key>) -> Table {
    let index_offset = chance.next() >> *chance.of(&[12, 40, 58]);
    Table {
        id: random_id(chance),
        index_offset,
        index_len: *chance.of(&[0, 70, (SIZE_CEILING as u64) - index_offset]),
        filter_offset: chance.next() >> *chance.of(&[0, 20, 50]),
        first: first.clone(),
        last: last.cloned(),
    }
}

/// A key that is not below this one.
fn key_from(chance: &mut Chance, keys: &[Key], least: &Key) -> Key {
    let from = keys.partition_point(|key| key < least);
    chance.of(&keys[from..]).clone()
}

/// A view whose effective range this is.
fn random_view(chance: &mut Chance, keys: &[Key], start: &Key, end: &Bound) -> View {
    let at_most = keys.partition_point(|key| key <= start);
    let first = if chance.percent(65) {
        start.clone()
    } else {
        chance.of(&keys[..at_most]).clone()
    };
    // The table's last key, and whether the view ends by its visible range.
    let (last, shown) = match end {
        Bound::Unbounded => (None, false),
        Bound::Included(end) => match chance.below(5) {
            0..=2 => (Some(end.clone()), false),
            3 => (None, true),
            _ => (Some(key_from(chance, keys, end)), true),
        },
        Bound::Excluded(end) => match chance.below(2) {
            0 => (None, true),
            _ => (Some(key_from(chance, keys, end)), true),
        },
    };
    let visible = (shown || first < *start || chance.percent(35)).then(|| {
        let begin = match chance.below(3) {
            _ if first < *start => Bound::Included(start.clone()),
            0 => Bound::Unbounded,
            1 => Bound::Included(start.clone()),
            _ => Bound::Included(chance.of(&keys[..at_most]).clone()),
        };
        let wide = match (&last, chance.below(3)) {
            (Some(last), 0) => Bound::Included(key_from(chance, keys, last)),
            (Some(last), 1) => Bound::Excluded([&key_from(chance, keys, last)[..], &[0]].concat()),
            _ => Bound::Unbounded,
        };
        (begin, if shown { end.clone() } else { wide })
    });
    View {
        id: random_id(chance),
        table: random_table(chance, &first, last.as_ref()),
        visible,
    }
}

/// A run of at most four views (in a big run seldom more). Tidy views do not overlap.
fn random_run(chance: &mut Chance, keys: &[Key], id: u32, tidy: bool, small: bool) -> Run {
    let count = if !small && chance.percent(4) {
        chance.below(40)
    } else {
        chance.below(5)
    };
    let mut starts: Vec<&Key> = (0..count).map(|_| chance.of(keys)).collect();
    starts.sort();
    if tidy {
        starts.dedup();
    }
    let mut views: Vec<View> = vec![];
    for (place, start) in starts.iter().enumerate() {
        let next = starts.get(place + 1);
        let limit = next.filter(|_| tidy);
        let end = loop {
            let key = key_from(chance, keys, start);
            let end = match chance.below(8) {
                0 | 1 => Bound::Unbounded,
                2..=4 => Bound::Included(key),
                _ => Bound::Excluded(key),
            };
            let range = (Bound::Included((*start).clone()), end);
            if crate::non_empty(&range) && limit.is_none_or(|limit| ends_before(&range, limit)) {
                break range.1;
            }
        };
        views.push(random_view(chance, keys, start, &end));
        if chance.percent(4) && !tidy {
            views.push(views[views.len() - 1].clone());
        }
    }
    Run { id, views }
}

fn random_parts(chance: &mut Chance, keys: &[Key]) -> Vec<Part> {
    let count = *chance.of(&[0, 1, 1, 1, 2, 2, 2, 3, 3, 4]);
    let mut bounds = keys.to_vec();
    chance.shuffle(&mut bounds);
    bounds.truncate(count + 1);
    bounds.sort();
    let mut ranges: Vec<Range> = bounds
        .windows(2)
        .map(|pair| from_to(&pair[0], &pair[1]))
        .collect();
    for range in &mut ranges {
        // A gap before it.
        if chance.percent(25) {
            let (start, end) = (key_of(&range.0).unwrap(), key_of(&range.1).unwrap());
            let inside = keys.iter().filter(|key| start <= *key && *key < end);
            let inside: Vec<&Key> = inside.collect();
            range.0 = Bound::Included((*chance.of(&inside)).clone());
        }
    }
    if let Some(first) = ranges.first_mut() {
        if chance.percent(45) {
            first.0 = Bound::Unbounded;
        } else if chance.percent(10) {
            ranges.insert(0, before(b""));
        }
    }
    if let Some(last) = ranges.last_mut() {
        if chance.percent(45) {
            last.1 = Bound::Unbounded;
        }
    }
    ranges.truncate(4);
    let mut parts = vec![];
    for range in ranges {
        let inside: Vec<&Key> = keys
            .iter()
            .filter(|key| crate::contains(&range, key))
            .collect();
        let count = if inside.is_empty() {
            0
        } else {
            chance.below(4)
        };
        let mut ends: Vec<&Key> = (0..2 * count).map(|_| *chance.of(&inside)).collect();
        ends.sort();
        let outputs = ends
            .chunks(2)
            .map(|pair| random_table(chance, pair[0], Some(pair[1])));
        let outputs = outputs.collect();
        parts.push(Part {
            range,
            completed: chance.percent(45),
            outputs,
        });
    }
    parts
}

pub fn random_model(chance: &mut Chance, small: bool, tidy: bool) -> Model {
    let keys = random_keys(chance, small);
    let mut ids = [7, 9, 0, 1, 258, u32::MAX, 0x0700_0000];
    chance.shuffle(&mut ids);
    let count = 1 + chance.below(4);
    let runs = ids[..count]
        .iter()
        .map(|id| random_run(chance, &keys, *id, tidy, small));
    let runs: Vec<Run> = runs.collect();
    let destination = ids[chance.below(count)];
    let mut sources = vec![destination];
    sources.extend(ids[..count].iter().filter(|_| chance.percent(55)));
    if chance.percent(80) {
        let mut seen = HashSet::new();
        sources.retain(|id| seen.insert(*id));
    }
    chance.shuffle(&mut sources);
    let parts = random_parts(chance, &keys);
    Model {
        runs,
        job: Job {
            destination,
            sources,
            parts,
        },
    }
}

/// Changes something that may be refused, or not.
fn twist(model: &mut Model, chance: &mut Chance, small: bool) {
    let keys = random_keys(chance, small);
    let Model { runs, job } = model;
    let key = chance.of(&keys).clone();
    let parts = job.parts.len();
    let outputs: Vec<(usize, usize)> = job
        .parts
        .iter()
        .enumerate()
        .flat_map(|(i, part)| (0..part.outputs.len()).map(move |j| (i, j)))
        .collect();
    let views: Vec<(usize, usize)> = runs
        .iter()
        .enumerate()
        .flat_map(|(i, run)| (0..run.views.len()).map(move |j| (i, j)))
        .collect();
    match chance.below(14) {
        0 => job.destination = *chance.of(&[5, 7, 9]),
        1 => job.sources.push(*chance.of(&[5, 7, 9])),
        2 => {
            job.sources.pop();
        }
        3 | 4 if parts > 0 => {
            let range = &mut job.parts[chance.below(parts)].range;
            let bound = match chance.below(3) {
                0 => Bound::Unbounded,
                1 => Bound::Included(key),
                _ => Bound::Excluded(key),
            };
            if chance.percent(50) {
                range.0 = bound;
            } else {
                range.1 = bound;
            }
        }
        5 if parts > 0 => job.parts.swap(0, parts - 1),
        6 | 7 if !outputs.is_empty() => {
            let (i, j) = *chance.of(&outputs);
            let table = &mut job.parts[i].outputs[j];
            match chance.below(5) {
                0 => table.last = None,
                1 | 2 => table.last = Some(key),
                3 => table.first = key,
                _ => table.index_len = *chance.of(&[1 << 53, u64::MAX]),
            }
        }
        8 | 9 if !outputs.is_empty() && !views.is_empty() => {
            // An output table is in the image.
            let ((i, j), (k, l)) = (*chance.of(&outputs), *chance.of(&views));
            let view = &mut runs[k].views[l];
            if chance.percent(50) {
                job.parts[i].outputs[j].id = view.table.id;
            } else {
                *view = whole(&job.parts[i].outputs[j]);
            }
        }
        10 if outputs.len() > 1 => {
            let ((i, j), (k, l)) = (*chance.of(&outputs), *chance.of(&outputs));
            job.parts[i].outputs[j].id = job.parts[k].outputs[l].id;
        }
        11 if !views.is_empty() => {
            let (i, j) = *chance.of(&views);
            let view = &mut runs[i].views[j];
            match chance.below(4) {
                0 => view.table.first = key,
                1 => view.table.last = Some(key),
                2 => view.visible = Some((Bound::Excluded(key), Bound::Unbounded)),
                _ => view.visible = Some((Bound::Included(key), Bound::Unbounded)),
            }
        }
        12 if !views.is_empty() => {
            let (i, j) = *chance.of(&views);
            runs[i].views.swap(0, j);
        }
        _ => runs[0].id = *chance.of(&[7, 9, 0]),
    }
}

/// Another length of the supply or the lent buffer, or another byte.
pub fn vary(case: &mut Case, chance: &mut Chance) {
    match chance.below(20) {
        0 => case.ids.truncate(case.ids.len().saturating_sub(1)),
        1 => case.ids.truncate(case.ids.len().saturating_sub(10)),
        2 => case.ids.truncate(chance.below(case.ids.len() + 1)),
        3..=6 => {
            let more = 1 + chance.below(15);
            case.ids.extend((0..more).map(|_| chance.next() as u8));
        }
        _ => {}
    }
    match chance.below(20) {
        0 => case.room = case.room.saturating_sub(1),
        1 => case.room = chance.below(case.room + 1),
        2..=6 => case.room += 1 + chance.below(90),
        _ => {}
    }
    if chance.percent(4) {
        let bytes = if chance.percent(75) {
            &mut case.job
        } else {
            &mut case.image
        };
        if bytes.is_empty() {
            return;
        }
        let at = chance.below(bytes.len());
        match chance.below(4) {
            0 => bytes.truncate(at),
            1 => bytes[at] ^= 1 << chance.below(8),
            2 => bytes.push(chance.next() as u8),
            _ => {
                bytes.remove(at);
            }
        }
    }
}

pub fn random(count: usize, out: &mut Inputs) {
    for _ in 0..count {
        let small = out.small;
        let chance = &mut out.chance;
        let tidy = chance.percent(40);
        let mut model = random_model(chance, small, tidy);
        if chance.percent(22) {
            twist(&mut model, chance, small);
        }
        let mut case = model.case(chance, 6);
        if case.image.len() > BUFFER_CEILING {
            continue;
        }
        if case.room == 0 {
            case.ids = vec![5; chance.below(3) * 20];
            case.room = chance.below(2) * 700;
        }
        vary(&mut case, chance);
        out.put(&case);
    }
}

/// The job of a random commit, seldom twisted or damaged.
pub fn random_job(chance: &mut Chance, small: bool) -> Vec<u8> {
    let tidy = chance.percent(40);
    let mut model = random_model(chance, small, tidy);
    for _ in 0..chance.below(4) {
        if chance.percent(22) {
            twist(&mut model, chance, small);
        }
    }
    let mut case = Case {
        job: write_job(&model.job).0,
        ..Case::default()
    };
    // Image, supply and room are not looked at.
    vary(&mut case, chance);
    case.job
}
