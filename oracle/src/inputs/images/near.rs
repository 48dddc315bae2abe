//! Random images around the ceilings.
use super::damage::harm;
use super::random::random_runs;
use super::Inputs;
use crate::answers::images::Call;
use crate::checks::{BUFFER_CEILING, KEY_CEILING, VIEW_CEILING};
use crate::inputs::{from_to, image, included, run, view, write_image, Chance};
use crate::{Key, Run, View};

/// Keys of about 1,024 bytes, up to four in a view.
pub fn near_keys(count: usize, out: &mut Inputs) {
    for _ in 0..count {
        let chance = &mut out.chance;
        let mut keys: Vec<Key> = (0..4).map(|_| near_key(chance)).collect();
        if chance.percent(90) {
            keys.sort();
        }
        let [a, b, c, d] = &keys[..] else {
            unreachable!()
        };
        let view = match chance.below(4) {
            0 => view(1, a, None, Some(included(b, c))),
            1 => view(2, a, Some(d), Some(from_to(b, c))),
            2 => view(3, a, Some(b), None),
            _ => view(4, b, Some(c), Some(included(a, d))),
        };
        let (mut bytes, marks) = write_image(&[run(7, &[view])]);
        if chance.percent(15) {
            harm(&mut bytes, &marks, chance);
        }
        out.put(&bytes, &[Call::CheckImage]);
    }
}

fn near_key(chance: &mut Chance) -> Key {
    let length = match chance.below(3) {
        0 => chance.below(3),
        _ => KEY_CEILING - 3 + chance.below(5),
    };
    let mut key = vec![*chance.of(&[0, 0x61, 0xFF]); length];
    if let Some(last) = key.last_mut() {
        *last = *chance.of(&[0, 1, 0x61, 0xFF]);
    }
    key
}

/// Sums of about 2^53 and 2^64, of which one table has one.
pub fn near_sums(count: usize, out: &mut Inputs) {
    for _ in 0..count {
        let chance = &mut out.chance;
        let mut views: Vec<View> = (0..1 + chance.below(3))
            .map(|number| view(number as u8, &[number as u8], None, None))
            .collect();
        let sum = *chance.of(&[1u128 << 53, 1 << 53, 1 << 64, (1 << 64) + (1 << 53)]);
        let sum = sum - 2 + chance.below(5) as u128;
        let place = chance.below(views.len());
        let table = &mut views[place].table;
        let least = sum.saturating_sub(u64::MAX.into()) as u64;
        let most = sum.min(u64::MAX.into()) as u64;
        let between = most - least;
        let any = chance.next() % between.max(1);
        let more = *chance.of(&[0, 1, between, between / 2, any]);
        table.index_offset = least + more;
        table.index_len = (sum - u128::from(table.index_offset)) as u64;
        table.filter_offset = chance.next();
        out.put(&image(&[run(7, &views)]), &[Call::CheckImage]);
    }
}

/// About 64 runs, some of which share an id.
pub fn near_runs(count: usize, out: &mut Inputs) {
    for _ in 0..count {
        let chance = &mut out.chance;
        let runs: Vec<Run> = (0..62 + chance.below(4) as u32)
            .map(|id| {
                let views = vec![view(1, b"a", None, None); usize::from(chance.percent(5))];
                let id = if chance.percent(1) { 5 } else { id * 7 };
                run(id, &views)
            })
            .collect();
        let (mut bytes, marks) = write_image(&runs);
        match chance.below(6) {
            0 => bytes[0] = *chance.of(&[0, 61, 62, 63, 64, 65, 66, 128, 255]),
            1 => harm(&mut bytes, &marks, chance),
            _ => {}
        }
        out.put(&bytes, &[Call::CheckImage]);
    }
}

/// About 1,024 views in a run.
pub fn near_views(count: usize, out: &mut Inputs) {
    for _ in 0..count {
        let chance = &mut out.chance;
        let length = usize::from(VIEW_CEILING) - 2 + chance.below(4);
        let mut views = vec![view(1, b"", None, None); length];
        let place = chance.below(length);
        views[place].table.last = Some(vec![]);
        if chance.percent(10) {
            views[place].table.first = b"a".to_vec();
        }
        let (mut bytes, marks) = write_image(&[run(4, &views)]);
        match chance.below(6) {
            0 => {
                let said = length - 1 + chance.below(3);
                bytes[5..7].copy_from_slice(&((said as u16) << 4).to_be_bytes());
            }
            1 => harm(&mut bytes, &marks, chance),
            _ => {}
        }
        out.put(&bytes, &[Call::CheckImage]);
    }
}

/// Images of about 65,536 bytes.
pub fn near_full(count: usize, out: &mut Inputs) {
    for _ in 0..count {
        let chance = &mut out.chance;
        let mut runs = random_runs(chance, true);
        let length = BUFFER_CEILING - 2 + chance.below(5);
        if !fill(&mut runs, length, chance) {
            continue;
        }
        let (mut bytes, marks) = write_image(&runs);
        match chance.below(8) {
            0 => harm(&mut bytes, &marks, chance),
            1 => bytes.push(0),
            _ => {}
        }
        out.put(&bytes, &[Call::CheckImage]);
    }
}

/// Adds a run that makes the image so long, if there is room for one.
pub fn fill(runs: &mut Vec<Run>, length: usize, chance: &mut Chance) -> bool {
    const VIEW: usize = 60;
    let id = runs.iter().map(|run| run.id).max().unwrap_or(0);
    let Some(mut left) = length.checked_sub(image(runs).len() + 6) else {
        return false;
    };
    if runs.len() > 63 || id == u32::MAX || left < VIEW + KEY_CEILING {
        return false;
    }
    let mut views = vec![];
    while left > 0 {
        // The last two share what is left, so that neither is too short or too long.
        let size = match left {
            0..=1_084 => left,
            1_085..=2_168 => left / 2,
            _ => VIEW + chance.below(KEY_CEILING + 1),
        };
        left -= size;
        views.push(view(9, &vec![b'z'; size - VIEW], None, None));
    }
    views.sort_by(|a, b| a.table.first.cmp(&b.table.first));
    runs.push(run(id + 1, &views));
    image(runs).len() == length
}
