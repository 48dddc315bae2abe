//! Random lookups around the ceilings.
use super::random::Near;
use super::Inputs;
use crate::answers::lookups::{Asked, INTERSECTS_RANGE};
use crate::checks::{BUFFER_CEILING, KEY_CEILING, VIEW_CEILING};
use crate::inputs::images::near::fill;
use crate::inputs::images::{harm, random_runs};
use crate::inputs::ranges::family_of;
use crate::inputs::{
    blocks, byte, from_to, image, index, range_image, run, view, write_image, write_index, Chance,
    Family, Mark, EVERYTHING,
};
use crate::{Key, Run, View};

/// Some lookups in an index, sometimes damaged.
fn put_index(mut bytes: Vec<u8>, marks: &[Mark], keys: Vec<Key>, count: usize, out: &mut Inputs) {
    let chance = &mut out.chance;
    if chance.percent(10) {
        harm(&mut bytes, marks, chance);
    }
    let near = Near { keys };
    let asked: Vec<Asked> = (0..count).map(|_| near.of_index(chance)).collect();
    out.put(&bytes, &asked);
}

fn put_image(mut bytes: Vec<u8>, marks: &[Mark], runs: &[Run], count: usize, out: &mut Inputs) {
    let chance = &mut out.chance;
    if chance.percent(10) {
        harm(&mut bytes, marks, chance);
    }
    let near = Near::of_runs(runs);
    let asked: Vec<Asked> = (0..count).map(|_| near.of_image(runs, chance)).collect();
    out.put(&bytes, &asked);
}

/// Keys that share a stem of 1,020 to 1,027 bytes.
fn near_family(chance: &mut Chance) -> Family {
    let length = KEY_CEILING - 4 + chance.below(8);
    family_of(length, chance)
}

/// First keys of about 1,024 bytes, and keys, ranges and end bounds.
pub fn near_keys(count: usize, out: &mut Inputs) {
    for _ in 0..count {
        let chance = &mut out.chance;
        let family = near_family(chance);
        let fits = |key: &Key| key.len() <= KEY_CEILING;
        let mut keys: Vec<Key> = (0..1 + chance.below(4))
            .map(|_| family.key(chance))
            .collect();
        if chance.percent(80) {
            keys.retain(fits);
        }
        if chance.percent(90) {
            keys.sort();
        }
        let (bytes, marks) = write_index(&blocks(&keys));
        put_index(bytes, &marks, keys.clone(), 4, out);
        let runs = [run(7, &views_between(&keys, &mut out.chance))];
        let (bytes, marks) = write_image(&runs);
        put_image(bytes, &marks, &runs, 4, out);
    }
}

/// Views of tables from a key to the next.
fn views_between(keys: &[Key], chance: &mut Chance) -> Vec<View> {
    let mut views = vec![];
    for (number, pair) in keys.windows(2).enumerate() {
        let last = chance.percent(60).then_some(&pair[1][..]);
        let visible = chance.percent(25) && pair[0] < pair[1];
        let visible = visible.then(|| from_to(&pair[0], &pair[1]));
        views.push(view(number as u8, &pair[0], last, visible));
    }
    views
}

/// Indexes of about 65,536 bytes.
pub fn near_full_indexes(count: usize, out: &mut Inputs) {
    for _ in 0..count {
        let chance = &mut out.chance;
        let longest = *chance.of(&[1, 2, 4, 30, 300, KEY_CEILING]);
        let alphabet: &[u8] = *chance.of(&[&[0x00, 0xFF][..], &[0x61, 0x62], &[]]);
        let mut left = BUFFER_CEILING - 2 + chance.below(5) - 2;
        let mut keys: Vec<Key> = vec![];
        // A block has 10 bytes and its first key; the last two share what is left.
        while left >= 10 {
            let length = match left - 10 {
                rest if rest <= longest => rest,
                rest if rest < 10 + longest => rest / 2,
                _ => chance.below(longest + 1),
            };
            keys.push((0..length).map(|_| byte(chance, alphabet)).collect());
            left -= 10 + length;
        }
        keys.sort();
        if chance.percent(10) && keys.len() > 1 {
            let at = chance.below(keys.len() - 1);
            keys.swap(at, at + 1);
        }
        let (mut bytes, marks) = write_index(&blocks(&keys));
        bytes.resize(bytes.len() + left, 0);
        put_index(bytes, &marks, keys, 6, out);
    }
}

/// About 1,024 views in a run, all with the empty first key: longer ones have no room.
pub fn near_views(count: usize, out: &mut Inputs) {
    for _ in 0..count {
        let chance = &mut out.chance;
        let length = usize::from(VIEW_CEILING) - 2 + chance.below(4);
        let mut views = vec![view(1, b"", None, None); length];
        let place = chance.below(length);
        match chance.below(4) {
            0 => views[place].table.last = Some(vec![]),
            1 => views[place].visible = Some(EVERYTHING),
            2 => views[length - 1].table.first = vec![chance.next() as u8],
            _ => {}
        }
        let runs = [run(4, &views)];
        let (bytes, marks) = write_image(&runs);
        put_image(bytes, &marks, &runs, 6, out);
    }
}

/// 300 to 900 views whose starts ascend in groups.
pub fn long_runs(count: usize, out: &mut Inputs) {
    for _ in 0..count {
        let chance = &mut out.chance;
        let length = 300 + chance.below(600);
        let group = *chance.of(&[1, 1, 2, 30, 200]);
        let mut views = vec![];
        for place in 0..length {
            let start = ((place / group * 97) as u16).to_be_bytes();
            let last = (((place / group + 1) * 97) as u16).to_be_bytes();
            let last = chance.percent(40).then_some(&last[..]);
            views.push(view(1, &start, last, None));
        }
        let runs = [run(4, &views)];
        let (bytes, marks) = write_image(&runs);
        put_image(bytes, &marks, &runs, 8, out);
    }
}

/// Images of about 65,536 bytes.
pub fn near_full_images(count: usize, out: &mut Inputs) {
    for _ in 0..count {
        let chance = &mut out.chance;
        let mut runs = random_runs(chance, true);
        let length = BUFFER_CEILING - 2 + chance.below(5);
        if !fill(&mut runs, length, chance) {
            continue;
        }
        let (bytes, marks) = write_image(&runs);
        put_image(bytes, &marks, &runs, 5, out);
    }
}

/// A range, key or end bound of about 65,536 bytes, so it is refused.
pub fn near_full_asked(count: usize, out: &mut Inputs) {
    for _ in 0..count {
        let chance = &mut out.chance;
        let runs = random_runs(chance, true);
        let near = Near::of_runs(&runs);
        let length = BUFFER_CEILING - 3 + chance.below(7);
        let fill = *chance.of(&[0, 1, 0x61, 0xFF]);
        let mut asked = near.of_image(&runs, chance);
        if chance.percent(60) {
            asked.range.resize(length, fill);
        } else {
            asked.range = range_image(&near.range(chance));
        }
        if asked.call == INTERSECTS_RANGE && chance.percent(60) {
            asked.key.resize(length, fill);
        }
        let mut of_index = near.of_index(chance);
        if of_index.range.is_empty() {
            of_index.key.resize(length, fill);
        } else {
            of_index.range.resize(length, fill);
        }
        out.put(&image(&runs), &[asked]);
        out.put(&index(&[b"a".to_vec()]), &[of_index]);
    }
}
