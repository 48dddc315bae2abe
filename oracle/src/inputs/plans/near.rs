//! Random plans around the ceilings.
use super::random::{ordered, random_least};
use super::{plan, select, Inputs};
use crate::checks::{ANCHOR_CEILING, KEY_CEILING};
use crate::inputs::{from_to, run, view, Chance};
use crate::{Block, Index, Key, View};

/// Bytes that add up to a total.
fn split_up(total: u128, count: usize, chance: &mut Chance) -> Vec<u64> {
    let mut left = total;
    let mut parts = vec![];
    for place in 0..count {
        let most = left.min(u64::MAX.into());
        let part = match chance.below(4) {
            _ if place + 1 == count => most,
            0 => 0,
            1 => most / 2,
            2 => most / count as u128,
            _ => u128::from(chance.next()) % (most + 1),
        };
        parts.push(part as u64);
        left -= part;
    }
    chance.shuffle(&mut parts);
    parts
}

/// Totals around 2^63, 2^64 and beyond, of anchors that are given and of such as are sampled.
pub fn near_totals(count: usize, out: &mut Inputs) {
    for _ in 0..count {
        let chance = &mut out.chance;
        let length = 1 + chance.below(9);
        let total: u128 = match chance.below(6) {
            0 => (1 << 64) - 2 + chance.below(4) as u128,
            1 => (1 << 64) + (1 << chance.below(63)),
            _ => (1 << 63) - 3 + chance.below(5) as u128,
        };
        let bytes = split_up(total, length, chance);
        let keys = (0..length).map(|_| vec![b'a' + chance.below(5) as u8]);
        let keys = keys.collect::<Vec<Key>>();
        let parts = chance.below(8) as u64;
        let least = random_least(chance, parts, total);
        // One view for each anchor, each in a run of its own; some show nothing of it.
        let mut runs = vec![];
        let mut indexes: Vec<Index> = vec![];
        for (place, (key, bytes)) in (0..).zip(keys.iter().zip(&bytes)) {
            let offset = chance.below(50) as u64;
            let mut one = view(1, b"A", None, None);
            one.table.index_offset = chance.below(10) as u64;
            one.table.filter_offset = bytes.saturating_add(offset);
            if chance.percent(6) {
                one.visible = Some(from_to(b"A", key));
            }
            runs.push(run(place, &[one]));
            let first = key.clone();
            indexes.push(vec![Block { offset, first }]);
        }
        out.put(&plan(parts, &runs, &indexes));
        let list: Vec<(Key, u64)> = keys.into_iter().zip(bytes).collect();
        out.put(&select(parts, least, &list));
    }
}

/// Around 4,096 anchors that are sampled of many views, some of which show a part of theirs.
pub fn near_most_sampled(count: usize, out: &mut Inputs) {
    for _ in 0..count {
        let chance = &mut out.chance;
        let due = ANCHOR_CEILING - 2 + chance.below(4);
        let mut left = due;
        let (mut views, mut indexes): (Vec<View>, Vec<Index>) = (vec![], vec![]);
        while left > 0 {
            let shown = (60 + chance.below(69)).min(left);
            let hidden = chance.below(129 - shown);
            let base = chance.below(20_000) as u16;
            let key = |place: usize| (base + place as u16).to_be_bytes().to_vec();
            let blocks = (0..shown + hidden).map(|place| Block {
                offset: 10 * place as u64,
                first: key(place),
            });
            indexes.push(blocks.collect());
            let mut one = view(1, b"", None, None);
            (one.table.index_offset, one.table.index_len) = (1, 0);
            one.table.filter_offset = 10 * (shown + hidden) as u64;
            one.visible = Some(from_to(b"", &key(shown)));
            views.push(one);
            left -= shown;
        }
        let parts = *chance.of(&[1, 2, 8, 64]);
        out.put(&plan(parts, &[run(3, &views)], &indexes));
    }
}

/// Plans of long keys, most of over 65,536 bytes.
pub fn long_plans(count: usize, out: &mut Inputs) {
    for _ in 0..count {
        let chance = &mut out.chance;
        let length = 500 + chance.below(KEY_CEILING - 499);
        let keys = (0..63).map(|_| {
            let mut key = vec![b'k'; length - chance.below(3)];
            let at = chance.below(key.len());
            key[at] = chance.next() as u8;
            key
        });
        let mut keys: Vec<Key> = keys.collect();
        keys.push(vec![]);
        let list = ordered(keys, chance).into_iter().map(|key| (key, 10));
        let parts = 50 + chance.below(15) as u64;
        let list: Vec<(Key, u64)> = list.collect();
        out.put(&select(parts, 0, &list));
    }
}
