//! All calls over a few keys and numbers.
use super::{index_of, planning, sample, sampling, select, selecting, Inputs};
use crate::inputs::{all_ranges, image, run, view, write_index, Chance, Family};
use crate::{Block, Key};

/// All anchors with one of these keys and these bytes.
pub fn every_anchor(keys: &[Key], bytes: &[u64]) -> Vec<(Key, u64)> {
    let with = |key: &Key| -> Vec<(Key, u64)> {
        bytes.iter().map(|bytes| (key.clone(), *bytes)).collect()
    };
    keys.iter().flat_map(with).collect()
}

/// The lists of so many anchors that begin with this one.
pub fn lists_from(first: &(Key, u64), all: &[(Key, u64)], count: usize) -> Vec<Vec<(Key, u64)>> {
    let mut lists = vec![vec![first.clone()]];
    for _ in 1..count {
        let longer = lists.iter().flat_map(|list| {
            all.iter()
                .map(|anchor| [&list[..], std::slice::from_ref(anchor)].concat())
        });
        lists = longer.collect();
    }
    lists
}

/// Each list with each number of parts and each least range.
pub fn plans_of(lists: &[Vec<(Key, u64)>], parts: &[u64], least: &[u64], out: &mut Inputs) {
    for list in lists {
        for parts in parts {
            for least in least {
                out.put(&select(*parts, *least, list));
            }
        }
    }
}

/// Indexes of up to three blocks over these keys and offsets, with each number of anchors, data end and
/// range: of each index so many of these.
pub fn samples_of(keys: &[Key], offsets: &[u64], some: usize, out: &mut Inputs) {
    let ranges = all_ranges(keys);
    let blocks: Vec<(u64, &Key)> = offsets
        .iter()
        .flat_map(|offset| keys.iter().map(move |key| (*offset, key)))
        .collect();
    let mut lists: Vec<Vec<(u64, &[u8])>> = vec![vec![]];
    let mut from = 0;
    for _ in 0..3 {
        let to = lists.len();
        for at in from..to {
            for (offset, key) in &blocks {
                let mut list = lists[at].clone();
                list.push((*offset, key));
                lists.push(list);
            }
        }
        from = to;
    }
    for list in lists {
        let index = index_of(&list);
        for _ in 0..some {
            let chance = &mut out.chance;
            let most = chance.below(5) as u64;
            let data_end = *chance.of(&[0, 3, 10, u64::MAX]);
            let range = chance.of(&ranges).clone();
            out.put(&sample(most, data_end, &index, &range));
        }
    }
}

/// Any bytes as anchors, as an index, as a range, as an image and as the indexes of one and of two views;
/// after a front or alone.
pub fn any_bytes(front: &[u8], tails: &[Key], out: &mut Inputs) {
    let index = write_index(&index_of(&[(0, b"a"), (5, b"\xFF")])).0;
    let views = [view(1, b"", None, None), view(2, b"a", None, None)];
    let [one, two] = [1, 2].map(|count| image(&[run(7, &views[..count])]));
    for tail in tails {
        let bytes = [front, tail].concat();
        let setting = out.chance.below(4) as u64;
        out.put(&selecting(setting, 0, &bytes));
        out.put(&sampling(setting, 1 << 40, &bytes, &[0]));
        out.put(&sampling(setting, 9, &index, &bytes));
        out.put(&planning(setting, &bytes, b""));
        out.put(&planning(setting, &one, &bytes));
        out.put(&planning(setting, &two, &bytes));
    }
}

/// A key of the family of which most pass the ceiling.
pub(super) fn short_key(family: &Family, chance: &mut Chance) -> Key {
    let mut key = family.key(chance);
    key.truncate(1_024);
    key
}

/// First keys with their offsets.
pub(super) fn blocks_of(keys: Vec<Key>, mut offset: impl FnMut() -> u64) -> Vec<Block> {
    let blocks = keys.into_iter().map(|first| Block {
        offset: offset(),
        first,
    });
    blocks.collect()
}
