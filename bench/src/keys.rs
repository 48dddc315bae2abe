//! Keys and range images to call with.
use oracle::inputs::{range_image, Chance};
use oracle::{Bound, Key, Range};

/// How the keys of a case differ from each other.
#[derive(Clone, Copy, PartialEq)]
pub enum Differ {
    InTheLastByte,
    AtRandom,
}

impl Differ {
    pub fn name(self) -> &'static str {
        match self {
            Differ::InTheLastByte => "last byte differs",
            Differ::AtRandom => "random",
        }
    }
}

pub fn random_key(chance: &mut Chance, length: usize) -> Key {
    (0..length).map(|_| chance.next() as u8).collect()
}

/// So many different keys of a length, in ascending order.
pub fn ascending(chance: &mut Chance, differ: Differ, length: usize, count: usize) -> Vec<Key> {
    let mut keys: Vec<Key> = match differ {
        Differ::AtRandom => (0..count).map(|_| random_key(chance, length)).collect(),
        Differ::InTheLastByte => {
            let stem = random_key(chance, length);
            let last = chance.below(256 - count);
            let with_last = |byte: usize| [&stem[..length - 1], &[byte as u8]].concat();
            (last..last + count).map(with_last).collect()
        }
    };
    keys.sort();
    keys
}

pub fn half_open(start: &Key, end: &Key) -> Vec<u8> {
    range_image(&(Bound::Included(start.clone()), Bound::Excluded(end.clone())))
}

pub fn closed(start: &Key, end: &Key) -> Vec<u8> {
    let range: Range = (Bound::Included(start.clone()), Bound::Included(end.clone()));
    range_image(&range)
}
