//! Keys, bounds and ranges to try.
use super::Chance;
use crate::checks::KEY_CEILING;
use crate::{key_of, kind_of, non_empty, Bound, Key, Range};

/// All keys of at most `longest` bytes over the alphabet.
pub fn small_keys(alphabet: &[u8], longest: usize) -> Vec<Key> {
    let mut keys = vec![vec![]];
    let mut from = 0;
    for _ in 0..longest {
        let to = keys.len();
        for i in from..to {
            for byte in alphabet {
                keys.push([keys[i].clone(), vec![*byte]].concat());
            }
        }
        from = to;
    }
    keys
}

pub fn all_bounds(keys: &[Key]) -> Vec<Bound> {
    let mut bounds = vec![Bound::Unbounded];
    bounds.extend(keys.iter().cloned().map(Bound::Included));
    bounds.extend(keys.iter().cloned().map(Bound::Excluded));
    bounds
}

pub fn all_ranges(keys: &[Key]) -> Vec<Range> {
    let bounds = all_bounds(keys);
    let ends = |start: &Bound| {
        let start = start.clone();
        bounds.iter().map(move |end| (start.clone(), end.clone()))
    };
    bounds.iter().flat_map(ends).collect()
}

/// The kinds of all bounds and the order of all keys in them.
pub fn order_class(bounds: &[&Bound]) -> Vec<u8> {
    let mut class: Vec<u8> = bounds.iter().map(|bound| kind_of(bound)).collect();
    let keys: Vec<&Key> = bounds.iter().filter_map(|bound| key_of(bound)).collect();
    for (i, a) in keys.iter().enumerate() {
        class.extend(keys[i + 1..].iter().map(|b| a.cmp(b) as u8));
    }
    class
}

pub fn included(start: &[u8], end: &[u8]) -> Range {
    (
        Bound::Included(start.to_vec()),
        Bound::Included(end.to_vec()),
    )
}

pub fn excluded(start: &[u8], end: &[u8]) -> Range {
    (
        Bound::Excluded(start.to_vec()),
        Bound::Excluded(end.to_vec()),
    )
}

/// A range that is unbounded below.
pub fn until(end: &[u8]) -> Option<Range> {
    Some((Bound::Unbounded, Bound::Included(end.to_vec())))
}

/// A range that is unbounded above.
pub fn since(start: &[u8]) -> Option<Range> {
    Some((Bound::Included(start.to_vec()), Bound::Unbounded))
}

pub fn from_to(start: &[u8], end: &[u8]) -> Range {
    (
        Bound::Included(start.to_vec()),
        Bound::Excluded(end.to_vec()),
    )
}

/// Up to, without, a key.
pub fn before(end: &[u8]) -> Range {
    (Bound::Unbounded, Bound::Excluded(end.to_vec()))
}

pub fn from(start: &[u8]) -> Range {
    since(start).unwrap()
}

pub const EVERYTHING: Range = (Bound::Unbounded, Bound::Unbounded);

/// Keys that are near each other: all derived from one stem.
pub struct Family {
    pub stem: Key,
    pub alphabet: &'static [u8],
}

pub fn byte(chance: &mut Chance, alphabet: &[u8]) -> u8 {
    if alphabet.is_empty() {
        chance.next() as u8
    } else {
        *chance.of(alphabet)
    }
}

impl Family {
    pub fn new(chance: &mut Chance, small: bool) -> Family {
        let length = match chance.below(1_000) {
            // In a small run the long keys of `long_keys` are enough.
            _ if small => chance.below(10),
            0..=14 => 1_024,
            15..=24 => 1_023,
            25..=29 => 1_016 + chance.below(10),
            30..=99 => 65 + chance.below(335),
            100..=299 => 13 + chance.below(52),
            _ => chance.below(13),
        };
        let alphabet: &[u8] = match chance.below(10) {
            0 => &[0xFF],
            1 => &[0x00, 0xFF],
            2 | 3 => &[0x00, 0x61, 0xFF],
            4 | 5 => &[0x61, 0x62],
            _ => &[],
        };
        let stem = (0..length).map(|_| byte(chance, alphabet)).collect();
        Family { stem, alphabet }
    }

    fn any_key(&self, chance: &mut Chance) -> Key {
        let mut key = self.stem.clone();
        let more = match chance.below(16) {
            0 => return vec![],
            1..=3 => 0,
            4 | 5 => {
                key.push(0);
                0
            }
            6 => {
                key.push(0xFF);
                0
            }
            7 => {
                key.pop();
                0
            }
            8 | 9 => {
                if let Some(last) = key.last_mut() {
                    *last = last.wrapping_add(if chance.percent(50) { 1 } else { 255 });
                }
                0
            }
            10 => {
                let cut = chance.below(key.len() + 1);
                key.truncate(cut);
                0
            }
            11 | 12 => {
                if !key.is_empty() {
                    let at = chance.below(key.len());
                    key[at] = byte(chance, self.alphabet);
                }
                0
            }
            13 => {
                // A run of FF at the end.
                let cut = chance.below(key.len().min(4) + 1);
                key.truncate(key.len() - cut);
                key.resize(key.len() + cut, 0xFF);
                0
            }
            14 => 1,
            _ => 1 + chance.below(4),
        };
        for _ in 0..more {
            key.push(byte(chance, self.alphabet));
        }
        key
    }

    /// Mostly not above the ceiling.
    pub fn key(&self, chance: &mut Chance) -> Key {
        let mut key = self.any_key(chance);
        if key.len() > KEY_CEILING && !chance.percent(12) {
            key.truncate(KEY_CEILING);
        }
        key
    }

    pub fn bound(&self, chance: &mut Chance) -> Bound {
        match chance.below(5) {
            0 => Bound::Unbounded,
            1 | 2 => Bound::Included(self.key(chance)),
            _ => Bound::Excluded(self.key(chance)),
        }
    }

    pub fn range(&self, chance: &mut Chance) -> Range {
        match chance.below(40) {
            0 | 1 => {
                let key = self.key(chance);
                let next = [&key[..], &[0]].concat();
                return excluded(&key, &next);
            }
            2 | 3 => {
                let key = self.key(chance);
                return included(&key, &key);
            }
            4 => return (Bound::Unbounded, Bound::Excluded(vec![])),
            _ => {}
        }
        let (mut start, mut end) = (self.bound(chance), self.bound(chance));
        if !non_empty(&(start.clone(), end.clone())) && !chance.percent(12) {
            std::mem::swap(&mut start, &mut end);
            if key_of(&start) == key_of(&end) {
                let key = key_of(&start).unwrap().clone();
                return included(&key, &key);
            }
        }
        (start, end)
    }
}
