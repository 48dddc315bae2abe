//! Views whose keys are near each other, and their raw sizes.
use crate::checks::{check_4, check_5, SIZE_CEILING};
use crate::inputs::{view, Chance};
use crate::{Bound, Key, Range, Table, View};

/// The greatest raw size.
pub const MOST: u64 = SIZE_CEILING as u64;

/// Bytes that are tried more than others.
pub const BYTES: [u8; 5] = [0x00, 0x01, 0x7F, 0x80, 0xFF];

pub fn zeros(count: usize) -> Key {
    vec![0; count]
}

/// A key and more after it.
pub fn joined(key: &[u8], more: &[u8]) -> Key {
    [key, more].concat()
}

/// Up to nine bytes.
fn tail(chance: &mut Chance) -> Key {
    let length = chance.below(10);
    match chance.below(10) {
        0 => zeros(length),
        1 => joined(&zeros(length), &[*chance.of(&BYTES)]),
        2 => vec![0xFF; length],
        _ => (0..length)
            .map(|_| match chance.below(5) {
                0 => chance.next() as u8,
                _ => *chance.of(&BYTES),
            })
            .collect(),
    }
}

/// What all keys of a view begin with: up to 1,000 bytes.
pub fn stem(chance: &mut Chance) -> Key {
    let length = match chance.below(40) {
        0..=19 => chance.below(3),
        20..=31 => chance.below(12),
        32..=36 => chance.below(80),
        37 | 38 => 80 + chance.below(920),
        _ => *chance.of(&[255, 256, 999, 1_000]),
    };
    let byte = *chance.of(&BYTES);
    let is_one = chance.percent(40);
    let bytes = (0..length).map(|_| if is_one { byte } else { *chance.of(&BYTES) });
    bytes.collect()
}

/// Raw sizes at which a rounding changes, powers of two, and any.
pub fn raw(chance: &mut Chance) -> u64 {
    match chance.below(16) {
        0..=7 => *chance.of(&[0, 1, 2, 3, 5, MOST - 1, MOST]),
        8 | 9 => chance.below(1 << 16) as u64 | 1,
        10 => 1 << chance.below(54),
        11 => (1 << chance.below(54)) - 1,
        12 => (1 << chance.below(53)) + 1,
        _ => chance.next() >> (11 + chance.below(40)),
    }
}

/// The two numbers whose sum a raw size is.
pub fn set_raw(table: &mut Table, raw: u64, chance: &mut Chance) {
    let any = chance.next() % (raw + 1);
    table.index_offset = *chance.of(&[0, raw, raw / 2, any]);
    table.index_len = raw - table.index_offset;
    table.filter_offset = *chance.of(&[0, 800, u64::MAX]);
}

/// A sum over the ceiling: by one, or so that 64 bits wrap to a small one, or any.
pub fn set_over(table: &mut Table, chance: &mut Chance) {
    if chance.percent(40) {
        table.index_offset = *chance.of(&[MOST, 0, 1, MOST / 2]);
        table.index_len = MOST + 1 - table.index_offset;
        return;
    }
    let wrapped = *chance.of(&[0, 1, 5, 100, MOST]);
    table.index_offset = *chance.of(&[u64::MAX, 1 << 63, u64::MAX - 70]);
    table.index_len = wrapped.wrapping_sub(table.index_offset);
    if chance.percent(20) {
        table.index_len = chance.next() | 1 << 54;
    }
}

/// First and last key, and what they begin with.
struct Keys {
    stem: Key,
    first: Key,
    last: Option<Key>,
}

impl Keys {
    fn new(stem: &[u8], chance: &mut Chance) -> Keys {
        let (a, b) = (joined(stem, &tail(chance)), joined(stem, &tail(chance)));
        let (first, last) = match chance.below(16) {
            0 => (a.clone(), Some(a)),
            // Zeros and 01 after the first key: a length below epsilon, or near it.
            1 | 2 => {
                let more = joined(&zeros(chance.below(9)), &[1]);
                (a.clone(), Some(joined(&a, &more)))
            }
            3 => (a, None),
            _ if a < b => (a, Some(b)),
            _ => (b, Some(a)),
        };
        Keys {
            stem: stem.to_vec(),
            first,
            last,
        }
    }

    /// A key that mostly lies between the two: it parts from them where they part from each other.
    fn between(&self, chance: &mut Chance) -> Key {
        let (first, last) = (&self.first, self.last.as_ref().unwrap_or(&self.first));
        let same = first.iter().zip(last).take_while(|(a, b)| a == b).count();
        let at = |key: &Key| key.get(same).map_or(0, |byte| usize::from(*byte));
        let byte = at(first) + chance.below(at(last).saturating_sub(at(first)) + 1);
        [&first[..same], &[byte as u8], &tail(chance)].concat()
    }

    /// A key for a bound: mostly between these, or near one of them.
    fn key(&self, chance: &mut Chance) -> Key {
        let last = self.last.as_ref().unwrap_or(&self.first);
        let either = if chance.percent(50) {
            &self.first
        } else {
            last
        };
        match chance.below(20) {
            0..=8 => self.between(chance),
            9 | 10 => either.clone(),
            11 => self.stem.clone(),
            12 | 13 => joined(
                either,
                &joined(&zeros(chance.below(9)), &[*chance.of(&BYTES)]),
            ),
            14 => either[..chance.below(either.len() + 1)].to_vec(),
            15 => {
                let mut key = either.clone();
                if let Some(byte) = key.last_mut() {
                    *byte = byte.wrapping_add(if chance.percent(50) { 1 } else { 255 });
                }
                key
            }
            _ => joined(&self.stem, &tail(chance)),
        }
    }

    fn range(&self, chance: &mut Chance) -> Range {
        let last = self.last.as_ref().unwrap_or(&self.first).clone();
        let start = match chance.below(20) {
            0..=2 => Bound::Unbounded,
            3 | 4 => Bound::Included(self.first.clone()),
            _ => Bound::Included(self.key(chance)),
        };
        let end = match chance.below(20) {
            0 | 1 => Bound::Unbounded,
            2 => Bound::Included(last),
            3 | 4 => Bound::Excluded(last),
            5 => start.clone(),
            6..=12 => Bound::Included(self.key(chance)),
            _ => Bound::Excluded(self.key(chance)),
        };
        match chance.below(100) {
            0 => (Bound::Excluded(self.key(chance)), end),
            _ => (start, end),
        }
    }
}

pub fn passes(view: &View) -> bool {
    check_4(view).is_ok() && check_5(view).is_ok()
}

/// A view that mostly passes the checks 4 and 5, and mostly has a visible range.
pub fn random_view(stem: &[u8], chance: &mut Chance) -> View {
    let keys = Keys::new(stem, chance);
    let mut made = view(
        chance.below(9) as u8,
        &keys.first,
        keys.last.as_deref(),
        None,
    );
    let raw = raw(chance);
    set_raw(&mut made.table, raw, chance);
    if chance.percent(8) {
        return made;
    }
    for _ in 0..8 {
        made.visible = Some(keys.range(chance));
        if passes(&made) || chance.percent(2) {
            return made;
        }
    }
    made.visible = None;
    made
}
