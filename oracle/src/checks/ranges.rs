//! The checks of keys, bounds and ranges.
use super::{Checked, Reader, BUFFER_CEILING, KEY_CEILING};
use crate::{key_of, non_empty, Bound, Key, Range};

/// Checks 1 to 3 of a buffer that holds one range, its rest included.
pub fn read_range(buffer: &[u8]) -> Checked<Range> {
    let mut reader = Reader::new(buffer)?;
    let range = reader.range()?;
    reader.end()?;
    Ok(range)
}

/// The places of a range's keys in its image: after the head, and after each key's length. That of
/// a bound without a key stands for nothing.
pub fn key_places(range: &Range) -> (usize, usize) {
    let start = key_of(&range.0).map_or(0, |key| 2 + key.len());
    (1 + 2, 1 + start + 2)
}

/// Check 3 of a key or prefix that is a buffer of its own.
pub fn read_key(buffer: &[u8]) -> Checked<Key> {
    if buffer.len() > BUFFER_CEILING || buffer.len() > KEY_CEILING {
        return Err(3);
    }
    Ok(buffer.to_vec())
}

/// Checks 1 to 3 of a bound given as a kind and a key.
pub fn read_bound(kind: u8, buffer: &[u8]) -> Checked<Bound> {
    if kind > 2 {
        return Err(2);
    }
    if buffer.len() > BUFFER_CEILING {
        return Err(3);
    }
    if kind == 0 {
        return if buffer.is_empty() {
            Ok(Bound::Unbounded)
        } else {
            Err(1)
        };
    }
    let key = read_key(buffer)?;
    Ok(if kind == 1 {
        Bound::Included(key)
    } else {
        Bound::Excluded(key)
    })
}

/// Check 4.
pub fn pass(range: &Range) -> Checked<()> {
    if non_empty(range) {
        Ok(())
    } else {
        Err(4)
    }
}
