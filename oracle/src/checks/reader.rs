//! Reads a buffer field by field; each field passes the checks 1 to 3 before the next is read.
use super::{Checked, BUFFER_CEILING, KEY_CEILING};
use crate::{Bound, Key, Range};

/// Reads a buffer field by field; each field is checked before the next is read.
pub struct Reader<'a> {
    length: usize,
    rest: &'a [u8],
}

impl<'a> Reader<'a> {
    pub fn new(buffer: &'a [u8]) -> Checked<Self> {
        if buffer.len() > BUFFER_CEILING {
            return Err(3);
        }
        Ok(Reader {
            length: buffer.len(),
            rest: buffer,
        })
    }

    /// How many bytes were taken.
    pub fn at(&self) -> usize {
        self.length - self.rest.len()
    }

    pub fn take(&mut self, count: usize) -> Checked<&'a [u8]> {
        if self.rest.len() < count {
            return Err(1);
        }
        let (taken, rest) = self.rest.split_at(count);
        self.rest = rest;
        Ok(taken)
    }

    pub fn key(&mut self) -> Checked<Key> {
        let length = self.take(2)?;
        let length = usize::from(length[0]) * 256 + usize::from(length[1]);
        if length > KEY_CEILING {
            return Err(3);
        }
        Ok(self.take(length)?.to_vec())
    }

    pub fn bound(&mut self, kind: u8) -> Checked<Bound> {
        Ok(match kind {
            0 => Bound::Unbounded,
            1 => Bound::Included(self.key()?),
            _ => Bound::Excluded(self.key()?),
        })
    }

    pub fn range(&mut self) -> Checked<Range> {
        let head = self.take(1)?[0];
        let (start, end, padding) = (head >> 6, (head >> 4) & 3, head & 15);
        if start == 3 || end == 3 || padding != 0 {
            return Err(2);
        }
        Ok((self.bound(start)?, self.bound(end)?))
    }

    pub fn end(self) -> Checked<()> {
        if self.rest.is_empty() {
            Ok(())
        } else {
            Err(1)
        }
    }
}

pub fn number(bytes: &[u8]) -> u64 {
    bytes
        .iter()
        .fold(0, |sum, byte| sum << 8 | u64::from(*byte))
}
