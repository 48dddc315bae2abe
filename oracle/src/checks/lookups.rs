//! The checks of the lookups, in their order: a buffer's fields, then those of what is asked, then
//! what the later checks say of either.
use super::{
    ascending, check_read, pass, read_bound, read_image, read_index, read_key, read_range, Checked,
    PlacedRun,
};
use crate::{Bound, Key, Range};

/// An index whose fields pass, and what check 6 says of it.
pub struct ReadIndex {
    pub first_keys: Vec<Key>,
    later: Checked<()>,
}

impl ReadIndex {
    pub fn read(buffer: &[u8]) -> Checked<ReadIndex> {
        let index = read_index(buffer)?;
        let later = ascending(&index);
        let first_keys = index.into_iter().map(|block| block.first).collect();
        Ok(ReadIndex { first_keys, later })
    }

    /// The key that is asked for: 3 of it comes before 6 of the index.
    pub fn key(&self, key: &[u8]) -> Checked<Key> {
        let key = read_key(key)?;
        self.later?;
        Ok(key)
    }

    /// The range that is asked for: 1 to 4 of it come before 6 of the index.
    pub fn range(&self, range: &[u8]) -> Checked<Range> {
        let range = read_range(range)?;
        pass(&range)?;
        self.later?;
        Ok(range)
    }
}

/// An image whose fields pass, and what the checks 4 to 7 say of it.
pub struct ReadImage {
    pub runs: Vec<PlacedRun>,
    later: Checked<()>,
}

impl ReadImage {
    pub fn read(buffer: &[u8]) -> Checked<ReadImage> {
        let runs = read_image(buffer)?;
        let later = check_read(&runs);
        Ok(ReadImage { runs, later })
    }

    /// Where nothing more is read, or only places are asked for, which come after all of these checks.
    pub fn passed(&self) -> Checked<()> {
        self.later
    }

    /// The range that is asked for. Check 4 covers it together with the visible ranges, so that
    /// nothing of 5 to 7 comes before it; places are looked up after all of these.
    pub fn range(&self, range: &[u8]) -> Checked<Range> {
        let range = read_range(range)?;
        pass(&range)?;
        self.later?;
        Ok(range)
    }

    /// An end bound and the range that is asked for, in the order of the arguments.
    pub fn end_and_range(&self, kind: u8, end: &[u8], range: &[u8]) -> Checked<(Bound, Range)> {
        let end = read_bound(kind, end)?;
        Ok((end, self.range(range)?))
    }
}
