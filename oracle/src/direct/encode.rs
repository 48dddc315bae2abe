//! From the originals' values to bytes in a lent buffer. Check 16 is made field by field.
use super::Checked;
use crate::bytes_range::BytesRange;
use crate::db_state::{SortedRun, SsTableHandle, SsTableView};
use bytes::Bytes;
use std::ops::{Bound, RangeBounds};

const VIEW_CEILING: usize = 1_024;
const IMAGE_CEILING: usize = 65_536;

/// What is put goes to the front of a lent buffer.
pub(super) struct Room<'a> {
    out: &'a mut [u8],
    at: usize,
}

impl<'a> Room<'a> {
    pub(super) fn new(out: &'a mut [u8]) -> Self {
        Room { out, at: 0 }
    }

    /// How many bytes were put.
    pub(super) fn written(&self) -> usize {
        self.at
    }

    pub(super) fn put(&mut self, bytes: &[u8]) -> Checked<()> {
        let room = self.out.get_mut(self.at..self.at + bytes.len()).ok_or(16)?;
        room.copy_from_slice(bytes);
        self.at += bytes.len();
        Ok(())
    }

    fn flag(&mut self, set: bool) -> Checked<()> {
        self.put(&[u8::from(set) << 7])
    }

    pub(super) fn key(&mut self, key: &[u8]) -> Checked<()> {
        self.put(&(key.len() as u16).to_be_bytes())?;
        self.put(key)
    }

    pub(super) fn range(&mut self, range: &BytesRange) -> Checked<()> {
        let bounds = [range.start_bound(), range.end_bound()];
        self.put(&[kind(&bounds[0]) << 6 | kind(&bounds[1]) << 4])?;
        for key in bounds.into_iter().filter_map(key_of) {
            self.key(key)?;
        }
        Ok(())
    }

    fn table(&mut self, table: &SsTableHandle) -> Checked<()> {
        let info = &table.info;
        self.put(&table.id.value().to_bytes())?;
        self.put(&info.index_offset.to_be_bytes())?;
        self.put(&info.index_len.to_be_bytes())?;
        self.put(&info.filter_offset.to_be_bytes())?;
        self.flag(info.last_entry.is_some())?;
        self.key(info.first_entry.as_ref().expect("a table has a first key"))?;
        match &info.last_entry {
            Some(last) => self.key(last),
            None => Ok(()),
        }
    }

    fn view(&mut self, view: &SsTableView) -> Checked<()> {
        self.put(&view.id.to_bytes())?;
        self.table(&view.sst)?;
        self.flag(view.visible_range.is_some())?;
        match &view.visible_range {
            Some(range) => self.range(range),
            None => Ok(()),
        }
    }

    /// With check 15.
    pub(super) fn image(&mut self, runs: &[SortedRun]) -> Checked<()> {
        self.put(&[runs.len() as u8])?;
        for run in runs {
            let views = run.sst_views();
            if views.len() > VIEW_CEILING {
                return Err(15);
            }
            self.put(&run.id.to_be_bytes())?;
            self.put(&((views.len() as u16) << 4).to_be_bytes())?;
            for view in views {
                self.view(view)?;
            }
        }
        if self.at > IMAGE_CEILING {
            return Err(15);
        }
        Ok(())
    }

    /// A bound as kind, place and length. `place` says where its key stands.
    pub(super) fn placed(&mut self, bound: Bound<&Bytes>, place: usize) -> Checked<()> {
        self.put(&[kind(&bound)])?;
        self.span(key_of(bound).map_or(0, Bytes::len), place)
    }

    pub(super) fn span(&mut self, length: usize, place: usize) -> Checked<()> {
        self.put(&(place as u64).to_be_bytes())?;
        self.put(&(length as u64).to_be_bytes())
    }
}

pub(super) fn kind<T>(bound: &Bound<T>) -> u8 {
    match bound {
        Bound::Unbounded => 0,
        Bound::Included(_) => 1,
        Bound::Excluded(_) => 2,
    }
}

pub(super) fn key_of<T>(bound: Bound<T>) -> Option<T> {
    match bound {
        Bound::Unbounded => None,
        Bound::Included(key) | Bound::Excluded(key) => Some(key),
    }
}

/// The place of a bound's key in what begins at `base`; 0 if it has none. An empty key lies
/// nowhere, so that its place cannot be told.
pub(super) fn place(bound: Bound<&Bytes>, base: usize) -> usize {
    key_of(bound).map_or(0, |key| (key.as_ptr() as usize).wrapping_sub(base))
}
