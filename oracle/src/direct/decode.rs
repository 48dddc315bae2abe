//! From bytes to the originals' values, with the checks 1 to 3.
use super::Checked;
use crate::bytes_range::BytesRange;
use crate::compactor_state::{Compaction, CompactionContext, CompactionSpec, SourceId};
use crate::db_state::{SortedRun, SsTableHandle, SsTableId, SsTableInfo, SsTableView};
use crate::flatbuffer_types::SsTableIndexOwned;
use crate::manifest::ManifestCore;
use crate::subcompaction::{Subcompaction, SubcompactionStatus};
use bytes::Bytes;
use std::ops::Bound;
use std::sync::Arc;
use ulid::Ulid;

pub(super) const KEY_CEILING: usize = 1_024;
const BUFFER_CEILING: usize = 65_536;
const RUN_CEILING: u8 = 64;
const VIEW_CEILING: u16 = 1_024;
const SOURCE_CEILING: u8 = 64;
const PART_CEILING: u8 = 64;
const OUTPUT_CEILING: u16 = 1_024;
/// The least bytes of a table, for the capacity of a list whose count promises too much.
const TABLE_LEAST: usize = 43;
/// The same of a block of an index, and of an anchor.
const BLOCK_LEAST: usize = 10;

/// Numbers are read from the caller's bytes; keys are slices of one copy of them.
pub(super) struct Fields<'a> {
    given: &'a [u8],
    copy: Bytes,
    at: usize,
}

pub(super) type Bounds = (Bound<Bytes>, Bound<Bytes>);

impl<'a> Fields<'a> {
    pub(super) fn new(given: &'a [u8]) -> Checked<Self> {
        if given.len() > BUFFER_CEILING {
            return Err(3);
        }
        Ok(Fields {
            given,
            copy: Bytes::copy_from_slice(given),
            at: 0,
        })
    }

    /// Where the copy begins, for the place of a key.
    pub(super) fn base(&self) -> usize {
        self.copy.as_ptr() as usize
    }

    fn left(&self) -> usize {
        self.given.len() - self.at
    }

    fn take<const N: usize>(&mut self) -> Checked<[u8; N]> {
        let taken = self.given[self.at..].first_chunk::<N>().ok_or(1)?;
        self.at += N;
        Ok(*taken)
    }

    fn key(&mut self) -> Checked<Bytes> {
        let length = usize::from(u16::from_be_bytes(self.take()?));
        if length > KEY_CEILING {
            return Err(3);
        }
        if length > self.left() {
            return Err(1);
        }
        let key = self.copy.slice(self.at..self.at + length);
        self.at += length;
        Ok(key)
    }

    fn bound(&mut self, kind: u8) -> Checked<Bound<Bytes>> {
        Ok(match kind {
            0 => Bound::Unbounded,
            1 => Bound::Included(self.key()?),
            _ => Bound::Excluded(self.key()?),
        })
    }

    pub(super) fn bounds(&mut self) -> Checked<Bounds> {
        let [head] = self.take()?;
        let (start, end) = (head >> 6, (head >> 4) & 3);
        if start == 3 || end == 3 || head & 15 != 0 {
            return Err(2);
        }
        Ok((self.bound(start)?, self.bound(end)?))
    }

    fn flag(&mut self) -> Checked<bool> {
        let [byte] = self.take()?;
        match byte {
            0x00 => Ok(false),
            0x80 => Ok(true),
            _ => Err(2),
        }
    }

    fn count(&mut self, ceiling: u8) -> Checked<usize> {
        let [count] = self.take()?;
        if count > ceiling {
            return Err(3);
        }
        Ok(usize::from(count))
    }

    fn table(&mut self) -> Checked<SsTableHandle> {
        let id = SsTableId::new(Ulid::from_bytes(self.take()?));
        let index_offset = u64::from_be_bytes(self.take()?);
        let index_len = u64::from_be_bytes(self.take()?);
        let filter_offset = u64::from_be_bytes(self.take()?);
        let has_last = self.flag()?;
        let info = SsTableInfo {
            first_entry: Some(self.key()?),
            last_entry: has_last.then(|| self.key()).transpose()?,
            index_offset,
            index_len,
            filter_offset,
            ..SsTableInfo::default()
        };
        Ok(SsTableHandle::new(id, 0, info))
    }

    pub(super) fn view(&mut self) -> Checked<RawView> {
        let id = Ulid::from_bytes(self.take()?);
        let table = self.table()?;
        let visible = self.flag()?.then(|| self.bounds()).transpose()?;
        Ok(RawView { id, table, visible })
    }

    /// A run's id and the count of its views.
    pub(super) fn run_head(&mut self) -> Checked<(u32, usize)> {
        let id = u32::from_be_bytes(self.take()?);
        let word = u16::from_be_bytes(self.take()?);
        if word >> 4 > VIEW_CEILING {
            return Err(3);
        }
        if word & 15 != 0 {
            return Err(2);
        }
        Ok((id, usize::from(word >> 4)))
    }

    pub(super) fn run_count(&mut self) -> Checked<usize> {
        self.count(RUN_CEILING)
    }

    fn run(&mut self) -> Checked<SortedRun> {
        let (id, count) = self.run_head()?;
        let mut views = Vec::with_capacity(self.room_for(count));
        for _ in 0..count {
            views.push(self.view()?.built());
        }
        Ok(SortedRun::new(id, views))
    }

    pub(super) fn runs(&mut self) -> Checked<Vec<SortedRun>> {
        let count = self.run_count()?;
        let mut runs = Vec::with_capacity(count);
        for _ in 0..count {
            runs.push(self.run()?);
        }
        self.end()?;
        Ok(runs)
    }

    /// Runs whose views are numbered in their order, as the stand-in for `read_index` has it, and how many
    /// views there are.
    pub(super) fn numbered_runs(&mut self) -> Checked<(Vec<SortedRun>, usize)> {
        let count = self.run_count()?;
        let mut runs = Vec::with_capacity(count);
        let mut places = 0;
        for _ in 0..count {
            let (id, count) = self.run_head()?;
            let mut views = Vec::with_capacity(self.room_for(count));
            for _ in 0..count {
                let mut view = self.view()?;
                view.table.info.stats_len = places;
                views.push(view.built());
                places += 1;
            }
            runs.push(SortedRun::new(id, views));
        }
        self.end()?;
        Ok((runs, places as usize))
    }

    /// One index, which may not be all of the buffer.
    pub(super) fn index(&mut self) -> Checked<SsTableIndexOwned> {
        let count = usize::from(u16::from_be_bytes(self.take()?));
        let mut blocks = Vec::with_capacity(count.min(self.left() / BLOCK_LEAST));
        for _ in 0..count {
            let offset = u64::from_be_bytes(self.take()?);
            blocks.push((offset, self.key()?));
        }
        Ok(SsTableIndexOwned::from_blocks(blocks))
    }

    pub(super) fn anchors(&mut self, ceiling: usize) -> Checked<Vec<(Bytes, u64)>> {
        let count = usize::from(u16::from_be_bytes(self.take()?));
        if count > ceiling {
            return Err(3);
        }
        let mut anchors = Vec::with_capacity(count.min(self.left() / BLOCK_LEAST));
        for _ in 0..count {
            let key = self.key()?;
            anchors.push((key, u64::from_be_bytes(self.take()?)));
        }
        self.end()?;
        Ok(anchors)
    }

    /// The first keys of an index. Its offsets are passed over.
    pub(super) fn first_keys(&mut self) -> Checked<Vec<Bytes>> {
        let count = usize::from(u16::from_be_bytes(self.take()?));
        let mut keys = Vec::with_capacity(count.min(self.left() / BLOCK_LEAST));
        for _ in 0..count {
            let _offset: [u8; 8] = self.take()?;
            keys.push(self.key()?);
        }
        self.end()?;
        Ok(keys)
    }

    fn part(&mut self) -> Checked<Subcompaction> {
        let (start, end) = self.bounds()?;
        let word = u16::from_be_bytes(self.take()?);
        let count = word & 0x7FFF;
        if count > OUTPUT_CEILING {
            return Err(3);
        }
        let mut outputs = Vec::with_capacity(self.room_for(usize::from(count)));
        for _ in 0..count {
            outputs.push(self.table()?);
        }
        let status = if word >> 15 == 1 {
            SubcompactionStatus::Completed
        } else {
            SubcompactionStatus::InProgress
        };
        Ok(Subcompaction::new(BytesRange::new(start, end))
            .with_output_ssts(outputs)
            .with_status(status))
    }

    pub(super) fn job(&mut self) -> Checked<Compaction> {
        let destination = u32::from_be_bytes(self.take()?);
        let count = self.count(SOURCE_CEILING)?;
        let mut sources = Vec::with_capacity(count);
        for _ in 0..count {
            sources.push(SourceId::SortedRun(u32::from_be_bytes(self.take()?)));
        }
        let count = self.count(PART_CEILING)?;
        let mut parts = Vec::with_capacity(count);
        for _ in 0..count {
            parts.push(self.part()?);
        }
        self.end()?;
        let spec = CompactionSpec::new(sources, destination);
        let context = CompactionContext::new(parts, None);
        Ok(Compaction::new(Ulid::default(), spec).with_ctx(Some(context)))
    }

    pub(super) fn room_for(&self, count: usize) -> usize {
        count.min(self.left() / TABLE_LEAST)
    }

    pub(super) fn end(&self) -> Checked<()> {
        if self.left() == 0 {
            Ok(())
        } else {
            Err(1)
        }
    }
}

/// A view as it is read, before the checks 4 and 5.
pub(super) struct RawView {
    pub(super) id: Ulid,
    pub(super) table: SsTableHandle,
    pub(super) visible: Option<Bounds>,
}

impl RawView {
    pub(super) fn built(self) -> SsTableView {
        let visible = self.visible.map(|(start, end)| BytesRange::new(start, end));
        SsTableView::new_projected(self.id, self.table, visible)
    }
}

/// Bounds that are the whole of a buffer, and where that begins of which their keys are slices.
pub(super) fn whole_bounds(given: &[u8]) -> Checked<(Bounds, usize)> {
    let mut fields = Fields::new(given)?;
    let bounds = fields.bounds()?;
    fields.end()?;
    Ok((bounds, fields.base()))
}

pub(super) fn core(image: &[u8]) -> Checked<ManifestCore> {
    let mut core = ManifestCore::new();
    Arc::make_mut(&mut core.tree).compacted = Fields::new(image)?.runs()?;
    Ok(core)
}

pub(super) fn job(job: &[u8]) -> Checked<Compaction> {
    Fields::new(job)?.job()
}

/// A key that is lent as it is.
pub(super) fn key(given: &[u8]) -> Checked<Bytes> {
    key_checked(given)?;
    Ok(Bytes::copy_from_slice(given))
}

pub(super) fn key_checked(given: &[u8]) -> Checked<()> {
    if given.len() > KEY_CEILING {
        return Err(3);
    }
    Ok(())
}

/// A bound that is lent as the number of its kind and its key.
pub(super) fn bound(kind: u8, given: &[u8]) -> Checked<Bound<Bytes>> {
    match kind {
        0 if given.is_empty() => Ok(Bound::Unbounded),
        0 => Err(1),
        1 => Ok(Bound::Included(key(given)?)),
        2 => Ok(Bound::Excluded(key(given)?)),
        _ => Err(2),
    }
}
