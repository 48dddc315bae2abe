//! subcompaction.rs: decode, call and encode, also one by one.
use super::decode::{whole_bounds, Fields};
use super::encode::Room;
use super::Checked;
use crate::bytes_range::BytesRange;
use crate::db_state::SortedRun;
use crate::flatbuffer_types::SsTableIndexOwned;
use crate::subcompaction as original;
use crate::subcompaction::oracle_access as access;
use crate::tablestore::TableStore;
use bytes::Bytes;
use std::sync::Arc;

const ANCHOR_CEILING: usize = 4_096;
const PART_CEILING: usize = 64;

fn setting(number: usize, ceiling: usize) -> Checked<()> {
    if number > ceiling {
        return Err(3);
    }
    Ok(())
}

/// Ranges that were planned.
pub struct Plan {
    ranges: Vec<BytesRange>,
}

impl Plan {
    pub fn encode(&self, out: &mut [u8]) -> Checked<usize> {
        let mut room = Room::new(out);
        room.put(&[self.ranges.len() as u8])?;
        for range in &self.ranges {
            room.range(range)?;
        }
        Ok(room.written())
    }
}

/// An index and a range, decoded.
pub struct Sampling {
    index: SsTableIndexOwned,
    range: BytesRange,
}

/// Anchors, decoded or sampled.
pub struct Anchors {
    anchors: Vec<(Bytes, u64)>,
}

impl Sampling {
    pub fn decode(index: &[u8], range: &[u8]) -> Checked<Sampling> {
        let mut fields = Fields::new(index)?;
        let index = fields.index()?;
        fields.end()?;
        let ((start, end), _) = whole_bounds(range)?;
        let range = BytesRange::try_new(start, end).ok_or(4)?;
        Ok(Sampling { index, range })
    }

    pub fn sample_anchors(&self, most: usize, data_end: u64) -> Anchors {
        let anchors = access::sample_anchors(&self.index, data_end, most, &self.range);
        Anchors { anchors }
    }
}

impl Anchors {
    pub fn decode(anchors: &[u8]) -> Checked<Anchors> {
        let anchors = Fields::new(anchors)?.anchors(ANCHOR_CEILING)?;
        Ok(Anchors { anchors })
    }

    pub fn encode(&self, out: &mut [u8]) -> Checked<usize> {
        let mut room = Room::new(out);
        room.put(&(self.anchors.len() as u16).to_be_bytes())?;
        for (key, bytes) in &self.anchors {
            room.key(key)?;
            room.put(&bytes.to_be_bytes())?;
        }
        Ok(room.written())
    }

    /// The original takes the anchors, and sorts them where they are.
    pub fn select_boundaries(self, parts: usize, least: u64) -> Plan {
        let ranges = access::select_boundaries(self.anchors, parts, least);
        Plan { ranges }
    }

    /// A copy that the original may take.
    pub fn again(&self) -> Anchors {
        let anchors = self.anchors.clone();
        Anchors { anchors }
    }
}

/// An image and the indexes of its views, decoded: what `read_index` reads is at hand.
pub struct Sources {
    runs: Vec<SortedRun>,
    store: Arc<TableStore>,
}

impl Sources {
    pub fn decode(image: &[u8], indexes: &[u8]) -> Checked<Sources> {
        let (runs, views) = Fields::new(image)?.numbered_runs()?;
        let mut fields = Fields::new(indexes)?;
        let mut all = Vec::with_capacity(views);
        for _ in 0..views {
            all.push(fields.index()?);
        }
        fields.end()?;
        let store = Arc::new(TableStore::from_indexes(all));
        Ok(Sources { runs, store })
    }

    pub fn plan_subcompaction_ranges(&self, parts: usize) -> Checked<Plan> {
        let segment = Bytes::new();
        let planned =
            original::plan_subcompaction_ranges(&self.store, &[], &self.runs, &segment, parts, 1);
        let ranges = futures::executor::block_on(planned);
        let ranges = ranges.expect("each view has its index");
        Ok(Plan { ranges })
    }
}

pub fn sample_anchors(
    most: usize,
    data_end: u64,
    index: &[u8],
    range: &[u8],
    out: &mut [u8],
) -> Checked<usize> {
    setting(most, ANCHOR_CEILING)?;
    let sampling = Sampling::decode(index, range)?;
    sampling.sample_anchors(most, data_end).encode(out)
}

pub fn select_boundaries(
    parts: usize,
    least: u64,
    anchors: &[u8],
    out: &mut [u8],
) -> Checked<usize> {
    setting(parts, PART_CEILING)?;
    let anchors = Anchors::decode(anchors)?;
    anchors.select_boundaries(parts, least).encode(out)
}

pub fn plan_subcompaction_ranges(
    parts: usize,
    image: &[u8],
    indexes: &[u8],
    out: &mut [u8],
) -> Checked<usize> {
    setting(parts, PART_CEILING)?;
    let sources = Sources::decode(image, indexes)?;
    sources.plan_subcompaction_ranges(parts)?.encode(out)
}
