//! incremental_progress.rs: durable intervals, decode, call and encode, also one by one.
use super::decode::{self, whole_bounds};
use super::encode::Room;
use super::Checked;
use crate::bytes_range::BytesRange;
use crate::compactor_state::Compaction;
use crate::incremental_progress::{oracle_access as access, IncrementalProgress};
use slatedb_common::DbRand;
use std::ops::Bound;

/// A job, decoded.
pub struct Recorded {
    job: Compaction,
}

/// What of it is durable.
pub struct Progress {
    progress: IncrementalProgress,
}

impl Recorded {
    pub fn decode(job: &[u8]) -> Checked<Recorded> {
        let job = decode::job(job)?;
        Ok(Recorded { job })
    }

    /// The original makes the views of the outputs too, and draws an id for each that it cuts. Panics if the
    /// supply is used up.
    pub fn from_compaction(&self, ids: &[u8]) -> Progress {
        let rand = DbRand::with_supply(ids);
        let progress = IncrementalProgress::from_compaction(&self.job, &rand);
        Progress { progress }
    }
}

impl Progress {
    pub fn encode(&self, out: &mut [u8]) -> Checked<usize> {
        let ranges: Vec<BytesRange> = access::ranges(&self.progress).collect();
        encode(&ranges, out)
    }
}

fn encode(ranges: &[BytesRange], out: &mut [u8]) -> Checked<usize> {
    let mut room = Room::new(out);
    room.put(&[ranges.len() as u8])?;
    for range in ranges {
        room.range(range)?;
    }
    Ok(room.written())
}

/// An interval and a range, decoded.
pub struct Subtraction {
    interval: access::Held,
    range: BytesRange,
}

/// What the interval leaves of the range.
pub struct Left {
    ranges: Vec<BytesRange>,
}

impl Subtraction {
    pub fn decode(interval: &[u8], range: &[u8]) -> Checked<Subtraction> {
        let ((start, end), _) = whole_bounds(interval)?;
        // The original panics there.
        if matches!(start, Bound::Excluded(_)) || matches!(end, Bound::Included(_)) {
            return Err(10);
        }
        let interval = BytesRange::try_new(start, end).ok_or(4)?;
        let ((start, end), _) = whole_bounds(range)?;
        Ok(Subtraction {
            interval: access::Held::of(&interval),
            range: BytesRange::try_new(start, end).ok_or(4)?,
        })
    }

    pub fn subtract_from(&self) -> Left {
        let ranges = self.interval.subtract_from(&self.range);
        Left { ranges }
    }
}

impl Left {
    pub fn encode(&self, out: &mut [u8]) -> Checked<usize> {
        encode(&self.ranges, out)
    }
}

pub fn from_compaction(job: &[u8], ids: &[u8], out: &mut [u8]) -> Checked<usize> {
    Recorded::decode(job)?.from_compaction(ids).encode(out)
}

pub fn subtract_from(interval: &[u8], range: &[u8], out: &mut [u8]) -> Checked<usize> {
    let subtraction = Subtraction::decode(interval, range)?;
    subtraction.subtract_from().encode(out)
}
