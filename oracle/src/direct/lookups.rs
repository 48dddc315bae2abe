//! partitioned_keyspace.rs over the first keys of an index, and db_state.rs's lookups and visible sizes
//! on the views of an image. What is looked in is decoded apart, so that a call can be timed without it.
use super::decode::{self, whole_bounds, Fields};
use super::ranges::Sides;
use super::Checked;
use crate::bytes_range::BytesRange;
use crate::db_state::{oracle_access as access, SortedRun, SsTableView};
use crate::partitioned_keyspace as original;
use crate::partitioned_keyspace::RangePartitionedKeySpace;
use bytes::Bytes;
use std::ops::{Bound, Range, RangeBounds};

/// The first keys of an index.
pub struct Index {
    first_keys: Vec<Bytes>,
}

impl RangePartitionedKeySpace for Index {
    fn partitions(&self) -> usize {
        self.first_keys.len()
    }

    fn partition_first_key(&self, partition: usize) -> &[u8] {
        &self.first_keys[partition]
    }
}

fn slice(bound: Bound<&Bytes>) -> Bound<&[u8]> {
    bound.map(|key| &key[..])
}

impl Index {
    pub fn decode(index: &[u8]) -> Checked<Index> {
        let first_keys = Fields::new(index)?.first_keys()?;
        Ok(Index { first_keys })
    }

    pub fn partition_point(&self, at_or_below: bool, key: &[u8]) -> Checked<usize> {
        decode::key_checked(key)?;
        Ok(match at_or_below {
            false => original::partition_point(self, |first_key| first_key < key),
            true => original::partition_point(self, |first_key| first_key <= key),
        })
    }

    pub fn first_partition_including_key(&self, key: &[u8]) -> Checked<Option<usize>> {
        decode::key_checked(key)?;
        Ok(original::first_partition_including_key(self, key))
    }

    pub fn first_partition_including_or_after_key(&self, key: &[u8]) -> Checked<usize> {
        decode::key_checked(key)?;
        Ok(original::first_partition_including_or_after_key(self, key))
    }

    pub fn last_partition_including_key(&self, key: &[u8]) -> Checked<Option<usize>> {
        decode::key_checked(key)?;
        Ok(original::last_partition_including_key(self, key))
    }

    pub fn partitions_covering_range(&self, range: &[u8]) -> Checked<Range<usize>> {
        let (range, _) = asked(range)?;
        let (start, end) = (slice(range.start_bound()), slice(range.end_bound()));
        Ok(original::partitions_covering_range(self, start, end))
    }
}

/// A range that is asked for, and where that begins of which its keys are slices.
fn asked(range: &[u8]) -> Checked<(BytesRange, usize)> {
    let ((start, end), base) = whole_bounds(range)?;
    let range = BytesRange::try_new(start, end).ok_or(4)?;
    Ok((range, base))
}

/// The runs of an image.
pub struct Runs {
    runs: Vec<SortedRun>,
    base: usize,
    length: usize,
}

impl Runs {
    pub fn decode(image: &[u8]) -> Checked<Runs> {
        let mut fields = Fields::new(image)?;
        Ok(Runs {
            runs: fields.runs()?,
            base: fields.base(),
            length: image.len(),
        })
    }

    fn run(&self, run: usize) -> Checked<&SortedRun> {
        self.runs.get(run).ok_or(9)
    }

    fn view(&self, run: usize, view: usize) -> Checked<&SsTableView> {
        self.run(run)?.sst_views().get(view).ok_or(9)
    }

    pub fn table_idx_covering_range(&self, run: usize, range: &[u8]) -> Checked<Range<usize>> {
        let (range, _) = asked(range)?;
        Ok(access::table_idx_covering_range(self.run(run)?, &range))
    }

    pub fn overlaps_range(&self, run: usize, range: &[u8]) -> Checked<bool> {
        let (range, _) = asked(range)?;
        Ok(self.run(run)?.overlaps_range(&range))
    }

    pub fn compacted_intersection(
        &self,
        run: usize,
        view: usize,
        range: &[u8],
        out: &mut [u8],
    ) -> Checked<usize> {
        let (range, base) = asked(range)?;
        let next = self.run(run)?.sst_views().get(view + 1);
        let kept = self.view(run, view)?.compacted_intersection(next, &range);
        self.sides(base).put_range(kept.as_ref(), out)
    }

    pub fn calculate_view_range(
        &self,
        run: usize,
        view: usize,
        range: &[u8],
        out: &mut [u8],
    ) -> Checked<usize> {
        let (range, base) = asked(range)?;
        let part = self.view(run, view)?.calculate_view_range(range);
        self.sides(base).put_range(part.as_ref(), out)
    }

    pub fn intersects_range(
        &self,
        run: usize,
        view: usize,
        end_kind: u8,
        end: &[u8],
        range: &[u8],
    ) -> Checked<bool> {
        let end = decode::bound(end_kind, end)?;
        let (range, _) = asked(range)?;
        Ok(self.view(run, view)?.intersects_range(end, &range))
    }

    /// 1.0 where the table is shown whole.
    pub fn visible_fraction(&self, run: usize, view: usize) -> Checked<f64> {
        Ok(access::visible_fraction(self.view(run, view)?))
    }

    pub fn estimate_visible_size(&self, run: usize, view: usize) -> Checked<u64> {
        Ok(self.view(run, view)?.estimate_visible_size())
    }

    pub fn estimate_run_visible_size(&self, run: usize) -> Checked<u64> {
        Ok(self.run(run)?.estimate_visible_size())
    }

    fn sides(&self, asked: usize) -> Sides {
        Sides {
            a_base: self.base,
            a_len: self.length,
            b_base: asked,
        }
    }
}

impl Sides {
    fn put_range(&self, range: Option<&BytesRange>, out: &mut [u8]) -> Checked<usize> {
        let bounds = range.map(|range| (range.start_bound(), range.end_bound()));
        self.put_both(bounds, out)
    }
}
