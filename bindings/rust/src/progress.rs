//! The progress of a compaction: what of its job is durable, and what an interval leaves of a range.
use crate::answer::written;
use crate::raw;
use crate::Stop;

/// Writes the durable intervals of a job's parts to the front of `out`, as a plan, and answers that front: a count and as many
/// ranges, in the order of the parts. Of a completed part it is the planned range; of an unfinished one its planned range up
/// to, without, the last key of its last output, and none if it has no output or that key is its start. They are what
/// [`commit`](crate::commit) takes out of the sources. No ids are drawn.
///
/// Stops: 3 (length), 1 to 3 in the fields of `job`; 4; 5; 7; 8; 10; 11; 16. [`DURABLE_LEN`](crate::DURABLE_LEN) bytes of
/// `out` are always enough, and so are as many as `job` has.
///
/// ```
/// // From run 7 to itself: a completed part up to, without, c; one from c on that has written nothing yet.
/// let job = b"\0\0\0\x07\x01\0\0\0\x07\x02\x20\0\x01c\x80\0\x40\0\x01c\0\0";
/// let mut out = [0; 64];
/// assert_eq!(bilqarush::from_compaction(job, &mut out)?, b"\x01\x20\0\x01c");
/// # Ok::<(), bilqarush::Stop>(())
/// ```
pub fn from_compaction<'o>(job: &[u8], out: &'o mut [u8]) -> Result<&'o mut [u8], Stop> {
    // SAFETY: the slices are lent whole, and `out` is borrowed alone.
    written(out, |to, room, length| unsafe {
        raw::bilqarush_from_compaction(job.as_ptr(), job.len(), to, room, length)
    })
}

/// Writes what of `range` lies outside `interval` to the front of `out`, as a plan, and answers that front: a count and 0 to 2
/// ranges, the keys of `range` below the interval's start and those from its end on. `interval` is a range that starts included
/// or unbounded and ends excluded or unbounded.
///
/// Stops: 3 (length), 1 to 3 in the fields of `interval`, then of `range`; 4 of either; 10 of `interval`; 16.
/// [`LEFT_LEN`](crate::LEFT_LEN) bytes of `out` are always enough.
///
/// ```
/// use bilqarush::range_image;
/// use std::ops::Bound::{Excluded, Included};
///
/// let interval = range_image(Included(b"c"), Excluded(b"f"))?;
/// let range = range_image(Included(b"a"), Included(b"z"))?;
/// let mut out = [0; bilqarush::LEFT_LEN];
/// let left = bilqarush::subtract_from(&interval, &range, &mut out)?;
/// // Two ranges: [a,c) and [f,z].
/// assert_eq!(left, b"\x02\x60\0\x01a\0\x01c\x50\0\x01f\0\x01z");
/// # Ok::<(), bilqarush::Stop>(())
/// ```
pub fn subtract_from<'o>(
    interval: &[u8],
    range: &[u8],
    out: &'o mut [u8],
) -> Result<&'o mut [u8], Stop> {
    // SAFETY: the slices are lent whole, and `out` is borrowed alone.
    written(out, |to, room, length| unsafe {
        raw::bilqarush_subtract_from(
            interval.as_ptr(),
            interval.len(),
            range.as_ptr(),
            range.len(),
            to,
            room,
            length,
        )
    })
}
