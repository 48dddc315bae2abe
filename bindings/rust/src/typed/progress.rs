//! The progress of a compaction: what of its job is durable, and what an interval leaves of a range.
use super::plans::read;
use crate::answer::fresh;
use crate::typed::{JobBytes, Plan, RangeBytes};
use crate::{Stop, DURABLE_LEN, LEFT_LEN};

/// Writes the durable intervals of a job's parts to the front of `out`, as a plan, and answers that front: a count and as many
/// ranges, in the order of the parts. Of a completed part it is the planned range; of an unfinished one its planned range up
/// to, without, the last key of its last output, and none if it has no output or that key is its start. They are what
/// [`commit`](crate::typed::commit) takes out of the sources. No ids are drawn.
///
/// # Errors
/// Stops 3 (length), 1 to 3 in the fields of `job`; 4; 5; 7; 8; 10; 11; 16. [`DURABLE_LEN`](crate::DURABLE_LEN) bytes of
/// `out` are always enough, and so are as many as `job` has.
///
/// ```
/// use bilqarush::typed::{from_compaction, Job, JobBytes, Part, Plan, Range};
/// // From run 7 to itself: a completed part up to, without, c; one from c on that has written nothing yet.
/// let job = Job::new(7, [7])
///     .with_part(Part::new(Range::new(.."c")).complete())
///     .with_part(Part::new(Range::new("c"..)))
///     .to_bytes()?;
/// let mut out = [0; 64];
/// let durable = from_compaction(JobBytes(&job), &mut out)?;
/// assert_eq!(Plan::from_bytes(durable)?.ranges, [Range::new(.."c")]);
/// # Ok::<(), bilqarush::Stop>(())
/// ```
pub fn from_compaction<'o>(job: JobBytes, out: &'o mut [u8]) -> Result<&'o mut [u8], Stop> {
    crate::from_compaction(job.0, out)
}

/// Writes what of `range` lies outside `interval` to the front of `out`, as a plan, and answers that front: a count and 0 to 2
/// ranges, the keys of `range` below the interval's start and those from its end on. `interval` is a range that starts included
/// or unbounded and ends excluded or unbounded.
///
/// # Errors
/// Stops 3 (length), 1 to 3 in the fields of `interval`, then of `range`; 4 of either; 10 of `interval`; 16.
/// [`LEFT_LEN`](crate::LEFT_LEN) bytes of `out` are always enough.
///
/// ```
/// use bilqarush::typed::{subtract_from, Plan, Range, RangeBytes, LEFT_LEN};
/// let interval = Range::new("c".."f").to_bytes()?;
/// let range = Range::new("a"..="z").to_bytes()?;
/// let mut out = [0; LEFT_LEN];
/// let left = subtract_from(RangeBytes(&interval), RangeBytes(&range), &mut out)?;
/// assert_eq!(Plan::from_bytes(left)?.ranges, [Range::new("a".."c"), Range::new("f"..="z")]);
/// # Ok::<(), bilqarush::Stop>(())
/// ```
pub fn subtract_from<'o>(
    interval: RangeBytes,
    range: RangeBytes,
    out: &'o mut [u8],
) -> Result<&'o mut [u8], Stop> {
    crate::subtract_from(interval.0, range.0, out)
}

/// [`from_compaction`] into a buffer of its own, as a value.
///
/// # Errors
/// Stops as there, but 16.
pub fn from_compaction_to_plan(job: JobBytes) -> Result<Plan, Stop> {
    fresh(DURABLE_LEN, |out| from_compaction(job, out)).map(read)
}

/// [`subtract_from`] into a buffer of its own, as a value.
///
/// # Errors
/// Stops as there, but 16.
pub fn subtract_from_to_plan(interval: RangeBytes, range: RangeBytes) -> Result<Plan, Stop> {
    fresh(LEFT_LEN, |out| subtract_from(interval, range, out)).map(read)
}
