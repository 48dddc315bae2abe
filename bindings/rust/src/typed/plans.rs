//! The plan of a compaction: anchors of a table, and ranges from anchors.
use crate::answer::fresh;
use crate::typed::{Anchors, AnchorsBytes, ImageBytes, IndexBytes, IndexesBytes, Plan, RangeBytes};
use crate::{Stop, ANCHORS_LEN, PLAN_LEN};
use alloc::vec::Vec;

/// Writes the anchors of a table to the front of `out` and answers that front: keys, each with the bytes that it stands for.
/// The blocks of `index` go in groups of one size, the last maybe shorter: of as few blocks as make at most `most` groups.
/// A group's anchor has its first block's first key, and the bytes from that block's offset to the next group's, of the last
/// group to `data_end`; none where the later offset is the lesser. The anchors whose key `range` holds are answered. `most`
/// is 0 to 4,096, and 0 acts as 1. The call takes about 70 KB of stack.
///
/// # Errors
/// Stops 3 if `most` is over 4,096; 3 (length), 1 and 3 in the fields of `index`, then 1 to 3 of `range`; 4; 6; 16.
/// [`ANCHORS_LEN`](crate::ANCHORS_LEN) bytes of `out` are always enough, and so are as many as `index` has.
///
/// ```
/// use bilqarush::typed::{sample_anchors, Anchors, Index, IndexBytes, Range, RangeBytes};
/// // Two blocks from a and from b, at the offsets 0 and 10; the data end at 25.
/// let index = Index::new([(0, "a"), (10, "b")]).to_bytes()?;
/// let all = Range::all().to_bytes()?;
/// let mut out = [0; 64];
/// let anchors = sample_anchors(128, 25, IndexBytes(&index), RangeBytes(&all), &mut out)?;
/// assert_eq!(Anchors::from_bytes(anchors)?, Anchors::new([("a", 10), ("b", 15)]));
/// # Ok::<(), bilqarush::Stop>(())
/// ```
pub fn sample_anchors<'o>(
    most: usize,
    data_end: u64,
    index: IndexBytes,
    range: RangeBytes,
    out: &'o mut [u8],
) -> Result<&'o mut [u8], Stop> {
    crate::sample_anchors(most, data_end, index.0, range.0, out)
}

/// Writes a plan to the front of `out` and answers that front: ranges that hold each key exactly once, at most `parts` of
/// them, that carry about equal shares of the anchors' bytes. The target is the total of the bytes divided by `parts`,
/// rounded down, or `least` if that is greater. If `parts` is 1, the target is 0 or the target is the total or above, there
/// is one range, unbounded on both sides. Else the anchors are gone through in the order of their keys, those of equal keys
/// as they are given. An anchor's key is a boundary once the bytes of those before it reach the target times one more than
/// the boundaries so far, if it exceeds the smallest anchor key and the boundary before it and there are fewer than
/// `parts` - 1 yet. Each range but the last ends excluded at a boundary, where the next starts included. `parts` is 0 to 64,
/// and 0 acts as 1. The call takes about 200 KB of stack.
///
/// # Errors
/// Stops 3 if `parts` is over 64; 3 (length), 1 and 3 in the fields of `anchors`; 7; 16. [`PLAN_LEN`](crate::PLAN_LEN)
/// bytes of `out` are always enough.
///
/// ```
/// use bilqarush::typed::{select_boundaries, Anchors, AnchorsBytes, Plan, Range};
/// let anchors = Anchors::new([("a", 10), ("b", 10)]).to_bytes()?;
/// let mut out = [0; 64];
/// let plan = select_boundaries(2, 0, AnchorsBytes(&anchors), &mut out)?;
/// assert_eq!(Plan::from_bytes(plan)?.ranges, [Range::new(.."b"), Range::new("b"..)]);
/// # Ok::<(), bilqarush::Stop>(())
/// ```
pub fn select_boundaries<'o>(
    parts: usize,
    least: u64,
    anchors: AnchorsBytes,
    out: &'o mut [u8],
) -> Result<&'o mut [u8], Stop> {
    crate::select_boundaries(parts, least, anchors.0, out)
}

/// Writes a plan to the front of `out` and answers that front: the ranges in which the views of an image are compacted. They
/// are those of [`select_boundaries`] for the anchors of all views, with the largest raw size (`index_offset` + `index_len`)
/// as `least`. `indexes` has one index for each view, in image order, laid end to end. Of a view's table 128 anchors at most
/// are sampled, as in [`sample_anchors`]: the data end at its `filter_offset`, and the range is the view's effective range.
/// `parts` is 0 to 64, and 0 acts as 1. The call takes about 200 KB of stack.
///
/// # Errors
/// Stops 3 if `parts` is over 64; 3 (length), 1 to 3 in the fields of `image`, then 1 and 3 of `indexes`; 4; 5; 6, of the
/// image or within one index; 7, of a raw size or of the total of the sampled anchors; 15 if over 4,096 anchors are sampled;
/// 16. [`PLAN_LEN`](crate::PLAN_LEN) bytes of `out` are always enough.
///
/// ```
/// use bilqarush::typed::{plan_subcompaction_ranges, ImageBytes, IndexesBytes};
/// // No runs, and so no index: one unbounded range.
/// let mut out = [0; 64];
/// let plan = plan_subcompaction_ranges(8, ImageBytes(&[0]), IndexesBytes(&[]), &mut out)?;
/// assert_eq!(plan, [1, 0]);
/// # Ok::<(), bilqarush::Stop>(())
/// ```
pub fn plan_subcompaction_ranges<'o>(
    parts: usize,
    image: ImageBytes,
    indexes: IndexesBytes,
    out: &'o mut [u8],
) -> Result<&'o mut [u8], Stop> {
    crate::plan_subcompaction_ranges(parts, image.0, indexes.0, out)
}

/// [`sample_anchors`] into a buffer of its own, as a value.
///
/// # Errors
/// Stops as there, but 16.
pub fn sample_anchors_to_anchors(
    most: usize,
    data_end: u64,
    index: IndexBytes,
    range: RangeBytes,
) -> Result<Anchors, Stop> {
    let anchors = fresh(ANCHORS_LEN, |out| {
        sample_anchors(most, data_end, index, range, out)
    })?;
    Ok(Anchors::decode(&anchors)
        .expect("libbilqarush_c.a wrote no anchors: it does not fit this crate"))
}

/// [`select_boundaries`] into a buffer of its own, as a value.
///
/// # Errors
/// Stops as there, but 16.
pub fn select_boundaries_to_plan(
    parts: usize,
    least: u64,
    anchors: AnchorsBytes,
) -> Result<Plan, Stop> {
    fresh(PLAN_LEN, |out| {
        select_boundaries(parts, least, anchors, out)
    })
    .map(read)
}

/// [`plan_subcompaction_ranges`] into a buffer of its own, as a value.
///
/// # Errors
/// Stops as there, but 16.
pub fn plan_subcompaction_ranges_to_plan(
    parts: usize,
    image: ImageBytes,
    indexes: IndexesBytes,
) -> Result<Plan, Stop> {
    fresh(PLAN_LEN, |out| {
        plan_subcompaction_ranges(parts, image, indexes, out)
    })
    .map(read)
}

/// What a call wrote is a plan, or the archive does not fit this crate.
pub(crate) fn read(bytes: Vec<u8>) -> Plan {
    Plan::from_bytes(&bytes).expect("libbilqarush_c.a wrote no plan: it does not fit this crate")
}
