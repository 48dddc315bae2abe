//! The plan of a compaction: anchors of a table, and ranges from anchors.
use crate::answer::written;
use crate::raw;
use crate::Stop;

/// Writes the anchors of a table to the front of `out` and answers that front: keys, each with the bytes that it stands for.
/// The blocks of `index` go in groups of one size, the last maybe shorter: of as few blocks as make at most `most` groups.
/// A group's anchor has its first block's first key, and the bytes from that block's offset to the next group's, of the last
/// group to `data_end`; none where the later offset is the lesser. The anchors whose key `range` holds are answered. `most`
/// is 0 to 4,096, and 0 acts as 1. The call takes about 70 KB of stack.
///
/// Stops: 3 if `most` is over 4,096; 3 (length), 1 and 3 in the fields of `index`, then 1 to 3 of `range`; 4; 6; 16.
/// [`ANCHORS_LEN`](crate::ANCHORS_LEN) bytes of `out` are always enough, and so are as many as `index` has.
///
/// ```
/// // Two blocks from a and from b, at the offsets 0 and 10; the data end at 25.
/// let index = b"\0\x02\0\0\0\0\0\0\0\0\0\x01a\0\0\0\0\0\0\0\x0a\0\x01b";
/// let everything = [0];
/// let mut out = [0; 64];
/// let anchors = bilqarush::sample_anchors(128, 25, index, &everything, &mut out)?;
/// assert_eq!(anchors, b"\0\x02\0\x01a\0\0\0\0\0\0\0\x0a\0\x01b\0\0\0\0\0\0\0\x0f");
/// # Ok::<(), bilqarush::Stop>(())
/// ```
pub fn sample_anchors<'o>(
    most: usize,
    data_end: u64,
    index: &[u8],
    range: &[u8],
    out: &'o mut [u8],
) -> Result<&'o mut [u8], Stop> {
    // SAFETY: the slices are lent whole, and `out` is borrowed alone.
    written(out, |to, room, length| unsafe {
        raw::bilqarush_sample_anchors(
            most,
            data_end,
            index.as_ptr(),
            index.len(),
            range.as_ptr(),
            range.len(),
            to,
            room,
            length,
        )
    })
}

/// Writes a plan to the front of `out` and answers that front: ranges that hold each key exactly once, at most `parts` of
/// them, that carry about equal shares of the anchors' bytes. The target is the total of the bytes divided by `parts`,
/// rounded down, or `least` if that is greater. If `parts` is 1, the target is 0 or the target is the total or above, there
/// is one range, unbounded on both sides. Else the anchors are gone through in the order of their keys, those of equal keys
/// as they are given. An anchor's key is a boundary once the bytes of those before it reach the target times one more than
/// the boundaries so far, if it exceeds the smallest anchor key and the boundary before it and there are fewer than
/// `parts` - 1 yet. Each range but the last ends excluded at a boundary, where the next starts included. `parts` is 0 to 64,
/// and 0 acts as 1. The call takes about 200 KB of stack.
///
/// Stops: 3 if `parts` is over 64; 3 (length), 1 and 3 in the fields of `anchors`; 7; 16. [`PLAN_LEN`](crate::PLAN_LEN)
/// bytes of `out` are always enough.
///
/// ```
/// // Two anchors of 10 bytes each, a and b.
/// let anchors = b"\0\x02\0\x01a\0\0\0\0\0\0\0\x0a\0\x01b\0\0\0\0\0\0\0\x0a";
/// let mut out = [0; 64];
/// let plan = bilqarush::select_boundaries(2, 0, anchors, &mut out)?;
/// // Two ranges: up to, without, b; and from b on.
/// assert_eq!(plan, b"\x02\x20\0\x01b\x40\0\x01b");
/// # Ok::<(), bilqarush::Stop>(())
/// ```
pub fn select_boundaries<'o>(
    parts: usize,
    least: u64,
    anchors: &[u8],
    out: &'o mut [u8],
) -> Result<&'o mut [u8], Stop> {
    // SAFETY: the slices are lent whole, and `out` is borrowed alone.
    written(out, |to, room, length| unsafe {
        raw::bilqarush_select_boundaries(
            parts,
            least,
            anchors.as_ptr(),
            anchors.len(),
            to,
            room,
            length,
        )
    })
}

/// Writes a plan to the front of `out` and answers that front: the ranges in which the views of an image are compacted. They
/// are those of [`select_boundaries`] for the anchors of all views, with the largest raw size (`index_offset` + `index_len`)
/// as `least`. `indexes` has one index for each view, in image order, laid end to end. Of a view's table 128 anchors at most
/// are sampled, as in [`sample_anchors`]: the data end at its `filter_offset`, and the range is the view's effective range.
/// `parts` is 0 to 64, and 0 acts as 1. The call takes about 200 KB of stack.
///
/// Stops: 3 if `parts` is over 64; 3 (length), 1 to 3 in the fields of `image`, then 1 and 3 of `indexes`; 4; 5; 6, of the
/// image or within one index; 7, of a raw size or of the total of the sampled anchors; 15 if over 4,096 anchors are sampled;
/// 16. [`PLAN_LEN`](crate::PLAN_LEN) bytes of `out` are always enough.
///
/// ```
/// // No runs, and so no index: one unbounded range.
/// let mut out = [0; 64];
/// assert_eq!(bilqarush::plan_subcompaction_ranges(8, &[0], &[], &mut out)?, [1, 0]);
/// # Ok::<(), bilqarush::Stop>(())
/// ```
pub fn plan_subcompaction_ranges<'o>(
    parts: usize,
    image: &[u8],
    indexes: &[u8],
    out: &'o mut [u8],
) -> Result<&'o mut [u8], Stop> {
    // SAFETY: the slices are lent whole, and `out` is borrowed alone.
    written(out, |to, room, length| unsafe {
        raw::bilqarush_plan_subcompaction_ranges(
            parts,
            image.as_ptr(),
            image.len(),
            indexes.as_ptr(),
            indexes.len(),
            to,
            room,
            length,
        )
    })
}
