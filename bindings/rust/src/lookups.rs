//! Lookups: partitions in an index, views in an image.
use crate::answer::{joined, written};
use crate::raw;
use crate::writer::kind_and_key;
use crate::{Joined, Stop};
use core::ops::{self, Bound};

/// What [`partition_point`] asks of a first key.
#[derive(Clone, Copy, Debug, PartialEq, Eq, Hash)]
pub enum Test {
    /// It is below the key.
    Below,
    /// It is at or below the key.
    AtOrBelow,
}

/// How many of an index's leading first keys satisfy a test with a key; 0 if there are no partitions.
///
/// Stops: 3 (length), 1 and 3 in the fields of `index`; 3 if `key` is over 1,024 bytes; 6.
///
/// ```
/// use bilqarush::{partition_point, Test};
/// let block = |first: u8| [0, 0, 0, 0, 0, 0, 0, 0, 0, 1, first]; // its offset, and its first key
/// let index = [&[0, 4][..], &block(b'a'), &block(b'b'), &block(b'b'), &block(b'd')].concat();
/// assert_eq!(partition_point(&index, Test::Below, b"b"), Ok(1));
/// assert_eq!(partition_point(&index, Test::AtOrBelow, b"b"), Ok(3));
/// ```
pub fn partition_point(index: &[u8], test: Test, key: &[u8]) -> Result<usize, Stop> {
    let mut count = 0;
    // SAFETY: the slices are lent whole, and the slot is this function's own.
    Stop::told(unsafe {
        raw::bilqarush_partition_point(
            index.as_ptr(),
            index.len(),
            test == Test::AtOrBelow,
            key.as_ptr(),
            key.len(),
            &mut count,
        )
    })?;
    Ok(count)
}

/// What a call found, which is handed the slots.
fn found(call: impl FnOnce(*mut bool, *mut usize) -> u8) -> Result<Option<usize>, Stop> {
    let (mut found, mut partition) = (false, 0);
    Stop::told(call(&mut found, &mut partition))?;
    Ok(found.then_some(partition))
}

/// The places that a call answered, which is handed the slots.
fn places(call: impl FnOnce(*mut usize, *mut usize) -> u8) -> Result<ops::Range<usize>, Stop> {
    let (mut start, mut end) = (0, 0);
    Stop::told(call(&mut start, &mut end))?;
    Ok(start..end)
}

/// The first partition that can hold a key, by its place from 0: the last whose first key is below it, else the first if
/// the key is its first key. None if each first key is above the key, and none with no partitions.
///
/// Stops: as [`partition_point`].
///
/// ```
/// use bilqarush::first_partition_including_key;
/// let block = |first: u8| [0, 0, 0, 0, 0, 0, 0, 0, 0, 1, first]; // its offset, and its first key
/// let index = [&[0, 4][..], &block(b'a'), &block(b'b'), &block(b'b'), &block(b'd')].concat();
/// assert_eq!(first_partition_including_key(&index, b"b"), Ok(Some(0)));
/// assert_eq!(first_partition_including_key(&index, b"c"), Ok(Some(2)));
/// assert_eq!(first_partition_including_key(&index, b"A"), Ok(None));
/// ```
pub fn first_partition_including_key(index: &[u8], key: &[u8]) -> Result<Option<usize>, Stop> {
    // SAFETY: the slices are lent whole, and the slots are this crate's own.
    found(|found, partition| unsafe {
        raw::bilqarush_first_partition_including_key(
            index.as_ptr(),
            index.len(),
            key.as_ptr(),
            key.len(),
            found,
            partition,
        )
    })
}

/// The first partition that can hold a key or one after it: that of [`first_partition_including_key`], and 0 where there
/// is none, also with no partitions.
///
/// Stops: as [`partition_point`].
///
/// ```
/// use bilqarush::first_partition_including_or_after_key;
/// let block = |first: u8| [0, 0, 0, 0, 0, 0, 0, 0, 0, 1, first]; // its offset, and its first key
/// let index = [&[0, 4][..], &block(b'a'), &block(b'b'), &block(b'b'), &block(b'd')].concat();
/// assert_eq!(first_partition_including_or_after_key(&index, b"e"), Ok(3));
/// assert_eq!(first_partition_including_or_after_key(&index, b"A"), Ok(0));
/// ```
pub fn first_partition_including_or_after_key(index: &[u8], key: &[u8]) -> Result<usize, Stop> {
    let mut partition = 0;
    // SAFETY: the slices are lent whole, and the slot is this function's own.
    Stop::told(unsafe {
        raw::bilqarush_first_partition_including_or_after_key(
            index.as_ptr(),
            index.len(),
            key.as_ptr(),
            key.len(),
            &mut partition,
        )
    })?;
    Ok(partition)
}

/// The last partition that can hold a key, by its place from 0: the last whose first key is at or below it. None if each
/// first key is above the key, and none with no partitions.
///
/// Stops: as [`partition_point`].
///
/// ```
/// use bilqarush::last_partition_including_key;
/// let block = |first: u8| [0, 0, 0, 0, 0, 0, 0, 0, 0, 1, first]; // its offset, and its first key
/// let index = [&[0, 4][..], &block(b'a'), &block(b'b'), &block(b'b'), &block(b'd')].concat();
/// assert_eq!(last_partition_including_key(&index, b"b"), Ok(Some(2)));
/// assert_eq!(last_partition_including_key(&index, b"A"), Ok(None));
/// ```
pub fn last_partition_including_key(index: &[u8], key: &[u8]) -> Result<Option<usize>, Stop> {
    // SAFETY: the slices are lent whole, and the slots are this crate's own.
    found(|found, partition| unsafe {
        raw::bilqarush_last_partition_including_key(
            index.as_ptr(),
            index.len(),
            key.as_ptr(),
            key.len(),
            found,
            partition,
        )
    })
}

/// The places of the partitions that can hold a key of a range; `0..0` with no partitions.
///
/// Stops: 3 (length), 1 and 3 in the fields of `index`; 3 (length), 1 to 3 in the fields of `range`; 4; 6.
///
/// ```
/// use bilqarush::{partitions_covering_range, range_image};
/// use std::ops::Bound::*;
/// let block = |first: u8| [0, 0, 0, 0, 0, 0, 0, 0, 0, 1, first]; // its offset, and its first key
/// let index = [&[0, 4][..], &block(b'a'), &block(b'b'), &block(b'b'), &block(b'd')].concat();
/// let point = range_image(Included(b"b"), Included(b"b"))?;
/// assert_eq!(partitions_covering_range(&index, &point)?, 0..3);
/// let before = range_image(Unbounded, Excluded(b"b"))?;
/// assert_eq!(partitions_covering_range(&index, &before)?, 0..2);
/// # Ok::<(), bilqarush::Stop>(())
/// ```
pub fn partitions_covering_range(index: &[u8], range: &[u8]) -> Result<ops::Range<usize>, Stop> {
    // SAFETY: the slices are lent whole, and the slots are this crate's own.
    places(|start, end| unsafe {
        raw::bilqarush_partitions_covering_range(
            index.as_ptr(),
            index.len(),
            range.as_ptr(),
            range.len(),
            start,
            end,
        )
    })
}

/// The places of the views of a run that can hold a key of a range; `0..0` if the run has no views. A view counts up to
/// the next view's effective start, and with that key if its effective range holds it; the last view counts without end.
/// `run` is the run's place in the image, from 0.
///
/// Stops: 3 (length), 1 to 3 in the fields of `image`, then of `range`; 4, of the range or a visible range; 5; 6; 7; 9.
///
/// ```
/// use bilqarush::{range_image, table_idx_covering_range};
/// use std::ops::Bound::*;
/// // Run 7 with two views: of a table from a to c, and of one from d on. Ids and sizes are 0.
/// let [one, other] = [&b"\x80\0\x01a\0\x01c\0"[..], b"\0\0\x01d\0"];
/// let image = [&[1, 0, 0, 0, 7, 0, 0x20][..], &[0; 56], one, &[0; 56], other].concat();
/// let range = range_image(Included(b"cc"), Excluded(b"d"))?;
/// assert_eq!(table_idx_covering_range(&image, 0, &range)?, 0..1);
/// assert_eq!(table_idx_covering_range(&image, 1, &range).unwrap_err().number(), 9);
/// # Ok::<(), bilqarush::Stop>(())
/// ```
pub fn table_idx_covering_range(
    image: &[u8],
    run: usize,
    range: &[u8],
) -> Result<ops::Range<usize>, Stop> {
    // SAFETY: the slices are lent whole, and the slots are this crate's own.
    places(|start, end| unsafe {
        raw::bilqarush_table_idx_covering_range(
            image.as_ptr(),
            image.len(),
            run,
            range.as_ptr(),
            range.len(),
            start,
            end,
        )
    })
}

/// Whether a range meets a run's span: from the effective start of its first view to the effective end of its last. It
/// does not if the run has no views. `run` is the run's place in the image, from 0.
///
/// Stops: as [`table_idx_covering_range`].
///
/// ```
/// use bilqarush::{overlaps_range, range_image};
/// use std::ops::Bound::*;
/// // Run 7 with a view of a table from a to c. Ids and sizes are 0.
/// let image = [&[1, 0, 0, 0, 7, 0, 0x10][..], &[0; 56], b"\x80\0\x01a\0\x01c\0"].concat();
/// assert!(overlaps_range(&image, 0, &range_image(Included(b"c"), Unbounded)?)?);
/// assert!(!overlaps_range(&image, 0, &range_image(Excluded(b"c"), Unbounded)?)?);
/// # Ok::<(), bilqarush::Stop>(())
/// ```
pub fn overlaps_range(image: &[u8], run: usize, range: &[u8]) -> Result<bool, Stop> {
    let mut is = false;
    // SAFETY: the slices are lent whole, and the slot is this function's own.
    Stop::told(unsafe {
        raw::bilqarush_overlaps_range(
            image.as_ptr(),
            image.len(),
            run,
            range.as_ptr(),
            range.len(),
            &mut is,
        )
    })?;
    Ok(is)
}

/// What a view keeps of a range. Of the last view of a run: the intersection of its effective range and the range. Of
/// another: the intersection of the keys from its effective start up to the next view's (with that key if its effective
/// range holds it, and keys past its last key too) and the range; then, if it has a visible range, the intersection of
/// the result and that. Of equal bounds each takes the second's start and the first's end, in the order said here.
///
/// [`Side::First`](crate::Side) is the image, [`Side::Second`](crate::Side) the range. `run` is the run's place in the
/// image and `view` the view's place in its run, both from 0.
///
/// Stops: as [`table_idx_covering_range`].
///
/// ```
/// use bilqarush::{compacted_intersection, range_image, Side};
/// use std::ops::Bound::*;
/// // Run 7 with two views: of a table from a to c, and of one from d on. Ids and sizes are 0.
/// let [one, other] = [&b"\x80\0\x01a\0\x01c\0"[..], b"\0\0\x01d\0"];
/// let image = [&[1, 0, 0, 0, 7, 0, 0x20][..], &[0; 56], one, &[0; 56], other].concat();
/// let range = range_image(Included(b"b"), Unbounded)?;
/// let kept = compacted_intersection(&image, 0, 0, &range)?.unwrap();
/// assert_eq!(kept.range.start, Included(&b"b"[..]));
/// assert_eq!(kept.range.end, Excluded(&b"d"[..]));
/// assert_eq!((kept.start_from, kept.end_from), (Side::Second, Side::First));
/// # Ok::<(), bilqarush::Stop>(())
/// ```
pub fn compacted_intersection<'a>(
    image: &'a [u8],
    run: usize,
    view: usize,
    range: &'a [u8],
) -> Result<Option<Joined<'a>>, Stop> {
    let mut out = [0; raw::BILQARUSH_JOINED_LEN];
    // SAFETY: the slices are lent whole, and what is written is this function's own.
    let answer = written(&mut out, |to, room, length| unsafe {
        raw::bilqarush_compacted_intersection(
            image.as_ptr(),
            image.len(),
            run,
            view,
            range.as_ptr(),
            range.len(),
            to,
            room,
            length,
        )
    })?;
    Ok(joined(image, range, answer))
}

/// The part of a range that a view is read for: the intersection of the range and its visible range; without one, of the
/// range and its table's own range; and without a last key either, the range as it is. Of equal bounds it takes the
/// image's start and the range's end.
///
/// [`Side::First`](crate::Side) is the image, [`Side::Second`](crate::Side) the range. `run` is the run's place in the
/// image and `view` the view's place in its run, both from 0.
///
/// Stops: as [`table_idx_covering_range`].
///
/// ```
/// use bilqarush::{calculate_view_range, range_image, Side};
/// use std::ops::Bound::*;
/// // Run 7 with a view of a table from a to c. Ids and sizes are 0.
/// let image = [&[1, 0, 0, 0, 7, 0, 0x10][..], &[0; 56], b"\x80\0\x01a\0\x01c\0"].concat();
/// let range = range_image(Included(b"b"), Unbounded)?;
/// let part = calculate_view_range(&image, 0, 0, &range)?.unwrap();
/// assert_eq!(part.range.start, Included(&b"b"[..]));
/// assert_eq!(part.range.end, Included(&b"c"[..]));
/// assert_eq!((part.start_from, part.end_from), (Side::Second, Side::First));
/// # Ok::<(), bilqarush::Stop>(())
/// ```
pub fn calculate_view_range<'a>(
    image: &'a [u8],
    run: usize,
    view: usize,
    range: &'a [u8],
) -> Result<Option<Joined<'a>>, Stop> {
    let mut out = [0; raw::BILQARUSH_JOINED_LEN];
    // SAFETY: the slices are lent whole, and what is written is this function's own.
    let answer = written(&mut out, |to, room, length| unsafe {
        raw::bilqarush_calculate_view_range(
            image.as_ptr(),
            image.len(),
            run,
            view,
            range.as_ptr(),
            range.len(),
            to,
            room,
            length,
        )
    })?;
    Ok(joined(image, range, answer))
}

/// Whether a range meets a view that counts from its effective start up to an end bound, which stands in place of its own
/// end. It does not where the view's effective range lies behind that bound. `run` is the run's place in the image and
/// `view` the view's place in its run, both from 0.
///
/// Stops: 3 (length), 1 to 3 in the fields of `image`; 3 if the key of `end` is over 1,024 bytes; 3 (length), 1 to 3 in
/// the fields of `range`; 4, of the range or a visible range; 5; 6; 7; 9.
///
/// ```
/// use bilqarush::{intersects_range, range_image};
/// use std::ops::Bound::*;
/// // Run 7 with a view of a table from a to c. Ids and sizes are 0.
/// let image = [&[1, 0, 0, 0, 7, 0, 0x10][..], &[0; 56], b"\x80\0\x01a\0\x01c\0"].concat();
/// let range = range_image(Included(b"x"), Unbounded)?;
/// assert!(intersects_range(&image, 0, 0, Unbounded, &range)?);
/// assert!(!intersects_range(&image, 0, 0, Excluded(b"d"), &range)?);
/// # Ok::<(), bilqarush::Stop>(())
/// ```
pub fn intersects_range(
    image: &[u8],
    run: usize,
    view: usize,
    end: Bound<&[u8]>,
    range: &[u8],
) -> Result<bool, Stop> {
    let (end_kind, end) = kind_and_key(end);
    let mut is = false;
    // SAFETY: the slices are lent whole, and the slot is this function's own.
    Stop::told(unsafe {
        raw::bilqarush_intersects_range(
            image.as_ptr(),
            image.len(),
            run,
            view,
            end_kind,
            end.as_ptr(),
            end.len(),
            range.as_ptr(),
            range.len(),
            &mut is,
        )
    })?;
    Ok(is)
}
