//! Keys, bounds and ranges.
use crate::answer::{joined, part, written};
use crate::raw;
use crate::typed;
use crate::writer::kind_and_key;
use crate::Stop;
use alloc::vec::Vec;
use core::cmp::Ordering;
use core::ops::Bound;

/// A range whose keys are parts of the slices that the call was given.
pub type Range<'a> = typed::Range<&'a [u8]>;

/// Which of two slices supplied a bound.
#[derive(Clone, Copy, Debug, PartialEq, Eq, Hash)]
pub enum Side {
    /// The first argument: the first of two ranges, or the image.
    First,
    /// The second: the second of two ranges, or the range that was asked for.
    Second,
}

/// A range made of bounds that stand in two slices, and where each bound comes from.
#[derive(Clone, Copy, Debug, PartialEq, Eq, Hash)]
pub struct Joined<'a> {
    /// The range. A bound's key is a part of the slice that supplied it.
    pub range: Range<'a>,
    /// The slice that supplied the start.
    pub start_from: Side,
    /// The slice that supplied the end.
    pub end_from: Side,
}

/// Whether two bounds are compared as starts or as ends.
#[derive(Clone, Copy, Debug, PartialEq, Eq, Hash)]
pub enum Bounds {
    /// Both are starts.
    Starts,
    /// Both are ends.
    Ends,
}

/// The order of two keys: by the first unequal byte, a proper prefix first.
///
/// Stops: 3 if `a` is over 1,024 bytes, then 3 if `b` is.
///
/// ```
/// use std::cmp::Ordering;
/// assert_eq!(bilqarush::compare(b"lamp", b"lamp 7"), Ok(Ordering::Less));
/// assert_eq!(bilqarush::compare(&[0; 1025], b"").unwrap_err().number(), 3);
/// ```
pub fn compare(a: &[u8], b: &[u8]) -> Result<Ordering, Stop> {
    let mut order = 0;
    // SAFETY: the slices are lent whole, and the slot is this function's own.
    Stop::told(unsafe {
        raw::bilqarush_compare(a.as_ptr(), a.len(), b.as_ptr(), b.len(), &mut order)
    })?;
    Ok(order.cmp(&0))
}

/// The order of two bounds. At equal keys, included comes before excluded as a start and after it as an end. An
/// unbounded start is least, an unbounded end greatest.
///
/// Stops: 3 if the key of `a` is over 1,024 bytes, then 3 if that of `b` is.
///
/// ```
/// use bilqarush::{cmp_bound, Bounds};
/// use std::{cmp::Ordering, ops::Bound::*};
/// assert_eq!(cmp_bound(Included(b"a"), Excluded(b"a"), Bounds::Starts), Ok(Ordering::Less));
/// assert_eq!(cmp_bound(Included(b"a"), Excluded(b"a"), Bounds::Ends), Ok(Ordering::Greater));
/// ```
pub fn cmp_bound(a: Bound<&[u8]>, b: Bound<&[u8]>, bounds: Bounds) -> Result<Ordering, Stop> {
    let (a_kind, a) = kind_and_key(a);
    let (b_kind, b) = kind_and_key(b);
    let start = bounds == Bounds::Starts;
    let mut order = 0;
    // SAFETY: the slices are lent whole, and the slot is this function's own.
    Stop::told(unsafe {
        raw::bilqarush_cmp_bound(
            a_kind,
            a.as_ptr(),
            a.len(),
            b_kind,
            b.as_ptr(),
            b.len(),
            start,
            &mut order,
        )
    })?;
    Ok(order.cmp(&0))
}

/// The image of a range: a head byte with both kinds, then each key after its length. It is what the calls take as a
/// range. Whether the range passes [`non_empty`] is not looked at.
///
/// Stops: 3 if a key is over 1,024 bytes.
///
/// ```
/// use std::ops::Bound::*;
/// let image = bilqarush::range_image(Included(b"a"), Unbounded)?;
/// assert_eq!(image, b"\x40\x00\x01a");
/// # Ok::<(), bilqarush::Stop>(())
/// ```
pub fn range_image(start: Bound<&[u8]>, end: Bound<&[u8]>) -> Result<Vec<u8>, Stop> {
    Range { start, end }.to_bytes()
}

/// Whether a range passes slatedb's rule: with two keys, start < end, or equality if both are included; with an
/// unbounded side always. Two kinds of range pass and hold no key: excluded k to excluded k followed by 00, and
/// unbounded to excluded empty key.
///
/// Stops: 3 (length), 1 to 3 in the fields of `range`.
pub fn non_empty(range: &[u8]) -> Result<bool, Stop> {
    let mut is = false;
    // SAFETY: the slice is lent whole, and the slot is this function's own.
    Stop::told(unsafe { raw::bilqarush_non_empty(range.as_ptr(), range.len(), &mut is) })?;
    Ok(is)
}

/// Whether a range holds a key.
///
/// Stops: 3 (length), 1 to 3 in the fields of `range`; 3 if `key` is over 1,024 bytes; 4.
///
/// ```
/// use std::ops::Bound::*;
/// let range = bilqarush::range_image(Included(b"a"), Excluded(b"c"))?;
/// assert!(bilqarush::contains(&range, b"b")?);
/// assert!(!bilqarush::contains(&range, b"c")?);
/// # Ok::<(), bilqarush::Stop>(())
/// ```
pub fn contains(range: &[u8], key: &[u8]) -> Result<bool, Stop> {
    let mut is = false;
    // SAFETY: the slices are lent whole, and the slot is this function's own.
    Stop::told(unsafe {
        raw::bilqarush_contains(
            range.as_ptr(),
            range.len(),
            key.as_ptr(),
            key.len(),
            &mut is,
        )
    })?;
    Ok(is)
}

/// The key of a range that is one point (both bounds included, with equal keys), as a part of `range`.
///
/// Stops: 3 (length), 1 to 3 in the fields of `range`; 4.
pub fn as_point(range: &[u8]) -> Result<Option<&[u8]>, Stop> {
    let mut out = [0; raw::BILQARUSH_POINT_LEN];
    // SAFETY: the slices are lent whole, and what is written is this function's own.
    let answer = written(&mut out, |to, room, length| unsafe {
        raw::bilqarush_as_point(range.as_ptr(), range.len(), to, room, length)
    })?;
    Ok((answer[0] == 1).then(|| part(range, &answer[1..])))
}

/// The intersection of two ranges: the greater start and the lesser end; of equal bounds, the second range's start and
/// the first's end.
///
/// Stops: 3 (length), 1 to 3 in the fields of `a`, then of `b`; 4 of either.
///
/// ```
/// use bilqarush::{intersect, range_image, Side};
/// use std::ops::Bound::*;
/// let a = range_image(Included(b"a"), Included(b"m"))?;
/// let b = range_image(Included(b"c"), Unbounded)?;
/// let both = intersect(&a, &b)?.unwrap();
/// assert_eq!(both.range.start, Included(&b"c"[..]));
/// assert_eq!(both.range.end, Included(&b"m"[..]));
/// assert_eq!((both.start_from, both.end_from), (Side::Second, Side::First));
/// # Ok::<(), bilqarush::Stop>(())
/// ```
pub fn intersect<'a>(a: &'a [u8], b: &'a [u8]) -> Result<Option<Joined<'a>>, Stop> {
    let mut out = [0; raw::BILQARUSH_JOINED_LEN];
    // SAFETY: the slices are lent whole, and what is written is this function's own.
    let answer = written(&mut out, |to, room, length| unsafe {
        raw::bilqarush_intersect(a.as_ptr(), a.len(), b.as_ptr(), b.len(), to, room, length)
    })?;
    Ok(joined(a, b, answer))
}

/// Writes the key of the intersection's start to the front of `out` and answers that front. It has no bytes where
/// there is no intersection or it starts unbounded.
///
/// Stops: as [`intersect`]; 16. [`KEY_LEN`](crate::KEY_LEN) bytes are always enough.
pub fn intersect_start_key<'o>(
    a: &[u8],
    b: &[u8],
    out: &'o mut [u8],
) -> Result<&'o mut [u8], Stop> {
    // SAFETY: the slices are lent whole, and `out` is borrowed alone.
    written(out, |to, room, length| unsafe {
        raw::bilqarush_intersect_start_key(
            a.as_ptr(),
            a.len(),
            b.as_ptr(),
            b.len(),
            to,
            room,
            length,
        )
    })
}

/// Writes the key of the intersection's end to the front of `out` and answers that front. It has no bytes where
/// there is no intersection or it ends unbounded.
///
/// Stops: as [`intersect`]; 16. [`KEY_LEN`](crate::KEY_LEN) bytes are always enough.
pub fn intersect_end_key<'o>(a: &[u8], b: &[u8], out: &'o mut [u8]) -> Result<&'o mut [u8], Stop> {
    // SAFETY: the slices are lent whole, and `out` is borrowed alone.
    written(out, |to, room, length| unsafe {
        raw::bilqarush_intersect_end_key(a.as_ptr(), a.len(), b.as_ptr(), b.len(), to, room, length)
    })
}

/// The union of two ranges that meet or are adjacent, as slatedb has it: none for \[a,a\] and \[a00,b\], though no key
/// lies between. The start is the lesser range's (by start, then by end; the second's if they are equal); the end is the
/// greater, of equal ends the other range's.
///
/// Stops: as [`intersect`].
pub fn union<'a>(a: &'a [u8], b: &'a [u8]) -> Result<Option<Joined<'a>>, Stop> {
    let mut out = [0; raw::BILQARUSH_JOINED_LEN];
    // SAFETY: the slices are lent whole, and what is written is this function's own.
    let answer = written(&mut out, |to, room, length| unsafe {
        raw::bilqarush_union(a.as_ptr(), a.len(), b.as_ptr(), b.len(), to, room, length)
    })?;
    Ok(joined(a, b, answer))
}

/// Writes the image of the range of the keys that begin with a prefix to the front of `out` and answers that front.
///
/// Stops: 3 if `prefix` is over 1,024 bytes; 16. [`RANGE_LEN`](crate::RANGE_LEN) bytes are always enough.
///
/// ```
/// let mut out = [0; bilqarush::RANGE_LEN];
/// let range = bilqarush::from_prefix(b"a\xFF", &mut out)?;
/// assert_eq!(range, b"\x60\x00\x02a\xFF\x00\x01b");
/// # Ok::<(), bilqarush::Stop>(())
/// ```
pub fn from_prefix<'o>(prefix: &[u8], out: &'o mut [u8]) -> Result<&'o mut [u8], Stop> {
    // SAFETY: the slices are lent whole, and `out` is borrowed alone.
    written(out, |to, room, length| unsafe {
        raw::bilqarush_from_prefix(prefix.as_ptr(), prefix.len(), to, room, length)
    })
}

/// Writes the image of the range of the keys that are a prefix and then a key of a subrange to the front of `out` and
/// answers that front.
///
/// Stops: 3 if `prefix` is over 1,024 bytes; 3 (length), 1 to 3 in the fields of `subrange`; 3 if the prefix and a key of
/// the subrange join to over 1,024 bytes; 4 of the subrange or of the joined range; 16.
/// [`RANGE_LEN`](crate::RANGE_LEN) bytes are always enough.
pub fn from_prefix_and_subrange<'o>(
    prefix: &[u8],
    subrange: &[u8],
    out: &'o mut [u8],
) -> Result<&'o mut [u8], Stop> {
    // SAFETY: the slices are lent whole, and `out` is borrowed alone.
    written(out, |to, room, length| unsafe {
        raw::bilqarush_from_prefix_and_subrange(
            prefix.as_ptr(),
            prefix.len(),
            subrange.as_ptr(),
            subrange.len(),
            to,
            room,
            length,
        )
    })
}
