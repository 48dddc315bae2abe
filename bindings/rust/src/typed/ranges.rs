//! Keys, bounds and ranges.
use crate::answer::fresh;
use crate::typed::{Range, RangeBytes};
use crate::{from_prefix, Joined, Stop, RANGE_LEN};
use alloc::vec::Vec;

/// Whether a range passes slatedb's rule: with two keys, start < end, or equality if both are included; with an
/// unbounded side always. Two kinds of range pass and hold no key: excluded k to excluded k followed by 00, and
/// unbounded to excluded empty key.
///
/// # Errors
/// Stops 3 (length), 1 to 3 in the fields of `range`.
pub fn non_empty(range: RangeBytes) -> Result<bool, Stop> {
    crate::non_empty(range.0)
}

/// Whether a range holds a key.
///
/// # Errors
/// Stops 3 (length), 1 to 3 in the fields of `range`; 3 if `key` is over 1,024 bytes; 4.
///
/// ```
/// use bilqarush::typed::{contains, Range, RangeBytes};
/// let range = Range::new("a".."c").to_bytes()?;
/// assert!(contains(RangeBytes(&range), b"b")?);
/// assert!(!contains(RangeBytes(&range), b"c")?);
/// # Ok::<(), bilqarush::Stop>(())
/// ```
pub fn contains(range: RangeBytes, key: &[u8]) -> Result<bool, Stop> {
    crate::contains(range.0, key)
}

/// The key of a range that is one point (both bounds included, with equal keys), as a part of `range`.
///
/// # Errors
/// Stops 3 (length), 1 to 3 in the fields of `range`; 4.
pub fn as_point(range: RangeBytes<'_>) -> Result<Option<&[u8]>, Stop> {
    crate::as_point(range.0)
}

/// The intersection of two ranges: the greater start and the lesser end; of equal bounds, the second range's start and
/// the first's end.
///
/// # Errors
/// Stops 3 (length), 1 to 3 in the fields of `a`, then of `b`; 4 of either.
///
/// ```
/// use bilqarush::typed::{intersect, Range, RangeBytes, Side};
/// let a = Range::new("a"..="m").to_bytes()?;
/// let b = Range::new("c"..).to_bytes()?;
/// let both = intersect(RangeBytes(&a), RangeBytes(&b))?.unwrap();
/// assert_eq!(both.range.owned(), Range::new("c"..="m"));
/// assert_eq!((both.start_from, both.end_from), (Side::Second, Side::First));
/// # Ok::<(), bilqarush::Stop>(())
/// ```
pub fn intersect<'a>(a: RangeBytes<'a>, b: RangeBytes<'a>) -> Result<Option<Joined<'a>>, Stop> {
    crate::intersect(a.0, b.0)
}

/// Writes the key of the intersection's start to the front of `out` and answers that front. It has no bytes where
/// there is no intersection or it starts unbounded.
///
/// # Errors
/// Stops as [`intersect`]; 16. [`KEY_LEN`](crate::KEY_LEN) bytes are always enough.
pub fn intersect_start_key<'o>(
    a: RangeBytes,
    b: RangeBytes,
    out: &'o mut [u8],
) -> Result<&'o mut [u8], Stop> {
    crate::intersect_start_key(a.0, b.0, out)
}

/// Writes the key of the intersection's end to the front of `out` and answers that front. It has no bytes where
/// there is no intersection or it ends unbounded.
///
/// # Errors
/// Stops as [`intersect`]; 16. [`KEY_LEN`](crate::KEY_LEN) bytes are always enough.
pub fn intersect_end_key<'o>(
    a: RangeBytes,
    b: RangeBytes,
    out: &'o mut [u8],
) -> Result<&'o mut [u8], Stop> {
    crate::intersect_end_key(a.0, b.0, out)
}

/// The union of two ranges that meet or are adjacent, as slatedb has it: none for \[a,a\] and \[a00,b\], though no key
/// lies between. The start is the lesser range's (by start, then by end; the second's if they are equal); the end is the
/// greater, of equal ends the other range's.
///
/// # Errors
/// Stops as [`intersect`].
pub fn union<'a>(a: RangeBytes<'a>, b: RangeBytes<'a>) -> Result<Option<Joined<'a>>, Stop> {
    crate::union(a.0, b.0)
}

/// Writes the image of the range of the keys that are a prefix and then a key of a subrange to the front of `out` and
/// answers that front.
///
/// # Errors
/// Stops 3 if `prefix` is over 1,024 bytes; 3 (length), 1 to 3 in the fields of `subrange`; 3 if the prefix and a key of
/// the subrange join to over 1,024 bytes; 4 of the subrange or of the joined range; 16.
/// [`RANGE_LEN`](crate::RANGE_LEN) bytes are always enough.
pub fn from_prefix_and_subrange<'o>(
    prefix: &[u8],
    subrange: RangeBytes,
    out: &'o mut [u8],
) -> Result<&'o mut [u8], Stop> {
    crate::from_prefix_and_subrange(prefix, subrange.0, out)
}

/// [`from_prefix`] into a buffer of its own.
///
/// # Errors
/// Stops as there, but 16.
///
/// ```
/// use bilqarush::typed::{from_prefix_to_range, Range};
/// assert_eq!(from_prefix_to_range(b"lamp/")?, Range::new("lamp/".."lamp0"));
/// # Ok::<(), bilqarush::Stop>(())
/// ```
pub fn from_prefix_to_range(prefix: &[u8]) -> Result<Range, Stop> {
    fresh(RANGE_LEN, |out| from_prefix(prefix, out)).map(read)
}

/// [`from_prefix_and_subrange`] into a buffer of its own.
///
/// # Errors
/// Stops as there, but 16.
pub fn from_prefix_and_subrange_to_range(
    prefix: &[u8],
    subrange: RangeBytes,
) -> Result<Range, Stop> {
    fresh(RANGE_LEN, |out| {
        from_prefix_and_subrange(prefix, subrange, out)
    })
    .map(read)
}

/// What a call wrote is a range, or the archive does not fit this crate.
fn read(bytes: Vec<u8>) -> Range {
    Range::decode(&bytes).expect("libbilqarush_c.a wrote no range: it does not fit this crate")
}
