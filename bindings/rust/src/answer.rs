//! Answers as the raw calls write them.
use crate::raw;
use crate::{Joined, Range, Side, Stop};
use alloc::vec;
use alloc::vec::Vec;
use core::ops::Bound;

/// No archive that fits this crate answers such a number.
pub(crate) fn unfit(what: &str, number: u8) -> ! {
    panic!("libbilqarush_c.a answered the {what} {number}: it does not fit this crate")
}

/// The front of `out` that a raw call wrote. The call is handed `out` and the slot for the length.
pub(crate) fn written(
    out: &mut [u8],
    call: impl FnOnce(*mut u8, usize, *mut usize) -> u8,
) -> Result<&mut [u8], Stop> {
    let mut length = 0;
    Stop::told(call(out.as_mut_ptr(), out.len(), &mut length))?;
    Ok(&mut out[..length])
}

/// What a call writes to a buffer of its own, which has room enough.
pub(crate) fn fresh(
    room: usize,
    call: impl FnOnce(&mut [u8]) -> Result<&mut [u8], Stop>,
) -> Result<Vec<u8>, Stop> {
    let mut out = vec![0; room];
    let length = call(&mut out)?.len();
    out.truncate(length);
    out.shrink_to_fit();
    Ok(out)
}

/// A number of 8 bytes, most significant first.
fn number(bytes: &[u8]) -> usize {
    bytes[..8]
        .iter()
        .fold(0, |sum, &byte| sum << 8 | usize::from(byte))
}

/// The part of a slice that a place and a length name.
pub(crate) fn part<'a>(slice: &'a [u8], place: &[u8]) -> &'a [u8] {
    &slice[number(place)..][..number(&place[8..])]
}

/// The bound of a kind whose key stands in a slice.
pub(crate) fn bound<'a>(kind: u8, slice: &'a [u8], place: &[u8]) -> Bound<&'a [u8]> {
    match kind {
        raw::BILQARUSH_UNBOUNDED => Bound::Unbounded,
        raw::BILQARUSH_INCLUDED => Bound::Included(part(slice, place)),
        raw::BILQARUSH_EXCLUDED => Bound::Excluded(part(slice, place)),
        _ => unfit("kind", kind),
    }
}

/// The range that a call such as `intersect` wrote, if any.
pub(crate) fn joined<'a>(a: &'a [u8], b: &'a [u8], answer: &[u8]) -> Option<Joined<'a>> {
    if answer[0] == 0 {
        return None;
    }
    let (start_from, start) = supplied(a, b, &answer[1..19]);
    let (end_from, end) = supplied(a, b, &answer[19..37]);
    Some(Joined {
        range: Range { start, end },
        start_from,
        end_from,
    })
}

/// A bound, written as its kind, the side that supplied it, and the place and length of its key there.
fn supplied<'a>(a: &'a [u8], b: &'a [u8], answer: &[u8]) -> (Side, Bound<&'a [u8]>) {
    let (side, slice) = match answer[1] {
        raw::BILQARUSH_FIRST => (Side::First, a),
        raw::BILQARUSH_SECOND => (Side::Second, b),
        side => unfit("side", side),
    };
    (side, bound(answer[0], slice, &answer[2..]))
}
