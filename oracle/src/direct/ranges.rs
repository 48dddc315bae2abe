//! comparable_range.rs and bytes_range.rs.
use super::decode::{self, whole_bounds, Bounds, KEY_CEILING};
use super::encode::{key_of, kind, place, Room};
use super::Checked;
use crate::bytes_range::BytesRange;
use crate::comparable_range::oracle_access::into_bounds;
use crate::comparable_range::{ComparableRange, EndBound, StartBound};
use bytes::Bytes;
use std::ops::{Bound, RangeBounds};

pub fn compare(a: &[u8], b: &[u8]) -> Checked<i8> {
    Ok(decode::key(a)?.cmp(&decode::key(b)?) as i8)
}

pub fn cmp_bound(a_kind: u8, a: &[u8], b_kind: u8, b: &[u8], start: bool) -> Checked<i8> {
    let a = decode::bound(a_kind, a)?;
    let b = decode::bound(b_kind, b)?;
    Ok(if start {
        StartBound::from(a).cmp(&StartBound::from(b)) as i8
    } else {
        EndBound::from(a).cmp(&EndBound::from(b)) as i8
    })
}

pub fn non_empty(range: &[u8]) -> Checked<bool> {
    let ((start, end), _) = whole_bounds(range)?;
    Ok(ComparableRange::new(start, end).non_empty())
}

fn passing((start, end): Bounds) -> Checked<BytesRange> {
    BytesRange::try_new(start, end).ok_or(4)
}

pub fn contains(range: &[u8], key: &[u8]) -> Checked<bool> {
    let (bounds, _) = whole_bounds(range)?;
    decode::key_checked(key)?;
    // The original takes any key that compares with `Bytes`: a slice is not copied.
    Ok(RangeBounds::<Bytes>::contains(&passing(bounds)?, key))
}

pub fn as_point(range: &[u8], out: &mut [u8]) -> Checked<usize> {
    let (bounds, base) = whole_bounds(range)?;
    let range = passing(bounds)?;
    let mut room = Room::new(out);
    match range.as_point() {
        None => room.put(&[0])?,
        Some(key) => {
            room.put(&[1])?;
            room.span(key.len(), (key.as_ptr() as usize).wrapping_sub(base))?;
        }
    }
    Ok(room.written())
}

/// The two ranges that a call is given.
struct Two {
    a: Bounds,
    b: Bounds,
    sides: Sides,
}

/// Where the keys lie that two slices supply.
pub(super) struct Sides {
    pub(super) a_base: usize,
    pub(super) a_len: usize,
    pub(super) b_base: usize,
}

impl Two {
    fn read(a: &[u8], b: &[u8]) -> Checked<Self> {
        let a_len = a.len();
        let (a, a_base) = whole_bounds(a)?;
        let (b, b_base) = whole_bounds(b)?;
        let sides = Sides {
            a_base,
            a_len,
            b_base,
        };
        Ok(Two { a, b, sides })
    }
}

impl Sides {
    /// A bound as kind, side, place and length. The side is that of the memory its key lies in.
    fn put(&self, room: &mut Room, bound: Bound<&Bytes>) -> Checked<()> {
        let in_a = place(bound, self.a_base);
        let (side, at) = if in_a < self.a_len {
            (1, in_a)
        } else {
            (2, place(bound, self.b_base))
        };
        room.put(&[kind(&bound), side])?;
        room.span(key_of(bound).map_or(0, Bytes::len), at)
    }

    pub(super) fn put_both(
        &self,
        bounds: Option<(Bound<&Bytes>, Bound<&Bytes>)>,
        out: &mut [u8],
    ) -> Checked<usize> {
        let mut room = Room::new(out);
        match bounds {
            None => room.put(&[0])?,
            Some((start, end)) => {
                room.put(&[1])?;
                self.put(&mut room, start)?;
                self.put(&mut room, end)?;
            }
        }
        Ok(room.written())
    }
}

pub fn intersect(a: &[u8], b: &[u8], out: &mut [u8]) -> Checked<usize> {
    let two = Two::read(a, b)?;
    let range = passing(two.a)?.intersect(&passing(two.b)?);
    let bounds = range
        .as_ref()
        .map(|range| (range.start_bound(), range.end_bound()));
    two.sides.put_both(bounds, out)
}

fn put_key(key: Option<&Bytes>, out: &mut [u8]) -> Checked<usize> {
    let mut room = Room::new(out);
    room.put(key.map_or(&[][..], |key| &key[..]))?;
    Ok(room.written())
}

pub fn intersect_start_key(a: &[u8], b: &[u8], out: &mut [u8]) -> Checked<usize> {
    let two = Two::read(a, b)?;
    let range = passing(two.a)?.intersect(&passing(two.b)?);
    put_key(
        range.as_ref().and_then(|range| key_of(range.start_bound())),
        out,
    )
}

pub fn intersect_end_key(a: &[u8], b: &[u8], out: &mut [u8]) -> Checked<usize> {
    let two = Two::read(a, b)?;
    let range = passing(two.a)?.intersect(&passing(two.b)?);
    put_key(
        range.as_ref().and_then(|range| key_of(range.end_bound())),
        out,
    )
}

/// `BytesRange` has no union: check 4 is `ComparableRange::non_empty`.
pub fn union(a: &[u8], b: &[u8], out: &mut [u8]) -> Checked<usize> {
    let two = Two::read(a, b)?;
    let a = ComparableRange::new(two.a.0, two.a.1);
    let b = ComparableRange::new(two.b.0, two.b.1);
    if !a.non_empty() || !b.non_empty() {
        return Err(4);
    }
    let bounds = a.union(&b).map(into_bounds);
    let bounds = bounds
        .as_ref()
        .map(|(start, end)| (start.as_ref(), end.as_ref()));
    two.sides.put_both(bounds, out)
}

pub fn from_prefix(prefix: &[u8], out: &mut [u8]) -> Checked<usize> {
    decode::key_checked(prefix)?;
    let mut room = Room::new(out);
    room.range(&BytesRange::from_prefix(prefix))?;
    Ok(room.written())
}

pub fn from_prefix_and_subrange(prefix: &[u8], subrange: &[u8], out: &mut [u8]) -> Checked<usize> {
    decode::key_checked(prefix)?;
    let (bounds, _) = whole_bounds(subrange)?;
    let longest = [&bounds.0, &bounds.1]
        .into_iter()
        .filter_map(|bound| key_of(bound.as_ref()))
        .map(Bytes::len)
        .max();
    if prefix.len() + longest.unwrap_or(0) > KEY_CEILING {
        return Err(3);
    }
    let subrange = passing(bounds)?;
    let mut room = Room::new(out);
    room.range(&BytesRange::from_prefix_and_subrange(prefix, subrange))?;
    Ok(room.written())
}
