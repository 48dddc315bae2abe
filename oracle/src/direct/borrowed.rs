//! The originals' generic code over keys that are not copied: slices of what is lent. slatedb
//! itself has its keys as `Bytes`.
use super::decode::{key_checked, KEY_CEILING};
use super::Checked;
use crate::comparable_range::{ComparableRange, EndBound, StartBound};
use std::ops::{Bound, RangeBounds};

pub fn compare(a: &[u8], b: &[u8]) -> Checked<i8> {
    key_checked(a)?;
    key_checked(b)?;
    Ok(a.cmp(b) as i8)
}

fn bound(kind: u8, key: &[u8]) -> Checked<Bound<&[u8]>> {
    key_checked(key)?;
    match kind {
        0 if key.is_empty() => Ok(Bound::Unbounded),
        0 => Err(1),
        1 => Ok(Bound::Included(key)),
        2 => Ok(Bound::Excluded(key)),
        _ => Err(2),
    }
}

pub fn cmp_bound(a_kind: u8, a: &[u8], b_kind: u8, b: &[u8], start: bool) -> Checked<i8> {
    let a = bound(a_kind, a)?;
    let b = bound(b_kind, b)?;
    Ok(if start {
        StartBound::from(a).cmp(&StartBound::from(b)) as i8
    } else {
        EndBound::from(a).cmp(&EndBound::from(b)) as i8
    })
}

fn take_bound<'a>(kind: u8, rest: &mut &'a [u8]) -> Checked<Bound<&'a [u8]>> {
    if kind == 0 {
        return Ok(Bound::Unbounded);
    }
    let (length, after) = rest.split_first_chunk::<2>().ok_or(1)?;
    let length = usize::from(u16::from_be_bytes(*length));
    if length > KEY_CEILING {
        return Err(3);
    }
    let (key, after) = after.split_at_checked(length).ok_or(1)?;
    *rest = after;
    bound(kind, key)
}

fn range(given: &[u8]) -> Checked<ComparableRange<&[u8]>> {
    let (head, mut rest) = given.split_first().ok_or(1)?;
    let (start, end) = (head >> 6, (head >> 4) & 3);
    if start == 3 || end == 3 || head & 15 != 0 {
        return Err(2);
    }
    let range = ComparableRange::new(take_bound(start, &mut rest)?, take_bound(end, &mut rest)?);
    if rest.is_empty() {
        Ok(range)
    } else {
        Err(1)
    }
}

fn passing(given: &[u8]) -> Checked<ComparableRange<&[u8]>> {
    let range = range(given)?;
    if range.non_empty() {
        Ok(range)
    } else {
        Err(4)
    }
}

pub fn non_empty(given: &[u8]) -> Checked<bool> {
    Ok(range(given)?.non_empty())
}

pub fn contains(given: &[u8], key: &[u8]) -> Checked<bool> {
    key_checked(key)?;
    Ok(passing(given)?.contains(&key))
}

/// The bounds as kind, key.
type Told<'a> = Option<[(u8, &'a [u8]); 2]>;

fn told<'a>(range: Option<ComparableRange<&'a [u8]>>) -> Told<'a> {
    let tell = |bound: Bound<&&'a [u8]>| match bound {
        Bound::Unbounded => (0, &[][..]),
        Bound::Included(key) => (1, *key),
        Bound::Excluded(key) => (2, *key),
    };
    range.map(|range| [tell(range.start_bound()), tell(range.end_bound())])
}

pub fn intersect<'a>(a: &'a [u8], b: &'a [u8]) -> Checked<Told<'a>> {
    Ok(told(passing(a)?.intersect(&passing(b)?)))
}

pub fn union<'a>(a: &'a [u8], b: &'a [u8]) -> Checked<Told<'a>> {
    Ok(told(passing(a)?.union(&passing(b)?)))
}
