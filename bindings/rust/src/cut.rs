//! Bounds as places in the order of keys.
use crate::typed::Range;
use core::ops::Bound;

/// A place between keys: below all, before or after a key, above all. A start and an end have one order in this form, and a
/// range passes `non_empty` if its start lies below its end.
#[derive(Clone, Copy, Debug, PartialEq, Eq, PartialOrd, Ord)]
pub(crate) enum Cut<'a> {
    Below,
    /// The key, and whether the place is after it.
    At(&'a [u8], bool),
    Above,
}

pub(crate) fn start<'a>(bound: Bound<&'a [u8]>) -> Cut<'a> {
    match bound {
        Bound::Unbounded => Cut::Below,
        Bound::Included(key) => Cut::At(key, false),
        Bound::Excluded(key) => Cut::At(key, true),
    }
}

pub(crate) fn end<'a>(bound: Bound<&'a [u8]>) -> Cut<'a> {
    match bound {
        Bound::Unbounded => Cut::Above,
        Bound::Included(key) => Cut::At(key, true),
        Bound::Excluded(key) => Cut::At(key, false),
    }
}

/// From a place up to another.
pub(crate) type Span<'a> = (Cut<'a>, Cut<'a>);

pub(crate) fn span<K: AsRef<[u8]>>(range: &Range<K>) -> Span<'_> {
    let range = range.borrowed();
    (start(range.start), end(range.end))
}

pub(crate) fn passes(span: Span) -> bool {
    span.0 < span.1
}

pub(crate) fn both<'a>(a: Span<'a>, b: Span<'a>) -> Span<'a> {
    (a.0.max(b.0), a.1.min(b.1))
}
