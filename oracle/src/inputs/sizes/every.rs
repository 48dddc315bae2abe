//! Every view over a few keys behind a common prefix.
use super::views::{joined, passes, raw, set_raw, stem, zeros, BYTES};
use super::{at_places, Inputs};
use crate::inputs::{all_bounds, image, run, small_keys, view};
use crate::{kind_of, Bound, Key, View};

/// Up to two bytes out of the five, or out of 00 and 80.
pub fn short_tails(full: bool) -> Vec<Key> {
    small_keys(if full { &BYTES } else { &[0x00, 0x80] }, 2)
}

/// Up to nine bytes: zeros, and what comes after them; FF; bytes past the eighth.
pub fn long_tails(full: bool) -> Vec<Key> {
    let after = |count, more: &[u8]| joined(&zeros(count), more);
    let mut tails = vec![vec![], after(7, &[1]), after(8, &[1]), vec![0x80], zeros(9)];
    tails.extend([vec![0xFF; 7], vec![0xFF; 8]]);
    if !full {
        return tails;
    }
    tails.extend([zeros(1), zeros(6), zeros(8), vec![1], vec![0xFF; 9]]);
    tails.extend([5, 6].map(|count| after(count, &[1])));
    tails.extend([6, 7, 8].map(|count| after(count, &[0x80])));
    tails.extend([6, 7].map(|count| after(count, &[0xFF])));
    // Ties in the seventh and eighth byte, where a sum no longer has all digits.
    tails
        .extend([&[0x80, 0, 0, 0, 0, 0, 4][..], &[0x80, 0, 0, 0, 0, 0, 12, 1]].map(<[u8]>::to_vec));
    tails.push(vec![0x7F, 0xFF, 0xFF, 0xFF, 0xFF, 0xFF, 0xFF, 0x80]);
    tails.sort();
    tails
}

/// What of a view its answers depend on.
fn class_of(view: &View) -> Vec<u8> {
    let kinds = |(start, end): &(Bound, Bound)| [kind_of(start), kind_of(end)];
    let mut class = vec![30, u8::from(view.table.last.is_some())];
    class.extend(view.visible.iter().flat_map(kinds));
    class
}

/// Every view with this first key. Of those that are refused some; in a small run few of all.
pub fn views_from(first: &Key, tails: &[Key], out: &mut Inputs) {
    let mut lasts = vec![None];
    lasts.extend(tails.iter().filter(|last| *last >= first).map(Some));
    for last in lasts {
        put(first, last, None, tails, out);
        for start in all_bounds(tails) {
            put(first, last, Some(start), tails, out);
        }
    }
}

/// With a start of the visible range, each end.
fn put(first: &Key, last: Option<&Key>, start: Option<Bound>, tails: &[Key], out: &mut Inputs) {
    let is_refused = matches!(start, Some(Bound::Excluded(_)));
    if is_refused && !out.chance.percent(2) {
        return;
    }
    let ends = start.map(|start| {
        let with = move |end| Some((start.clone(), end));
        all_bounds(tails).into_iter().map(with).collect()
    });
    for visible in ends.unwrap_or(vec![None]) {
        let chance = &mut out.chance;
        let stem = match chance.below(3) {
            0 => vec![],
            1 => zeros(1 + chance.below(9)),
            _ => stem(chance),
        };
        let long = |key: &Key| joined(&stem, key);
        let bound = |bound: Bound| match bound {
            Bound::Unbounded => bound,
            Bound::Included(key) => Bound::Included(long(&key)),
            Bound::Excluded(key) => Bound::Excluded(long(&key)),
        };
        let visible = visible.map(|(start, end)| (bound(start), bound(end)));
        let last = last.map(long);
        let mut view = view(1, &long(first), last.as_deref(), visible);
        let raw = raw(chance);
        set_raw(&mut view.table, raw, chance);
        let wanted = passes(&view) || chance.percent(6);
        if wanted && out.some(4, &class_of(&view)) {
            out.put(&image(&[run(3, &[view])]), &at_places(0, 0));
        }
    }
}
