//! db_state.rs, on the views of an image.
use super::decode::{Fields, RawView};
use super::encode::{place, Room};
use super::Checked;
use crate::bytes_range::BytesRange;
use crate::comparable_range::ComparableRange;
use crate::db_state::{SortedRun, SsTableView};
use bytes::Bytes;
use std::cmp::{max, min};
use std::collections::HashSet;
use std::io::Write;
use std::ops::{Bound, RangeBounds};

const SIZE_CEILING: u64 = 1 << 53;

/// Stands for no failed check: the papers' checks of an image end at 7.
const NONE: u8 = 8;

/// The originals have no such call: these are the papers' checks, over the originals' values.
pub fn check_image(image: &[u8]) -> Checked<()> {
    let mut fields = Fields::new(image)?;
    let count = fields.run_count()?;
    let mut fault = NONE;
    let mut runs = Vec::with_capacity(count);
    for _ in 0..count {
        let (id, count) = fields.run_head()?;
        let mut views = Vec::with_capacity(fields.room_for(count));
        for _ in 0..count {
            let view = fields.view()?;
            let found = view_fault(&view);
            fault = min(fault, found);
            if found == NONE {
                views.push(view.built());
            }
        }
        runs.push(SortedRun::new(id, views));
    }
    fields.end()?;
    if fault != NONE {
        return Err(fault);
    }
    check_6(&runs)?;
    check_7(&runs)
}

/// Checks 4 and 5, by comparing alone: nothing is cloned.
fn view_fault(view: &RawView) -> u8 {
    let info = &view.table.info;
    let first = info.first_entry.as_ref().expect("a table has a first key");
    let last = info.last_entry.as_ref();
    if let Some((start, end)) = &view.visible {
        let visible = ComparableRange::new(start.as_ref(), end.as_ref());
        if !visible.non_empty() {
            return 4;
        }
        let own_end = last.map_or(Bound::Unbounded, Bound::Included);
        let own = ComparableRange::new(Bound::Included(first), own_end);
        if matches!(start, Bound::Excluded(_)) || !meet(&own, &visible) {
            return 5;
        }
    }
    if last.is_some_and(|last| last < first) {
        return 5;
    }
    NONE
}

fn meet(a: &ComparableRange<&Bytes>, b: &ComparableRange<&Bytes>) -> bool {
    let start = max(a.comparable_start_bound(), b.comparable_start_bound());
    let end = min(a.comparable_end_bound(), b.comparable_end_bound());
    ComparableRange::new(start.into(), end.into()).non_empty()
}

fn check_6(runs: &[SortedRun]) -> Checked<()> {
    for run in runs {
        if !run.sst_views().is_sorted_by(starts_ascend) {
            return Err(6);
        }
    }
    let mut ids = HashSet::with_capacity(runs.len());
    if runs.iter().all(|run| ids.insert(run.id)) {
        Ok(())
    } else {
        Err(6)
    }
}

fn starts_ascend(a: &SsTableView, b: &SsTableView) -> bool {
    let a = a.compacted_effective_range().comparable_start_bound();
    a <= b.compacted_effective_range().comparable_start_bound()
}

fn check_7(runs: &[SortedRun]) -> Checked<()> {
    for view in runs.iter().flat_map(|run| run.sst_views()) {
        let info = &view.sst.info;
        match info.index_offset.checked_add(info.index_len) {
            Some(0..=SIZE_CEILING) => {}
            _ => return Err(7),
        }
    }
    Ok(())
}

pub fn compacted_effective_range(
    image: &[u8],
    run: usize,
    view: usize,
    out: &mut [u8],
) -> Checked<usize> {
    let mut fields = Fields::new(image)?;
    let runs = fields.runs()?;
    let run = runs.get(run).ok_or(9)?;
    let range = run
        .sst_views()
        .get(view)
        .ok_or(9)?
        .compacted_effective_range();
    let mut room = Room::new(out);
    for bound in [range.start_bound(), range.end_bound()] {
        room.placed(bound, place(bound, fields.base()))?;
    }
    Ok(room.written())
}

/// The text of a listing, kept from call to call so that it is not allocated anew.
#[derive(Default)]
pub struct Listed {
    text: Vec<u8>,
}

pub fn list(image: &[u8], listed: &mut Listed, out: &mut [u8]) -> Checked<usize> {
    let runs = Fields::new(image)?.runs()?;
    let text = &mut listed.text;
    text.clear();
    text.extend_from_slice(b"run view table start end\n");
    for run in &runs {
        for (place, view) in run.sst_views().iter().enumerate() {
            write!(text, "{} {} ", run.id, place).expect("a Vec takes all");
            put_hex(text, &view.sst.id.value().to_bytes());
            text.push(b' ');
            put_range(text, view.compacted_effective_range());
            text.push(b'\n');
        }
    }
    out.get_mut(..text.len()).ok_or(16)?.copy_from_slice(text);
    Ok(text.len())
}

fn put_range(text: &mut Vec<u8>, range: &BytesRange) {
    let keyed = |text: &mut Vec<u8>, open: &[u8], key: &[u8], close: &[u8]| {
        text.extend_from_slice(open);
        put_hex(text, key);
        text.extend_from_slice(close);
    };
    match RangeBounds::start_bound(range) {
        Bound::Unbounded => text.push(b'-'),
        Bound::Included(key) => keyed(text, b"[", key, b""),
        Bound::Excluded(key) => keyed(text, b"(", key, b""),
    }
    text.push(b' ');
    match RangeBounds::end_bound(range) {
        Bound::Unbounded => text.push(b'-'),
        Bound::Included(key) => keyed(text, b"", key, b"]"),
        Bound::Excluded(key) => keyed(text, b"", key, b")"),
    }
}

fn put_hex(text: &mut Vec<u8>, bytes: &[u8]) {
    const DIGITS: &[u8; 16] = b"0123456789abcdef";
    let at = text.len();
    text.resize(at + 2 * bytes.len(), 0);
    for (digits, byte) in text[at..].chunks_exact_mut(2).zip(bytes) {
        digits[0] = DIGITS[usize::from(byte >> 4)];
        digits[1] = DIGITS[usize::from(byte & 15)];
    }
}
