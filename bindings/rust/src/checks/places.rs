//! Where the records of an image or a job begin, by the lengths of those before them.
use crate::refusal::{Buffer, Item, Place, Refusal};
use crate::typed::Range;
use crate::values::*;
use crate::Stop;
use alloc::vec::Vec;
use core::ops::Bound;

/// The fields of a table before its keys: id, three numbers, the flag.
pub(super) const TABLE_HEAD: usize = 16 + 3 * 8 + 1;

pub(super) fn key_len(key: &[u8]) -> usize {
    2 + key.len()
}

pub(super) fn range_len(range: &Range) -> usize {
    let bounds = [&range.start, &range.end];
    let keys = bounds.map(|bound| match bound {
        Bound::Unbounded => 0,
        Bound::Included(key) | Bound::Excluded(key) => key_len(key),
    });
    1 + keys[0] + keys[1]
}

pub(super) fn table_len(table: &Table) -> usize {
    TABLE_HEAD + key_len(&table.first_key) + table.last_key.as_deref().map_or(0, key_len)
}

pub(super) fn view_len(view: &View) -> usize {
    16 + table_len(&view.table) + 1 + view.visible.as_ref().map_or(0, range_len)
}

/// A record, with the item that it is and where it begins.
pub(super) struct At<'a, T> {
    pub(super) item: Item,
    pub(super) offset: usize,
    pub(super) value: &'a T,
}

pub(super) fn runs(image: &Image) -> Vec<At<'_, Run>> {
    let mut offset = 1;
    let runs = image.runs.iter().enumerate().map(|(run, value)| {
        let at = At {
            item: Item::Run(run),
            offset,
            value,
        };
        offset += 6 + value.views.iter().map(view_len).sum::<usize>();
        at
    });
    runs.collect()
}

pub(super) fn views<'a>(run: &At<'a, Run>) -> Vec<At<'a, View>> {
    let Item::Run(place) = run.item else {
        return Vec::new();
    };
    let mut offset = run.offset + 6;
    let views = run.value.views.iter().enumerate().map(|(view, value)| {
        let item = Item::View { run: place, view };
        let at = At {
            item,
            offset,
            value,
        };
        offset += view_len(value);
        at
    });
    views.collect()
}

pub(super) fn all_views(image: &Image) -> Vec<At<'_, View>> {
    runs(image).iter().flat_map(views).collect()
}

pub(super) fn parts(job: &Job) -> Vec<At<'_, Part>> {
    let mut offset = 4 + 1 + 4 * job.sources.len() + 1;
    let parts = job.parts.iter().enumerate().map(|(part, value)| {
        let at = At {
            item: Item::Part(part),
            offset,
            value,
        };
        offset += range_len(&value.range) + 2;
        offset += value.outputs.iter().map(table_len).sum::<usize>();
        at
    });
    parts.collect()
}

pub(super) fn outputs<'a>(part: &At<'a, Part>) -> Vec<At<'a, Table>> {
    let Item::Part(place) = part.item else {
        return Vec::new();
    };
    let mut offset = part.offset + range_len(&part.value.range) + 2;
    let outputs = part
        .value
        .outputs
        .iter()
        .enumerate()
        .map(|(output, value)| {
            let item = Item::Output {
                part: place,
                output,
            };
            let at = At {
                item,
                offset,
                value,
            };
            offset += table_len(value);
            at
        });
    outputs.collect()
}

/// Where the keys of a table that begins at an offset stand.
pub(super) fn first_key_at(offset: usize) -> (usize, &'static str) {
    (offset + TABLE_HEAD, "first key")
}

pub(super) fn last_key_at(offset: usize, table: &Table) -> (usize, &'static str) {
    (offset + TABLE_HEAD + key_len(&table.first_key), "last key")
}

pub(super) fn visible_at(view: &At<'_, View>) -> (usize, &'static str) {
    let offset = view.offset + 16 + table_len(&view.value.table) + 1;
    (offset, "visible range")
}

pub(super) fn refuse(
    stop: Stop,
    buffer: Buffer,
    item: Item,
    (offset, field): (usize, &'static str),
    what: &'static str,
) -> Result<(), Refusal> {
    let place = Place {
        buffer,
        item,
        field,
        offset,
        what,
    };
    Err(Refusal::at(stop, place))
}

pub(super) const FAILS: &str = "it fails non_empty";
