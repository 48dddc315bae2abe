//! Checks of a table, and the ranges of tables and views.
use super::places::{last_key_at, refuse};
use crate::cut::{both, span, Cut, Span};
use crate::refusal::{Buffer, Item, Refusal};
use crate::values::{Table, View};
use crate::Stop;

/// Check 5 of a table: its keys.
pub(super) fn keys_of(
    buffer: Buffer,
    item: Item,
    offset: usize,
    table: &Table,
) -> Result<(), Refusal> {
    match &table.last_key {
        Some(last) if *last < table.first_key => refuse(
            Stop::TableRange,
            buffer,
            item,
            last_key_at(offset, table),
            "it is below the first key",
        ),
        _ => Ok(()),
    }
}

/// Check 7 of a table: its size.
pub(super) fn size_of(
    buffer: Buffer,
    item: Item,
    offset: usize,
    table: &Table,
) -> Result<(), Refusal> {
    match table.index_offset.checked_add(table.index_len) {
        Some(size) if size <= 1 << 53 => Ok(()),
        _ => refuse(
            Stop::Size,
            buffer,
            item,
            (offset + 16, "index_offset"),
            "index_offset + index_len exceeds 2^53",
        ),
    }
}

pub(super) fn own(table: &Table) -> Span<'_> {
    let end = table.last_key.as_deref();
    (
        Cut::At(&table.first_key, false),
        end.map_or(Cut::Above, |last| Cut::At(last, true)),
    )
}

pub(super) fn effective(view: &View) -> Span<'_> {
    match &view.visible {
        Some(visible) => both(own(&view.table), span(visible)),
        None => own(&view.table),
    }
}
