//! The checks that a job alone decides: 4, 5, 7, 8, 10 and 11.
use super::places::{first_key_at, last_key_at, outputs, parts, refuse, FAILS, TABLE_HEAD};
use super::tables::{keys_of, own, size_of};
use crate::cut::{passes, span};
use crate::refusal::{Buffer, Item, Refusal};
use crate::values::{Job, Table};
use crate::Stop;
use alloc::vec::Vec;
use core::ops::Bound;

/// Check 4 of a job: its planned ranges.
pub(super) fn planned_pass(job: &Job) -> Result<(), Refusal> {
    let parts = parts(job);
    let mut ranges = parts.iter();
    ranges.try_for_each(|part| match passes(span(&part.value.range)) {
        true => Ok(()),
        false => refuse(
            Stop::EmptyRange,
            Buffer::Job,
            part.item,
            (part.offset, "planned range"),
            FAILS,
        ),
    })
}

/// A check of each output's table.
pub(super) fn each_output(
    job: &Job,
    check: fn(Buffer, Item, usize, &Table) -> Result<(), Refusal>,
) -> Result<(), Refusal> {
    let outputs: Vec<_> = parts(job).iter().flat_map(outputs).collect();
    let mut tables = outputs.iter();
    tables.try_for_each(|table| check(Buffer::Job, table.item, table.offset, table.value))
}

/// Check 8.
pub(super) fn destination_is_source(job: &Job) -> Result<(), Refusal> {
    match job.sources.contains(&job.destination) {
        true => Ok(()),
        false => refuse(
            Stop::DestinationNotSource,
            Buffer::Job,
            Item::Whole,
            (0, "destination"),
            "no source has this id",
        ),
    }
}

/// Check 10.
pub(super) fn planned_ascend(job: &Job) -> Result<(), Refusal> {
    let mut before = None;
    for part in parts(job) {
        let range = &part.value.range;
        let refuse = |what| {
            let at = (part.offset, "planned range");
            refuse(Stop::PlannedRange, Buffer::Job, part.item, at, what)
        };
        if matches!(range.start, Bound::Excluded(_)) {
            refuse("it starts excluded")?;
        }
        if matches!(range.end, Bound::Included(_)) {
            refuse("it ends included")?;
        }
        let (start, end) = span(range);
        if before.is_some_and(|before| start < before) {
            refuse("it begins before the previous part's end")?;
        }
        before = Some(end);
    }
    Ok(())
}

/// Check 11.
pub(super) fn outputs_inside(job: &Job) -> Result<(), Refusal> {
    for part in parts(job) {
        let planned = span(&part.value.range);
        let mut before: Option<&[u8]> = None;
        for table in outputs(&part) {
            let refuse = |at, what| refuse(Stop::Output, Buffer::Job, table.item, at, what);
            let first_at = first_key_at(table.offset);
            let Some(last) = table.value.last_key.as_deref() else {
                let flag = (table.offset + TABLE_HEAD - 1, "last-key flag");
                return refuse(flag, "there is no last key");
            };
            let (start, end) = own(table.value);
            if start < planned.0 {
                refuse(first_at, "it is below its planned range")?;
            }
            if planned.1 < end {
                refuse(
                    last_key_at(table.offset, table.value),
                    "it is above its planned range",
                )?;
            }
            if before.is_some_and(|before| *table.value.first_key < *before) {
                refuse(
                    first_at,
                    "it is below the last key of its part's previous output",
                )?;
            }
            before = Some(last);
        }
    }
    Ok(())
}

/// The checks that a job alone decides: 4, 5, 7, 8, 10, 11.
pub(crate) fn all_of_job(job: &Job) -> Result<(), Refusal> {
    planned_pass(job)?;
    each_output(job, keys_of)?;
    each_output(job, size_of)?;
    destination_is_source(job)?;
    planned_ascend(job)?;
    outputs_inside(job)
}
