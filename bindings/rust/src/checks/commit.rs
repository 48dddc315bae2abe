//! The checks of a commit: those of its image and its job in their order, then 9 and 12.
use super::image::{sizes_fit, views_ascend, visible_meet, visible_pass};
use super::job::{
    destination_is_source, each_output, outputs_inside, planned_ascend, planned_pass,
};
use super::places::{refuse, runs, views};
use super::tables::{effective, keys_of, size_of};
use crate::cut::{passes, span, Cut, Span};
use crate::refusal::{Buffer, Item, Refusal};
use crate::values::{Image, Job, Part};
use crate::Stop;
use alloc::vec::Vec;

/// Check 9 of a commit.
pub(super) fn sources_are_there(image: &Image, job: &Job) -> Result<(), Refusal> {
    for (source, id) in job.sources.iter().enumerate() {
        if image.runs.iter().all(|run| run.id != *id) {
            let at = (5 + 4 * source, "source id");
            refuse(
                Stop::NotInImage,
                Buffer::Job,
                Item::Source(source),
                at,
                "no run of the image has it",
            )?;
        }
    }
    Ok(())
}

/// What of a part is durable, if anything.
pub(super) fn durable(part: &Part) -> Option<Span<'_>> {
    let planned = span(&part.range);
    if part.completed {
        return Some(planned);
    }
    let last = part.outputs.last()?.last_key.as_deref()?;
    let interval = (planned.0, Cut::At(last, false));
    passes(interval).then_some(interval)
}

/// Check 12: in the destination, views of output tables show nothing outside the durable intervals.
pub(super) fn destination_is_durable(image: &Image, job: &Job) -> Result<(), Refusal> {
    let intervals: Vec<_> = job.parts.iter().filter_map(durable).collect();
    let tables: Vec<_> = job.parts.iter().flat_map(|part| &part.outputs).collect();
    for run in runs(image) {
        if run.value.id != job.destination {
            continue;
        }
        for view in views(&run) {
            let table = &view.value.table;
            if tables.iter().any(|output| output.id == table.id)
                && leaves(effective(view.value), &intervals)
            {
                let at = (view.offset, "view");
                let what =
                    "its table is an output, and it shows a key that is in no durable interval";
                refuse(Stop::NotDurable, Buffer::Image, view.item, at, what)?;
            }
        }
    }
    Ok(())
}

/// Whether intervals, in ascending order, leave something of a range that starts included.
pub(super) fn leaves((mut from, to): Span<'_>, intervals: &[Span<'_>]) -> bool {
    for (start, end) in intervals {
        if from < (*start).min(to) {
            return true;
        }
        from = from.max(*end);
    }
    from < to
}

/// The checks 4 to 12 of a commit.
pub(crate) fn all_of_commit(image: &Image, job: &Job) -> Result<(), Refusal> {
    visible_pass(image)?;
    planned_pass(job)?;
    visible_meet(image)?;
    each_output(job, keys_of)?;
    views_ascend(image)?;
    sizes_fit(image)?;
    each_output(job, size_of)?;
    destination_is_source(job)?;
    sources_are_there(image, job)?;
    planned_ascend(job)?;
    outputs_inside(job)?;
    destination_is_durable(image, job)
}
