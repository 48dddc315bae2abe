//! The checks 4 to 7 of an image.
use super::places::{all_views, refuse, runs, views, visible_at, At, FAILS};
use super::tables::{effective, keys_of, size_of};
use crate::cut::{passes, span};
use crate::refusal::{Buffer, Refusal};
use crate::values::Image;
use crate::Stop;
use core::ops::Bound;

/// Check 4 of an image: its visible ranges.
pub(super) fn visible_pass(image: &Image) -> Result<(), Refusal> {
    for view in all_views(image) {
        match &view.value.visible {
            Some(range) if !passes(span(range)) => {
                refuse(
                    Stop::EmptyRange,
                    Buffer::Image,
                    view.item,
                    visible_at(&view),
                    FAILS,
                )?;
            }
            _ => {}
        }
    }
    Ok(())
}

/// Check 5 of an image: tables and visible ranges.
pub(super) fn visible_meet(image: &Image) -> Result<(), Refusal> {
    for view in all_views(image) {
        let At {
            item,
            offset,
            value,
        } = view;
        keys_of(Buffer::Image, item, offset + 16, &value.table)?;
        let Some(range) = &value.visible else {
            continue;
        };
        let refuse = |what| {
            refuse(
                Stop::TableRange,
                Buffer::Image,
                item,
                visible_at(&view),
                what,
            )
        };
        if matches!(range.start, Bound::Excluded(_)) {
            refuse("it starts excluded")?;
        }
        if !passes(effective(value)) {
            refuse("it does not meet its table's own range")?;
        }
    }
    Ok(())
}

/// Check 6 of an image: the order of views, and the ids of runs.
pub(super) fn views_ascend(image: &Image) -> Result<(), Refusal> {
    for (place, run) in runs(image).iter().enumerate() {
        if image.runs[..place]
            .iter()
            .any(|other| other.id == run.value.id)
        {
            let id = (run.offset, "run id");
            refuse(
                Stop::Order,
                Buffer::Image,
                run.item,
                id,
                "an earlier run has the same id",
            )?;
        }
        for pair in views(run).windows(2) {
            if effective(pair[1].value).0 < effective(pair[0].value).0 {
                let at = (pair[1].offset, "effective start");
                refuse(
                    Stop::Order,
                    Buffer::Image,
                    pair[1].item,
                    at,
                    "it is below that of the view before",
                )?;
            }
        }
    }
    Ok(())
}

/// Check 7 of an image: the sizes of its tables.
pub(super) fn sizes_fit(image: &Image) -> Result<(), Refusal> {
    let views = all_views(image);
    let mut tables = views.iter();
    tables.try_for_each(|view| {
        size_of(
            Buffer::Image,
            view.item,
            view.offset + 16,
            &view.value.table,
        )
    })
}

/// The checks 4 to 7 of an image.
pub(crate) fn all_of_image(image: &Image) -> Result<(), Refusal> {
    visible_pass(image)?;
    visible_meet(image)?;
    views_ascend(image)?;
    sizes_fit(image)
}
