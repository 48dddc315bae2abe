//! What the calls on visible sizes answer. Values are the originals', and asserted to be those of
//! `steps`, bit by bit. The original has 1.0 where the table is shown whole and where the quotient of
//! the lengths is 1.0 or more; which of the two it is comes from the original's own pieces.
use super::images::at;
use super::lookups::{Asked, Value, ESTIMATE_RUN_VISIBLE_SIZE, VISIBLE_FRACTION};
use super::steps;
use crate::checks::{Checked, Placed, ReadImage};
use crate::{Run, View};

pub fn value(image: &ReadImage, asked: &Asked) -> Checked<Value> {
    image.passed()?;
    let placed = &at(&image.runs, asked.run).ok_or(9)?.views;
    if asked.call == ESTIMATE_RUN_VISIBLE_SIZE {
        return Ok(Value::Bytes(run_size(placed)));
    }
    let view = &at(placed, asked.view).ok_or(9)?.view;
    Ok(match asked.call {
        VISIBLE_FRACTION => Value::Shown(fraction(view)),
        _ => Value::Bytes(size(view)),
    })
}

/// No last key, an effective range that is the own range, or a length of 0.
fn is_whole(view: &View) -> bool {
    let own = crate::own_range(&view.table).unwrap();
    let effective = crate::effective_range(view).unwrap();
    if view.table.last.is_none() || effective == own {
        return true;
    }
    let skip = crate::common_prefix_len(&own.0, &own.1);
    let (start, end) = crate::range_span(&effective, skip).unwrap();
    end - start == 0.0
}

/// The bits of the fraction, or none.
fn fraction(view: &View) -> Option<u64> {
    let original = crate::visible_fraction(view).unwrap();
    let bits = if is_whole(view) {
        assert_eq!(original.to_bits(), 1f64.to_bits());
        None
    } else {
        Some(original.to_bits())
    };
    assert_eq!(bits, steps::fraction(view).map(steps::Number::bits));
    bits
}

fn size(view: &View) -> u64 {
    let size = crate::estimate_visible_size(view).unwrap();
    assert_eq!(size, steps::size(view));
    size
}

fn run_size(placed: &[Placed]) -> u64 {
    let views: Vec<View> = placed.iter().map(|placed| placed.view.clone()).collect();
    let sum = views.iter().map(steps::size).sum::<u64>();
    let size = crate::run_estimate_visible_size(&Run { id: 0, views }).unwrap();
    assert_eq!(size, sum);
    size
}
