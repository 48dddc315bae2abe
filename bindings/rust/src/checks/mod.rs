//! The checks 4 to 12 over values, with the place where one fails. They are not proved: the proved calls decide.
mod commit;
mod image;
mod job;
mod places;
mod tables;

pub(crate) use commit::all_of_commit;
pub(crate) use image::all_of_image;
pub(crate) use job::all_of_job;

use crate::cut::{passes, span};
use crate::refusal::{Buffer, Item, Refusal};
use crate::typed::Range;
use crate::values::{Anchors, Image, Index};
use crate::Stop;
use image::{sizes_fit, views_ascend, visible_meet, visible_pass};
use places::{key_len, refuse, FAILS};

pub(crate) fn of_range(range: &Range) -> Result<(), Refusal> {
    match passes(span(range)) {
        true => Ok(()),
        false => refuse(
            Stop::EmptyRange,
            Buffer::Range,
            Item::Whole,
            (0, "bounds"),
            FAILS,
        ),
    }
}

/// Check 6 of an index.
pub(crate) fn all_of_index(index: &Index) -> Result<(), Refusal> {
    index_ascends(index, 0, 0)
}

/// Check 6 of one index of several, by its place and where it begins.
fn index_ascends(index: &Index, place: usize, offset: usize) -> Result<(), Refusal> {
    let mut offset = offset + 2;
    let mut before: Option<&[u8]> = None;
    for (block, value) in index.blocks.iter().enumerate() {
        if before.is_some_and(|before| *value.first_key < *before) {
            let item = Item::Block {
                index: place,
                block,
            };
            let at = (offset + 8, "first key");
            refuse(
                Stop::Order,
                Buffer::Index,
                item,
                at,
                "it is below that of the block before",
            )?;
        }
        before = Some(&value.first_key);
        offset += 8 + key_len(&value.first_key);
    }
    Ok(())
}

/// Check 7 of anchors: the anchor with which the total reaches 2^63.
pub(crate) fn all_of_anchors(anchors: &Anchors) -> Result<(), Refusal> {
    let mut offset = 2;
    let mut total = 0u64;
    for (anchor, value) in anchors.anchors.iter().enumerate() {
        offset += key_len(&value.key);
        match total.checked_add(value.bytes) {
            Some(sum) if sum < 1 << 63 => total = sum,
            _ => {
                let item = Item::Anchor(anchor);
                let at = (offset, "bytes");
                refuse(
                    Stop::Size,
                    Buffer::Anchors,
                    item,
                    at,
                    "with it the total reaches 2^63",
                )?;
            }
        }
        offset += 8;
    }
    Ok(())
}

/// The checks 4 to 7 of an image with an index for each view. That the sampled anchors total less than 2^63 is not looked at.
pub(crate) fn all_of_plan(image: &Image, indexes: &[Index]) -> Result<(), Refusal> {
    visible_pass(image)?;
    visible_meet(image)?;
    views_ascend(image)?;
    all_of_indexes(indexes)?;
    sizes_fit(image)
}

/// Check 6 of each of several indexes.
pub(crate) fn all_of_indexes(indexes: &[Index]) -> Result<(), Refusal> {
    let mut offset = 0;
    for (place, index) in indexes.iter().enumerate() {
        index_ascends(index, place, offset)?;
        let blocks = index.blocks.iter();
        offset += 2 + blocks
            .map(|block| 8 + key_len(&block.first_key))
            .sum::<usize>();
    }
    Ok(())
}
