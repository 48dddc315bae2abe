//! The checks of the calls that plan, in their order: the setting, the buffers' fields, then what the
//! later checks say of all of them.
use super::{
    ascending, number, pass, read_index, read_indexes, read_range, Checked, ReadImage, Reader,
    ANCHOR_CEILING, PART_CEILING, TOTAL_CEILING,
};
use crate::{Anchors, Index, Range, View};

/// Check 3 of a setting, before any buffer.
fn setting(number: u64, ceiling: usize) -> Checked<()> {
    if number > ceiling as u64 {
        return Err(3);
    }
    Ok(())
}

/// "Anchor bytes total 2^63 or more": exact, and never a wrapped total.
pub fn check_total(anchors: &[(crate::Key, u64)]) -> Checked<()> {
    let total: u128 = anchors.iter().map(|(_, bytes)| u128::from(*bytes)).sum();
    if total >= TOTAL_CEILING {
        return Err(7);
    }
    Ok(())
}

/// Checks 1 and 3 of a buffer that holds anchors, its rest included.
pub fn read_anchors(buffer: &[u8]) -> Checked<Anchors> {
    let mut reader = Reader::new(buffer)?;
    let count = number(reader.take(2)?) as usize;
    if count > ANCHOR_CEILING {
        return Err(3);
    }
    let mut anchors = vec![];
    for _ in 0..count {
        let key = reader.key()?;
        anchors.push((key, number(reader.take(8)?)));
    }
    reader.end()?;
    Ok(anchors)
}

/// What `sample_anchors` is asked: 4 of the range comes before 6 of the index.
pub fn check_sampling(most: u64, index: &[u8], range: &[u8]) -> Checked<(Index, Range)> {
    setting(most, ANCHOR_CEILING)?;
    let index = read_index(index)?;
    let range = read_range(range)?;
    pass(&range)?;
    ascending(&index)?;
    Ok((index, range))
}

/// What `select_boundaries` is asked.
pub fn check_anchors(parts: u64, anchors: &[u8]) -> Checked<Anchors> {
    setting(parts, usize::from(PART_CEILING))?;
    let anchors = read_anchors(anchors)?;
    check_total(&anchors)?;
    Ok(anchors)
}

/// What `plan_subcompaction_ranges` is asked, once it passes what needs no anchors: the image, and its
/// views each with its index.
pub struct Planned {
    pub image: ReadImage,
    pub indexes: Vec<Index>,
}

impl Planned {
    /// The views of all runs.
    pub fn views(&self) -> impl Iterator<Item = &View> {
        let placed = self.image.runs.iter().flat_map(|run| &run.views);
        placed.map(|placed| &placed.view)
    }
}

pub fn check_planned(parts: u64, image: &[u8], indexes: &[u8]) -> Checked<Planned> {
    setting(parts, usize::from(PART_CEILING))?;
    let image = ReadImage::read(image)?;
    let views = image.runs.iter().map(|run| run.views.len()).sum();
    let indexes = read_indexes(indexes, views)?;
    // 4 and 5 are of the image alone, 6 is of either, and 7 of the image and of the anchors.
    let order = indexes.iter().try_for_each(|index| ascending(index));
    let stops = [image.passed().err(), order.err()];
    match stops.into_iter().flatten().min() {
        Some(stop) => Err(stop),
        None => Ok(Planned { image, indexes }),
    }
}

/// What the planner is stopped by once the anchors of all views are sampled.
pub fn check_sampled(anchors: &[(crate::Key, u64)]) -> Checked<()> {
    check_total(anchors)?;
    if anchors.len() > ANCHOR_CEILING {
        return Err(15);
    }
    Ok(())
}
