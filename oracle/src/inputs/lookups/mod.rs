//! Indexes and images, and the lookups in them.
mod ceilings;
mod damage;
pub mod every;
mod faults;
mod lists;
pub mod near;
mod papers;
mod random;
mod views;

pub use ceilings::ceilings;
pub use damage::{damage, damaged_ranges};
pub use faults::{faults_of_images, faults_of_indexes, order_indexes};
pub use lists::lists;
pub use papers::from_the_papers;
pub use random::{random_images, random_indexes, Near};
pub use views::{few_views, one_view, places};

use super::{range_image, Chance};
use crate::answers::lookups::{
    Asked, CALCULATE_VIEW_RANGE, COMPACTED_INTERSECTION, FIRST_INCLUDING, FIRST_INCLUDING_OR_AFTER,
    INTERSECTS_RANGE, LAST_INCLUDING, OVERLAPS_RANGE, PARTITIONS_COVERING, PARTITION_POINT,
    TABLES_COVERING,
};
use crate::{key_of, kind_of, Bound, Range};
use std::collections::HashMap;

/// Takes the lookups that are made here.
pub trait Takes {
    /// Lookups in an index, or in an image.
    fn take(&mut self, buffer: &[u8], asked: &[Asked]);
}

/// Makes lookups: few of each kind in a small run.
pub struct Inputs<'a> {
    pub to: &'a mut dyn Takes,
    pub small: bool,
    pub chance: Chance,
    /// Lookups kept in each class of `some`.
    pub classes: HashMap<Vec<u8>, usize>,
}

impl Inputs<'_> {
    pub fn put(&mut self, buffer: &[u8], asked: &[Asked]) {
        if !asked.is_empty() {
            self.to.take(buffer, asked);
        }
    }

    /// Whether a lookup of this class is still wanted: in a small run `limit` of each.
    pub fn some(&mut self, limit: usize, class: &[u8]) -> bool {
        if !self.small {
            return true;
        }
        let kept = self.classes.entry(class.to_vec()).or_insert(0);
        *kept += 1;
        *kept <= limit
    }
}

/// Each lookup of a key in an index; the count of leading keys by both tests.
pub fn of_key(key: &[u8]) -> [Asked; 5] {
    [
        (PARTITION_POINT, 0),
        (PARTITION_POINT, 1),
        (FIRST_INCLUDING, 0),
        (FIRST_INCLUDING_OR_AFTER, 0),
        (LAST_INCLUDING, 0),
    ]
    .map(|(call, number)| Asked {
        call,
        number,
        key: key.to_vec(),
        ..Asked::default()
    })
}

/// The partitions of an index that cover a range image.
pub fn covering(range: &[u8]) -> Asked {
    Asked {
        call: PARTITIONS_COVERING,
        range: range.to_vec(),
        ..Asked::default()
    }
}

/// A lookup of a range image in a run or a view, without an end bound.
pub fn of_view(call: u8, run: u64, view: u64, range: &[u8]) -> Asked {
    let is_of_run = call == TABLES_COVERING || call == OVERLAPS_RANGE;
    Asked {
        call,
        run,
        view: if is_of_run { 0 } else { view },
        range: range.to_vec(),
        ..Asked::default()
    }
}

/// Whether a view meets a range image up to an end bound.
pub fn up_to(run: u64, view: u64, (kind, end): (u8, &[u8]), range: &[u8]) -> Asked {
    Asked {
        number: kind,
        key: end.to_vec(),
        ..of_view(INTERSECTS_RANGE, run, view, range)
    }
}

/// A bound as its kind and its key.
pub fn kind_and_key(bound: &Bound) -> (u8, &[u8]) {
    (kind_of(bound), key_of(bound).map_or(&[], |key| key))
}

/// The calls on a run or a view that take a range alone.
pub const RANGE_CALLS: [u8; 4] = [
    TABLES_COVERING,
    OVERLAPS_RANGE,
    COMPACTED_INTERSECTION,
    CALCULATE_VIEW_RANGE,
];

/// Each lookup of a range image in an image.
pub fn of_views(run: u64, view: u64, end: &Bound, range: &[u8]) -> [Asked; 5] {
    let [a, b, c, d] = RANGE_CALLS.map(|call| of_view(call, run, view, range));
    [a, b, c, d, up_to(run, view, kind_and_key(end), range)]
}

fn images_of(ranges: &[Range]) -> Vec<Vec<u8>> {
    ranges.iter().map(range_image).collect()
}
