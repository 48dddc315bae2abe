//! Indexes, anchors and images, and the calls that plan with them.
mod ceilings;
mod damage;
pub mod every;
mod faults;
mod near;
mod papers;
mod random;

pub use ceilings::ceilings;
pub use damage::damage;
pub use faults::{faults_of_anchors, faults_of_images, faults_of_indexes};
pub use near::{long_plans, near_most_sampled, near_totals};
pub use papers::from_the_papers;
pub use random::{long_anchors, random_anchors, random_images, random_indexes, wide_images};

use super::{anchors, image, range_image, write_index, Chance};
use crate::answers::plans::{Case, PLAN_SUBCOMPACTION_RANGES, SAMPLE_ANCHORS, SELECT_BOUNDARIES};
use crate::{Block, Index, Key, Range, Run};
use std::collections::HashMap;

/// With which lent buffers a call is made.
#[derive(Clone, Copy, Debug, PartialEq, Eq)]
pub enum Rooms {
    /// One that is enough, and sometimes one that is not.
    Some,
    /// One exactly long enough, one a byte longer, one a byte short, half, and none.
    Each,
}

/// Takes the calls that are made here.
pub trait Takes {
    fn take(&mut self, case: &Case, rooms: Rooms);
}

/// Makes calls: few of each kind in a small run.
pub struct Inputs<'a> {
    pub to: &'a mut dyn Takes,
    pub small: bool,
    pub chance: Chance,
    /// Calls kept in each class of `some`.
    pub classes: HashMap<Vec<u8>, usize>,
}

impl Inputs<'_> {
    pub fn put(&mut self, case: &Case) {
        self.to.take(case, Rooms::Some);
    }

    pub fn put_with_each_room(&mut self, case: &Case) {
        self.to.take(case, Rooms::Each);
    }

    /// Whether a call of this class is still wanted: in a small run `limit` of each.
    pub fn some(&mut self, limit: usize, class: &[u8]) -> bool {
        if !self.small {
            return true;
        }
        let kept = self.classes.entry(class.to_vec()).or_insert(0);
        *kept += 1;
        *kept <= limit
    }
}

pub fn sampling(most: u64, data_end: u64, index: &[u8], range: &[u8]) -> Case {
    Case {
        call: SAMPLE_ANCHORS,
        setting: most,
        number: data_end,
        first: index.to_vec(),
        second: range.to_vec(),
    }
}

pub fn selecting(parts: u64, least: u64, anchors: &[u8]) -> Case {
    Case {
        call: SELECT_BOUNDARIES,
        setting: parts,
        number: least,
        first: anchors.to_vec(),
        second: vec![],
    }
}

pub fn planning(parts: u64, image: &[u8], indexes: &[u8]) -> Case {
    Case {
        call: PLAN_SUBCOMPACTION_RANGES,
        setting: parts,
        number: 0,
        first: image.to_vec(),
        second: indexes.to_vec(),
    }
}

/// The anchors of an index in a range.
fn sample(most: u64, data_end: u64, index: &[Block], range: &Range) -> Case {
    sampling(most, data_end, &write_index(index).0, &range_image(range))
}

/// A plan of anchors.
fn select(parts: u64, least: u64, list: &[(Key, u64)]) -> Case {
    selecting(parts, least, &anchors(list))
}

/// A plan of an image and the indexes of its views.
fn plan(parts: u64, runs: &[Run], indexes: &[Index]) -> Case {
    planning(parts, &image(runs), &end_to_end(indexes))
}

pub fn end_to_end(indexes: &[Index]) -> Vec<u8> {
    let indexes = indexes.iter().map(|index| write_index(index).0);
    indexes.collect::<Vec<_>>().concat()
}

/// Blocks by offset and first key.
fn index_of(blocks: &[(u64, &[u8])]) -> Index {
    let blocks = blocks.iter().map(|(offset, first)| Block {
        offset: *offset,
        first: first.to_vec(),
    });
    blocks.collect()
}

/// Anchors by key and bytes.
fn anchors_of(list: &[(&[u8], u64)]) -> Vec<(Key, u64)> {
    list.iter()
        .map(|(key, bytes)| (key.to_vec(), *bytes))
        .collect()
}
