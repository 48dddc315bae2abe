//! Jobs, and intervals with ranges: what the calls on durable intervals are asked.
mod jobs;
mod subtractions;

pub use jobs::{every_job, few_jobs, jobs_of_commits, random_jobs};
pub use subtractions::{
    damaged_subtractions, every_subtraction, faults_of_subtractions, long_subtractions,
    random_subtractions, some_subtractions, subtractions_from_the_papers,
};

use super::{range_image, write_job, Chance};
use crate::answers::progress::{Case, FROM_COMPACTION, SUBTRACT_FROM};
use crate::inputs::plans::Rooms;
use crate::{Job, Range};
use std::collections::HashMap;

/// Takes the calls that are made here.
pub trait Takes {
    fn take(&mut self, case: &Case, rooms: Rooms);
}

/// Makes calls: few of each kind in a small run.
pub struct Inputs<'a> {
    pub to: &'a mut dyn Takes,
    pub small: bool,
    pub chance: Chance,
    /// Calls kept in each class of `some`.
    pub classes: HashMap<Vec<u8>, usize>,
}

impl Inputs<'_> {
    pub fn put(&mut self, case: &Case) {
        self.to.take(case, Rooms::Some);
    }

    pub fn put_with_each_room(&mut self, case: &Case) {
        self.to.take(case, Rooms::Each);
    }

    /// Whether a call of this class is still wanted: in a small run `limit` of each.
    fn some(&mut self, limit: usize, class: &[u8]) -> bool {
        if !self.small {
            return true;
        }
        let kept = self.classes.entry(class.to_vec()).or_insert(0);
        *kept += 1;
        *kept <= limit
    }
}

pub fn of_job(job: &[u8]) -> Case {
    Case {
        call: FROM_COMPACTION,
        first: job.to_vec(),
        second: vec![],
    }
}

pub fn subtracting(interval: &[u8], range: &[u8]) -> Case {
    Case {
        call: SUBTRACT_FROM,
        first: interval.to_vec(),
        second: range.to_vec(),
    }
}

fn progress(job: &Job) -> Case {
    of_job(&write_job(job).0)
}

fn subtraction(interval: &Range, range: &Range) -> Case {
    subtracting(&range_image(interval), &range_image(range))
}
