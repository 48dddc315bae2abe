//! Images for the calls on visible sizes. What is asked is places alone, so that whatever takes lookups
//! takes these too.
mod ceilings;
pub mod every;
mod of_images;
mod papers;
mod random;
mod views;

pub use super::lookups::{Inputs, Takes};
pub use ceilings::ceilings;
pub use of_images::{of_every_kind, of_random};
pub use papers::from_the_papers;
pub use random::{long_runs, random};

use crate::answers::lookups::{
    Asked, ESTIMATE_RUN_VISIBLE_SIZE, ESTIMATE_VISIBLE_SIZE, VISIBLE_FRACTION,
};
use crate::Run;

/// The fraction and the size of a view.
pub fn of_view(run: u64, view: u64) -> [Asked; 2] {
    [VISIBLE_FRACTION, ESTIMATE_VISIBLE_SIZE].map(|call| Asked {
        call,
        run,
        view,
        ..Asked::default()
    })
}

/// The size of a run.
pub fn of_run(run: u64) -> Asked {
    Asked {
        call: ESTIMATE_RUN_VISIBLE_SIZE,
        run,
        ..Asked::default()
    }
}

/// Each call at these places.
pub fn at_places(run: u64, view: u64) -> [Asked; 3] {
    let [fraction, size] = of_view(run, view);
    [fraction, size, of_run(run)]
}

/// Each call on each run and view.
fn of_all(runs: &[Run]) -> Vec<Asked> {
    let mut asked = vec![];
    for (place, run) in (0..).zip(runs) {
        asked.push(of_run(place));
        asked.extend((0..run.views.len() as u64).flat_map(|view| of_view(place, view)));
    }
    asked
}
