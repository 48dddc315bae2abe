//! Images, and the calls on them.
mod ceilings;
mod damage;
mod ends;
pub mod every;
mod faults;
pub mod near;
mod papers;
mod random;
mod views;

pub use ceilings::{ceilings, runs_with_views};
pub use damage::{damage, harm};
pub use ends::{cut_after, ends};
pub use faults::{faulty, pairs, two_views, Fault, FAULTS};
pub use papers::from_the_papers;
pub use random::{random, random_runs};
pub use views::{one_view, places, several, sums};

use super::Chance;
use crate::answers::images::{listing, Call};
use crate::checks::check_image;
use crate::Run;
use std::collections::HashMap;

/// Takes the images that are made here.
pub trait Takes {
    /// Calls on an image. What repeats in it repeats what stands so many bytes before; 0 says
    /// that nothing does.
    fn take(&mut self, image: &[u8], period: usize, calls: &[Call]);
}

/// Makes images: few of each kind in a small run.
pub struct Inputs<'a> {
    pub to: &'a mut dyn Takes,
    pub small: bool,
    pub chance: Chance,
    /// Images kept in each class of `some`.
    pub classes: HashMap<Vec<u8>, usize>,
}

impl Inputs<'_> {
    fn put_repeated(&mut self, buffer: &[u8], period: usize, calls: &[Call]) {
        self.to.take(buffer, period, calls);
    }

    pub fn put(&mut self, buffer: &[u8], calls: &[Call]) {
        self.put_repeated(buffer, 0, calls);
    }

    /// Each call once. Of a refused image the places and the room are any, of an accepted one
    /// the last view's and enough.
    pub fn put_each(&mut self, buffer: &[u8]) {
        let calls = match check_image(buffer) {
            Ok(image) => {
                let run = image.len().saturating_sub(1);
                let views = image.last().map_or(0, |run| run.views.len());
                vec![
                    Call::CheckImage,
                    Call::EffectiveRange(run as u64, views.saturating_sub(1) as u64),
                    Call::List(listing(&image).len() as u64 + self.chance.below(3) as u64),
                ]
            }
            Err(_) => {
                let place = *self.chance.of(&[0, 0, 1, 9, u64::MAX]);
                let room = *self.chance.of(&[0, 99]);
                vec![
                    Call::CheckImage,
                    Call::EffectiveRange(place, place),
                    Call::List(room),
                ]
            }
        };
        self.put(buffer, &calls);
    }

    /// `check_image`, and one of the other calls.
    fn put_two(&mut self, buffer: &[u8]) {
        let other = if self.chance.percent(50) {
            Call::EffectiveRange(0, self.chance.below(2) as u64)
        } else {
            Call::List(*self.chance.of(&[0, 300]))
        };
        self.put(buffer, &[Call::CheckImage, other]);
    }

    /// Whether an image of this class is still wanted: in a small run `limit` of each.
    fn some(&mut self, limit: usize, class: &[u8]) -> bool {
        if !self.small {
            return true;
        }
        let kept = self.classes.entry(class.to_vec()).or_insert(0);
        *kept += 1;
        *kept <= limit
    }
}

/// Every view by its place.
fn all_places(runs: &[Run]) -> Vec<Call> {
    let mut calls = vec![];
    for (place, run) in runs.iter().enumerate() {
        calls.extend((0..run.views.len()).map(|i| Call::EffectiveRange(place as u64, i as u64)));
    }
    calls
}

/// 0, 1, around the header's length, one too small, exact, one more, many more.
fn rooms(text: usize) -> Vec<Call> {
    let rooms = [0, 1, 24, 25, 26, text - 1, text, text + 1, text + 300];
    rooms.map(|room| Call::List(room as u64)).to_vec()
}
