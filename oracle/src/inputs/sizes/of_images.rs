//! The images that the calls on images are tried with, and random ones of theirs.
use super::{at_places, Inputs};
use crate::answers::images::Call;
use crate::checks::check_image;
use crate::inputs::images::{self, Takes};
use crate::inputs::Chance;
use std::collections::HashMap;

struct OfImages<'a, 'b> {
    out: &'a mut Inputs<'b>,
    /// In a small run so many of each stop are kept, of those of this number.
    number: u8,
    limit: usize,
}

impl Takes for OfImages<'_, '_> {
    /// The places that are asked for, or the first.
    fn take(&mut self, image: &[u8], _period: usize, calls: &[Call]) {
        let places = calls.iter().filter_map(|call| match call {
            Call::EffectiveRange(run, view) => Some((*run, *view)),
            _ => None,
        });
        let mut places: Vec<(u64, u64)> = places.collect();
        if places.is_empty() {
            places.push((0, self.out.chance.below(2) as u64));
        }
        if !self.out.small {
            let asked = places.iter().flat_map(|(run, view)| at_places(*run, *view));
            return self.out.put(image, &asked.collect::<Vec<_>>());
        }
        let stop = check_image(image).err().unwrap_or(0);
        if self.out.some(self.limit, &[31, self.number, stop]) {
            let (run, view) = *self.out.chance.of(&places);
            self.out.put(image, &at_places(run, view));
        }
    }
}

fn with(out: &mut Inputs, number: u8, limit: usize, make: impl FnOnce(&mut images::Inputs)) {
    let (small, chance) = (out.small, Chance(out.chance.next()));
    make(&mut images::Inputs {
        to: &mut OfImages { out, number, limit },
        small,
        chance,
        classes: HashMap::new(),
    });
}

/// Damaged images, every two faults at once, places that are not there, sums, ceilings.
pub fn of_every_kind(out: &mut Inputs) {
    with(out, 1, 6, images::damage);
    with(out, 2, 3, images::ends);
    with(out, 3, 8, images::pairs);
    with(out, 4, 4, images::places);
    with(out, 5, 12, images::sums);
    with(out, 6, 4, images::one_view);
    with(out, 7, 4, images::several);
    with(out, 8, 1, images::ceilings);
    with(out, 9, 1, images::runs_with_views);
}

pub fn of_random(count: usize, out: &mut Inputs) {
    with(out, 10, 10, |made| images::random(count, made));
}
