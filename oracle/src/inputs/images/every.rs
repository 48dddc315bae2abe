//! All images of a few bytes, and all of one or two views over a few keys.
use super::Inputs;
use crate::answers::images::Call;
use crate::inputs::{all_ranges, image, run, view};
use crate::{Key, View};

/// Every view over these keys, those that are refused too.
pub fn every_view(keys: &[Key]) -> Vec<View> {
    let mut visible = vec![None];
    visible.extend(all_ranges(keys).into_iter().map(Some));
    let mut lasts = vec![None];
    lasts.extend(keys.iter().map(Some));
    let mut views = vec![];
    for first in keys {
        for last in &lasts {
            for range in &visible {
                let number = views.len() as u8;
                let last = last.map(Vec::as_slice);
                views.push(view(number, first, last, range.clone()));
            }
        }
    }
    views
}

pub fn one_of_each(views: &[View], out: &mut Inputs) {
    for view in views {
        out.put(&image(&[run(3, &[view.clone()])]), &[Call::CheckImage]);
    }
}

/// Two views, the first of which is given: in one run, and in two.
pub fn pairs_of_views(first: &View, views: &[View], out: &mut Inputs) {
    for (place, second) in views.iter().enumerate() {
        let pair = [first.clone(), second.clone()];
        let runs = if place % 8 == 0 {
            vec![run(1, &pair[..1]), run(place as u32 % 3, &pair[1..])]
        } else {
            vec![run(1, &pair)]
        };
        out.put(&image(&runs), &[Call::CheckImage]);
    }
}

/// Every byte after the front of an image.
pub fn after_front(front: &[u8], tails: &[Key], out: &mut Inputs) {
    for tail in tails {
        out.put(&[front, tail].concat(), &[Call::CheckImage]);
    }
}
