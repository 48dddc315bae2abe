//! Inputs of the range calls.
mod damaged;
pub mod every;
mod exhaustive;
mod long;
mod near;
mod random;
mod stops;
mod together;

pub use damaged::damaged;
pub use exhaustive::exhaustive;
pub use long::{full_buffers, long_keys};
pub use near::{family_of, near_ceilings, near_full};
pub use random::{family_image, random};
pub use stops::{damages, lengths_at, order_images, stops};
pub use together::together;

use super::{range_image, Chance};
use crate::answers::ranges::{value, Input, Value, CMP_BOUND};
use std::collections::HashMap;

/// Takes the inputs that are made here.
pub trait Takes {
    fn take(&mut self, input: &Input);
}

/// The longest buffer that a record can say.
pub const MOST_ROOM: usize = 65_535;

/// Makes inputs: few of each kind in a small run.
pub struct Inputs<'a> {
    pub to: &'a mut dyn Takes,
    pub small: bool,
    pub chance: Chance,
    /// Inputs kept in each class of `put_some`.
    pub classes: HashMap<Vec<u8>, usize>,
}

impl Inputs<'_> {
    pub fn put(&mut self, input: &Input) {
        self.to.take(input);
    }

    /// At most `limit` inputs of each class.
    fn put_some(&mut self, input: &Input, limit: usize, class: &[u8]) {
        let class = [&[input.call], class].concat();
        let kept = self.classes.entry(class).or_insert(0);
        if *kept < limit {
            *kept += 1;
            self.put(input);
        }
    }

    fn limit(&self, small: usize, big: usize) -> usize {
        if self.small {
            small
        } else {
            big
        }
    }

    /// The list; in a small run only its first `count`.
    fn first<'a, T>(&self, list: &'a [T], count: usize) -> &'a [T] {
        if self.small {
            &list[..count]
        } else {
            list
        }
    }

    /// With each room worth trying for the answer that the call has with room enough.
    fn put_rooms(&mut self, input: &Input) {
        for room in rooms(input) {
            self.put(&Input {
                room,
                ..input.clone()
            });
        }
    }
}

/// 0, 1, one too small, exact, one more, the most; where the call stops anyway: 0 and 99.
fn rooms(input: &Input) -> Vec<usize> {
    let mut rooms = match value(input) {
        Err(_) => vec![0, 99],
        Ok(Value::Range(range)) => {
            let length = range_image(&range).len();
            vec![0, 1, length - 1, length, length + 1, MOST_ROOM]
        }
        Ok(other) => panic!("no range: {other:?}"),
    };
    rooms.dedup();
    rooms
}

pub fn call1(call: u8, a: &[u8]) -> Input {
    Input {
        call,
        a: a.to_vec(),
        ..Input::default()
    }
}

pub fn call2(call: u8, a: &[u8], b: &[u8]) -> Input {
    Input {
        b: b.to_vec(),
        ..call1(call, a)
    }
}

pub fn bound_call(x: u8, y: u8, z: u8, a: &[u8], b: &[u8]) -> Input {
    Input {
        x,
        y,
        z,
        ..call2(CMP_BOUND, a, b)
    }
}
