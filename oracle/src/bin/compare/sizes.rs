//! The comparison of the calls on visible sizes.
use crate::lookups::made;
use crate::shards::Shards;
use oracle::inputs::sizes::every::{long_tails, short_tails, views_from};
use oracle::inputs::sizes::{self as inputs, Inputs};
use oracle::Key;

pub fn add(shards: &mut Shards, full: bool) {
    let parts: [fn(&mut Inputs); 3] = [
        inputs::from_the_papers,
        inputs::of_every_kind,
        inputs::ceilings,
    ];
    for part in parts {
        shards.add(move |to, chance| made(to, chance, !full, part));
    }
    add_every(shards, short_tails(full));
    add_every(shards, long_tails(full));
    let scale = if full { 100 } else { 1 };
    let random: [(usize, fn(usize, &mut Inputs)); 3] = [
        (18_000, inputs::random),
        (1_000, inputs::of_random),
        (30, inputs::long_runs),
    ];
    for (count, make) in random {
        shards.add_split(count * scale, count * 2, move |to, chance, count| {
            made(to, chance, false, |out| make(count, out))
        });
    }
}

/// Every view over some keys.
fn add_every(shards: &mut Shards, tails: Vec<Key>) {
    for first in tails.clone() {
        let tails = tails.clone();
        shards
            .add(move |to, chance| made(to, chance, false, |out| views_from(&first, &tails, out)));
    }
}
