//! Times each public call of the proved library and of the unchanged slatedb on the same bytes,
//! and prints the times as Markdown. Both sides must give the same bytes before they are timed.
//!
//!     bench [BATCHES [MILLISECONDS a batch [PART of a case's name]]]
mod clock;
mod commits;
mod images;
mod jobs;
mod keys;
mod lookups;
mod ours;
mod plans;
mod progress;
mod ranges;
mod shapes;
mod sizes;
mod table;

use clock::Clock;
use std::fs::read_to_string;
use std::time::Duration;
use table::Row;

/// All cases are gone through so many times: on a shared machine slow whiles outlast a case.
const PASSES: usize = 3;

fn main() {
    let arguments: Vec<String> = std::env::args().skip(1).collect();
    let number = |place: usize, otherwise: u64| {
        let given = arguments.get(place);
        given.map_or(otherwise, |text| text.parse().expect("a number"))
    };
    let clock = Clock {
        batches: number(0, 10) as usize,
        each: Duration::from_millis(number(1, 2)),
        wanted: arguments.get(2).cloned().unwrap_or_default(),
    };
    println!("{}", machine());
    println!(
        "Nanoseconds of processor time a call: the least mean of {PASSES} times {} batches of at \
         least {} ms. Debug assertions {}.",
        clock.batches,
        clock.each.as_millis(),
        if cfg!(debug_assertions) { "on" } else { "off" },
    );
    let passes = (0..PASSES).map(|_| measured(&clock));
    let [mut rows, mut images, commits, lookups, against, sizes, samples, plans, progress] =
        passes.reduce(least).expect("there is a pass");

    table::print("Keys and ranges", &["Rust, keys lent"], &rows);
    table::print("Images", &[], &images);
    table::print_divided("Commits", &commits::MORE, &commits::QUOTIENTS, &commits);
    table::print_aims(&commits::AIMS, &commits);
    table::print("Lookups", &["decode", "call"], &lookups);
    table::print_sides(
        "An index, and an image of as many keys: both ours",
        ["index", "image", "index / image"],
        &against,
    );
    table::print("Visible sizes", &["decode", "call"], &sizes);
    table::print("Samples", &["decode", "call", "encode"], &samples);
    table::print("Plans", &["decode", "call", "encode"], &plans);
    table::print_divided("Progress", &progress::MORE, &progress::QUOTIENTS, &progress);
    images.extend(commits);
    table::print_by_size(&images, &shapes::SIZES);
    rows.extend(images);
    rows.extend(lookups);
    rows.extend(sizes);
    rows.extend(samples);
    rows.extend(plans);
    rows.extend(progress);
    table::print_above(&rows);
}

/// The rows of each table.
type Rows = [Vec<Row>; 9];

fn measured(clock: &Clock) -> Rows {
    [
        ranges::rows(clock),
        images::rows(clock),
        commits::rows(clock),
        lookups::rows(clock),
        lookups::against_images(clock),
        sizes::rows(clock),
        plans::samples(clock),
        plans::plans(clock),
        progress::rows(clock),
    ]
}

/// Of two passes, which have the same cases in the same order.
fn least(one: Rows, other: Rows) -> Rows {
    let mut others = other.into_iter();
    one.map(|rows| {
        let other = others.next().expect("as many tables");
        let both = rows.into_iter().zip(other);
        both.map(|(row, again)| row.or_less(again)).collect()
    })
}

/// What it runs on, as Linux tells it.
fn machine() -> String {
    let info = read_to_string("/proc/cpuinfo").unwrap_or_default();
    let mut names = info
        .lines()
        .filter_map(|line| line.strip_prefix("model name"));
    let name = names
        .next()
        .unwrap_or("unknown")
        .trim_matches([' ', '\t', ':']);
    let load = read_to_string("/proc/loadavg").unwrap_or_default();
    let load = load.split(' ').next().unwrap_or("unknown");
    let cores = names.count() + 1;
    let rustc = env!("BENCH_RUSTC");
    format!("{name}, {cores} cores, load average {load} at the start; {rustc}.")
}
