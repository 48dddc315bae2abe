//! Runs slatedb's own code and the proved library on the same inputs, and stops at the first
//! difference. README.md says what is tried.
//!
//!     compare [quick] [SEED]
//!     compare --self-test [SEED]
mod answer;
mod call;
mod commits;
mod comparison;
mod images;
mod lent;
mod lists;
mod lookups;
mod plans;
mod progress;
mod ranges;
mod report;
mod selftest;
mod shards;
mod shrink;
mod sizes;
mod tally;
mod wrong;

use shards::Shards;
use std::process::ExitCode;
use std::time::Instant;

fn compare(seed: u64, full: bool) -> ExitCode {
    let began = Instant::now();
    let mut shards = Shards::new(seed);
    commits::add(&mut shards, full);
    images::add(&mut shards, full);
    ranges::add(&mut shards, full);
    lookups::add(&mut shards, full);
    sizes::add(&mut shards, full);
    plans::add(&mut shards, full);
    progress::add(&mut shards, full);
    let (tally, difference) = shards.run(None, true);
    println!("seed {seed}, {}", if full { "full" } else { "quick" });
    tally.print();
    eprintln!("{} seconds", began.elapsed().as_secs());
    match difference {
        None => {
            println!("no difference");
            ExitCode::SUCCESS
        }
        Some(difference) => {
            report::report(difference, None);
            ExitCode::FAILURE
        }
    }
}

fn main() -> ExitCode {
    let mut arguments: Vec<String> = std::env::args().skip(1).collect();
    let mode = match arguments.first().map(String::as_str) {
        Some(word @ ("quick" | "--self-test")) => word.to_string(),
        _ => String::new(),
    };
    arguments.drain(..usize::from(!mode.is_empty()));
    let seed = match &arguments[..] {
        [] => Some(1),
        [seed] => seed.parse().ok(),
        _ => None,
    };
    let Some(seed) = seed else {
        eprintln!("usage: compare [quick | --self-test] [SEED]");
        return ExitCode::from(2);
    };
    match mode.as_str() {
        "--self-test" if selftest::run(seed) => ExitCode::SUCCESS,
        "--self-test" => ExitCode::FAILURE,
        mode => compare(seed, mode.is_empty()),
    }
}
