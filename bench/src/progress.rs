//! Durable intervals and what one leaves of a range, and on the Rust's side their parts.
use crate::clock::{rounds, Clock};
use crate::jobs::{self, Prepared};
use crate::keys::{ascending, closed, half_open, Differ};
use crate::ours;
use crate::table::{Case, Quotient, Row};
use oracle::direct::{self, Recorded, Subtraction};
use oracle::inputs::Chance;
use std::collections::HashSet;

const ROOM: usize = 65_536;
const LENGTHS: [usize; 4] = [8, 24, 256, 1_024];
/// A round of subtractions has so many inputs, each of other keys.
const INPUTS: usize = 16;

/// The further sides.
pub const MORE: [&str; 3] = ["decode", "call", "encode"];

pub const QUOTIENTS: [Quotient; 1] = [Quotient {
    name: "ours / Rust's call alone",
    side: 1,
}];

/// The jobs of the commits, each once.
pub fn rows(clock: &Clock) -> Vec<Row> {
    let mut seen = HashSet::new();
    let mut rows = vec![];
    for prepared in jobs::all() {
        let task = jobs::job_image(&prepared.job);
        if seen.insert(task.clone()) {
            rows.extend(intervals(clock, &prepared, &task));
        }
    }
    let mut chance = Chance(1);
    for place in Place::ALL {
        for length in LENGTHS {
            for differ in [Differ::InTheLastByte, Differ::AtRandom] {
                rows.extend(subtractions(clock, place, length, differ, &mut chance));
            }
        }
    }
    rows
}

/// As many ids as the original draws.
fn supply(prepared: &Prepared) -> Vec<u8> {
    let mut ids = jobs::supply();
    let progress = oracle::from_compaction(&prepared.job, &ids);
    ids.truncate(progress.expect("the original takes it").used);
    ids
}

fn intervals(clock: &Clock, prepared: &Prepared, task: &[u8]) -> Option<Row> {
    let ids = supply(prepared);
    let (mut a, mut b, mut c, mut room) = ([0; ROOM], [0; ROOM], [0; ROOM], [0; ROOM]);
    let answer = direct::from_compaction(task, &ids, &mut b);
    assert!(answer.is_ok(), "{}: {answer:?}", prepared.name);
    assert_eq!(ours::from_compaction(task, &mut a), answer);
    assert!(a == b, "{}", prepared.name);
    let decoded = Recorded::decode(task).expect("it was decoded above");
    let result = decoded.from_compaction(&ids);
    let sides = vec![
        rounds(&[()], |_| ours::from_compaction(task, &mut a)),
        rounds(&[()], |_| direct::from_compaction(task, &ids, &mut b)),
        rounds(&[()], |_| room[..task.len()].copy_from_slice(task)),
        rounds(&[()], |_| Recorded::decode(task).is_ok()),
        rounds(&[()], |_| decoded.from_compaction(&ids)),
        rounds(&[()], |_| result.encode(&mut c)),
    ];
    let parts = prepared.job.parts.iter();
    let outputs: usize = parts.map(|part| part.outputs.len()).sum();
    let case = Case {
        call: "from_compaction",
        shape: prepared.name.clone(),
        size: None,
        counts: format!("{outputs} outputs"),
        bytes: task.len(),
        calls: 1,
        sides,
    };
    case.timed(clock)
}

/// How the interval lies to the range.
#[derive(Clone, Copy)]
enum Place {
    Inside,
    Across,
    Apart,
}

impl Place {
    const ALL: [Place; 3] = [Place::Inside, Place::Across, Place::Apart];

    fn name(self) -> &'static str {
        match self {
            Place::Inside => "inside: two are left",
            Place::Across => "across its start: one is left",
            Place::Apart => "apart: all is left",
        }
    }

    /// Of four ascending keys the interval, then the range.
    fn of(self, keys: &[Vec<u8>]) -> (Vec<u8>, Vec<u8>) {
        match self {
            Place::Inside => (half_open(&keys[1], &keys[2]), closed(&keys[0], &keys[3])),
            Place::Across => (half_open(&keys[0], &keys[2]), closed(&keys[1], &keys[3])),
            Place::Apart => (half_open(&keys[0], &keys[1]), closed(&keys[2], &keys[3])),
        }
    }
}

fn subtractions(
    clock: &Clock,
    place: Place,
    length: usize,
    differ: Differ,
    chance: &mut Chance,
) -> Option<Row> {
    let made = (0..INPUTS).map(|_| place.of(&ascending(chance, differ, length, 4)));
    let given: Vec<(Vec<u8>, Vec<u8>)> = made.collect();
    let (mut a, mut b, mut c, mut room) = ([0; ROOM], [0; ROOM], [0; ROOM], [0; ROOM]);
    for (interval, range) in &given {
        let answer = direct::subtract_from(interval, range, &mut b);
        assert!(answer.is_ok(), "{answer:?}");
        assert_eq!(ours::subtract_from(interval, range, &mut a), answer);
        assert!(a == b, "subtract_from, {}", place.name());
    }
    let decode = |(x, y): &(Vec<u8>, Vec<u8>)| Subtraction::decode(x, y).expect("decoded above");
    let decoded: Vec<Subtraction> = given.iter().map(decode).collect();
    let results: Vec<_> = decoded.iter().map(Subtraction::subtract_from).collect();
    let sides = vec![
        rounds(&given, |(x, y)| ours::subtract_from(x, y, &mut a)),
        rounds(&given, |(x, y)| direct::subtract_from(x, y, &mut b)),
        rounds(&given, |(x, y)| {
            let (interval, range) = room.split_at_mut(x.len());
            interval.copy_from_slice(x);
            range[..y.len()].copy_from_slice(y);
        }),
        rounds(&given, |(x, y)| Subtraction::decode(x, y).is_ok()),
        rounds(&decoded, Subtraction::subtract_from),
        rounds(&results, |left| left.encode(&mut c)),
    ];
    let bytes: usize = given.iter().map(|(x, y)| x.len() + y.len()).sum();
    let case = Case {
        call: "subtract_from",
        shape: format!("{length} bytes, {}", differ.name()),
        size: None,
        counts: place.name().into(),
        bytes: bytes / given.len(),
        calls: given.len(),
        sides,
    };
    case.timed(clock)
}
