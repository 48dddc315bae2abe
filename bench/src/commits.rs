//! Commits, and on the Rust's side their parts; beside them ours of `check_image`, on the same image.
use crate::clock::{rounds, Clock};
use crate::jobs::{self, Prepared};
use crate::ours;
use crate::shapes::Keys;
use crate::table::{Aim, Case, Quotient, Row};
use oracle::direct::{self, Given};
use oracle::inputs::image;

const ROOM: usize = 65_536;

/// The further sides, and two of their places.
pub const MORE: [&str; 4] = ["decode", "call", "encode", "check_image, ours"];
const CALL: usize = 1;
const CHECK: usize = 3;

pub const QUOTIENTS: [Quotient; 2] = [
    Quotient {
        name: "ours / Rust's call alone",
        side: CALL,
    },
    Quotient {
        name: "ours / check_image",
        side: CHECK,
    },
];

pub const AIMS: [Aim; 5] = [OF_CALL, OF_CALL_LONG, OF_CHECK, OF_CHECK_64, OF_CHECK_SOME];
const OF_CALL: Aim = Aim {
    what: "of the Rust's call alone",
    side: CALL,
    most: 0.6,
};
const OF_CALL_LONG: Aim = Aim {
    what: "of the Rust's call alone, keys of 1,024 bytes that differ in the last",
    side: CALL,
    most: 0.9,
};
const OF_CHECK: Aim = Aim {
    what: "times `check_image`, one part",
    side: CHECK,
    most: 8.0,
};
const OF_CHECK_64: Aim = Aim {
    what: "times `check_image`, 64 parts",
    side: CHECK,
    most: 10.0,
};
const OF_CHECK_SOME: Aim = Aim {
    what: "times `check_image`, 2 to 63 parts (no aim of their own: that of 64)",
    side: CHECK,
    most: 10.0,
};

pub fn rows(clock: &Clock) -> Vec<Row> {
    let all = jobs::all();
    all.iter()
        .filter_map(|prepared| timed(clock, prepared))
        .collect()
}

/// As many ids as the originals draw.
fn supply(prepared: &Prepared) -> Vec<u8> {
    let mut ids = jobs::supply();
    let committed = oracle::commit_counted(&prepared.runs, &prepared.job, &ids);
    ids.truncate(committed.expect("the originals commit it").used);
    ids
}

fn aims(prepared: &Prepared) -> Vec<Aim> {
    let of_call = match prepared.keys {
        Keys::Stem(1_024) => OF_CALL_LONG,
        _ => OF_CALL,
    };
    let of_check = match prepared.job.parts.len() {
        1 => OF_CHECK,
        64 => OF_CHECK_64,
        _ => OF_CHECK_SOME,
    };
    vec![of_call, of_check]
}

fn timed(clock: &Clock, prepared: &Prepared) -> Option<Row> {
    let (given, task) = (image(&prepared.runs), jobs::job_image(&prepared.job));
    let ids = supply(prepared);
    let (mut a, mut b, mut c, mut room) = ([0; ROOM], [0; ROOM], [0; ROOM], [0; 2 * ROOM]);
    let answer = direct::commit(&given, &task, &ids, &mut b);
    assert!(answer.is_ok(), "{}: {answer:?}", prepared.name);
    assert_eq!(ours::commit(&given, &task, &ids, &mut a), answer);
    assert!(a == b, "{}", prepared.name);
    assert_eq!(ours::check_image(&given), Ok(()));
    let decoded = Given::decode(&given, &task).expect("it was decoded above");
    let result = decoded.commit(&ids).expect("it was committed above");
    let sides = vec![
        rounds(&[()], |_| ours::commit(&given, &task, &ids, &mut a)),
        rounds(&[()], |_| direct::commit(&given, &task, &ids, &mut b)),
        rounds(&[()], |_| {
            let (image, job) = room.split_at_mut(given.len());
            image.copy_from_slice(&given);
            job[..task.len()].copy_from_slice(&task);
        }),
        rounds(&[()], |_| Given::decode(&given, &task).is_ok()),
        rounds(&[()], |_| decoded.commit(&ids).is_ok()),
        rounds(&[()], |_| result.encode(&mut c)),
        rounds(&[()], |_| ours::check_image(&given)),
    ];
    let case = Case {
        call: "commit",
        shape: prepared.name.clone(),
        size: Some(prepared.size),
        counts: counts(prepared, ids.len() / 10, task.len()),
        bytes: given.len(),
        calls: 1,
        sides,
    };
    Some(case.timed(clock)?.with_aims(aims(prepared)))
}

fn counts(prepared: &Prepared, drawn: usize, job: usize) -> String {
    let views: usize = prepared.runs.iter().map(|run| run.views.len()).sum();
    let parts = prepared.job.parts.iter();
    let outputs: usize = parts.map(|part| part.outputs.len()).sum();
    format!("{views} views, {outputs} outputs, {drawn} drawn, job of {job} bytes")
}
