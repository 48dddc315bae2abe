//! The calls on keys and ranges.
use crate::clock::{rounds, Clock, Side};
use crate::keys::{ascending, closed, half_open, random_key, Differ};
use crate::ours;
use crate::table::{Case, Row};
use oracle::direct::{self, borrowed, Checked};
use oracle::inputs::Chance;
use std::fmt::Debug;

const LENGTHS: [usize; 4] = [8, 24, 256, 1_024];
/// A round has so many inputs, each of other keys.
const INPUTS: usize = 16;
/// Room for four keys of 1,024 bytes and what stands before them.
const ROOM: usize = 8_192;
const INCLUDED: u8 = 1;
const EXCLUDED: u8 = 2;

/// What a call is given: keys, prefixes or range images. The second may be unused.
struct Input {
    a: Vec<u8>,
    b: Vec<u8>,
}

struct Inputs {
    what: String,
    list: Vec<Input>,
}

fn inputs(what: String, mut make: impl FnMut() -> (Vec<u8>, Vec<u8>)) -> Inputs {
    let list = (0..INPUTS).map(|_| make());
    Inputs {
        what,
        list: list.map(|(a, b)| Input { a, b }).collect(),
    }
}

/// For each length and each way to differ, inputs made of five ascending keys.
fn from_keys(make: impl Fn(&mut Chance, &[Vec<u8>]) -> (Vec<u8>, Vec<u8>)) -> Vec<Inputs> {
    let mut chance = Chance(1);
    let mut all = Vec::new();
    for length in LENGTHS {
        for differ in [Differ::InTheLastByte, Differ::AtRandom] {
            let what = format!("{length} bytes, {}", differ.name());
            all.push(inputs(what, || {
                let keys = ascending(&mut chance, differ, length, 5);
                make(&mut chance, &keys)
            }));
        }
    }
    all
}

fn either_order<T>(chance: &mut Chance, a: T, b: T) -> (T, T) {
    if chance.percent(50) {
        (a, b)
    } else {
        (b, a)
    }
}

fn copy(input: &Input, out: &mut [u8]) {
    let (a, b) = out.split_at_mut(input.a.len());
    a.copy_from_slice(&input.a);
    b[..input.b.len()].copy_from_slice(&input.b);
}

struct Ranges<'c> {
    clock: &'c Clock,
    rows: Vec<Row>,
}

impl Ranges<'_> {
    /// A call that answers a value. `lent` is the Rust without copies of the keys.
    fn answered<T: PartialEq + Debug>(
        &mut self,
        call: &'static str,
        inputs: &Inputs,
        ours: impl Fn(&Input) -> Checked<T>,
        rust: impl Fn(&Input) -> Checked<T>,
        lent: impl Fn(&Input) -> Checked<T>,
    ) {
        for input in &inputs.list {
            let answer = rust(input);
            assert_eq!(ours(input), answer, "{call}, {}", inputs.what);
            assert_eq!(lent(input), answer, "{call}, {}", inputs.what);
            assert!(answer.is_ok());
        }
        let mut room = vec![0; ROOM];
        let list = &inputs.list;
        let sides = vec![
            rounds(list, ours),
            rounds(list, rust),
            rounds(list, move |input| copy(input, &mut room)),
            rounds(list, lent),
        ];
        self.time(call, inputs, sides);
    }

    /// A call that writes its answer. `lent` is the Rust without copies of the keys.
    fn written<T>(
        &mut self,
        call: &'static str,
        inputs: &Inputs,
        ours: impl Fn(&Input, &mut [u8]) -> Checked<usize>,
        rust: impl Fn(&Input, &mut [u8]) -> Checked<usize>,
        lent: Option<impl Fn(&Input) -> T>,
    ) {
        let (mut a, mut b, mut room) = (vec![0; ROOM], vec![0; ROOM], vec![0; ROOM]);
        for input in &inputs.list {
            let answer = rust(input, &mut b);
            assert_eq!(ours(input, &mut a), answer, "{call}, {}", inputs.what);
            let length = answer.expect("no input is refused");
            assert_eq!(a[..length], b[..length], "{call}, {}", inputs.what);
        }
        let list = &inputs.list;
        let mut sides = vec![
            rounds(list, move |input| ours(input, &mut a)),
            rounds(list, move |input| rust(input, &mut b)),
            rounds(list, move |input| copy(input, &mut room)),
        ];
        if let Some(lent) = lent {
            sides.push(rounds(list, lent));
        }
        self.time(call, inputs, sides);
    }

    fn time(&mut self, call: &'static str, inputs: &Inputs, sides: Vec<Side>) {
        let bytes: usize = inputs
            .list
            .iter()
            .map(|input| input.a.len() + input.b.len())
            .sum();
        let case = Case {
            call,
            shape: inputs.what.clone(),
            size: None,
            counts: String::new(),
            bytes: bytes / INPUTS,
            calls: INPUTS,
            sides,
        };
        self.rows.extend(case.timed(self.clock));
    }
}

/// For calls that have no side without copies.
const NOT_LENT: Option<fn(&Input)> = None;

pub fn rows(clock: &Clock) -> Vec<Row> {
    let mut ranges = Ranges {
        clock,
        rows: Vec::new(),
    };
    keys(&mut ranges);
    tests(&mut ranges);
    points(&mut ranges);
    pairs(&mut ranges);
    prefixes(&mut ranges);
    ranges.rows
}

fn keys(ranges: &mut Ranges) {
    let pairs = from_keys(|chance, keys| either_order(chance, keys[0].clone(), keys[1].clone()));
    for pair in &pairs {
        ranges.answered(
            "compare",
            pair,
            |i| ours::compare(&i.a, &i.b),
            |i| direct::compare(&i.a, &i.b),
            |i| borrowed::compare(&i.a, &i.b),
        );
    }
    for pair in &pairs {
        ranges.answered(
            "cmp_bound",
            pair,
            |i| ours::cmp_bound(INCLUDED, &i.a, EXCLUDED, &i.b, true),
            |i| direct::cmp_bound(INCLUDED, &i.a, EXCLUDED, &i.b, true),
            |i| borrowed::cmp_bound(INCLUDED, &i.a, EXCLUDED, &i.b, true),
        );
    }
}

fn tests(ranges: &mut Ranges) {
    // Every other range is empty.
    let halves = from_keys(|chance, keys| {
        let (start, end) = either_order(chance, &keys[0], &keys[1]);
        (half_open(start, end), vec![])
    });
    for half in &halves {
        ranges.answered(
            "non_empty",
            half,
            |i| ours::non_empty(&i.a),
            |i| direct::non_empty(&i.a),
            |i| borrowed::non_empty(&i.a),
        );
    }
    let asked = from_keys(|chance, keys| (half_open(&keys[1], &keys[3]), chance.of(keys).clone()));
    for asked in &asked {
        ranges.answered(
            "contains",
            asked,
            |i| ours::contains(&i.a, &i.b),
            |i| direct::contains(&i.a, &i.b),
            |i| borrowed::contains(&i.a, &i.b),
        );
    }
}

fn points(ranges: &mut Ranges) {
    let mut all = from_keys(|_, keys| (closed(&keys[0], &keys[1]), vec![]));
    let mut chance = Chance(2);
    for length in LENGTHS {
        all.push(inputs(format!("{length} bytes, a point"), || {
            let key = random_key(&mut chance, length);
            (closed(&key, &key), vec![])
        }));
    }
    for range in &all {
        ranges.written(
            "as_point",
            range,
            |i, out| ours::as_point(&i.a, out),
            |i, out| direct::as_point(&i.a, out),
            NOT_LENT,
        );
    }
}

/// Two ranges that meet: in every other pair one holds the other.
fn meeting(chance: &mut Chance, keys: &[Vec<u8>]) -> (Vec<u8>, Vec<u8>) {
    let (end, other) = either_order(chance, &keys[2], &keys[3]);
    either_order(chance, half_open(&keys[0], end), half_open(&keys[1], other))
}

fn apart(chance: &mut Chance, keys: &[Vec<u8>]) -> (Vec<u8>, Vec<u8>) {
    let (a, b) = (half_open(&keys[0], &keys[1]), half_open(&keys[2], &keys[3]));
    either_order(chance, a, b)
}

fn pairs(ranges: &mut Ranges) {
    let named = |mut inputs: Inputs| {
        inputs.what += ", apart";
        inputs
    };
    let mut all = from_keys(meeting);
    all.extend(from_keys(apart).into_iter().map(named));
    for pair in &all {
        ranges.written(
            "intersect",
            pair,
            |i, out| ours::intersect(&i.a, &i.b, out),
            |i, out| direct::intersect(&i.a, &i.b, out),
            Some(|i: &Input| borrowed::intersect(&i.a, &i.b).is_ok()),
        );
    }
    for pair in &all[..2 * LENGTHS.len()] {
        ranges.written(
            "intersect_start_key",
            pair,
            |i, out| ours::intersect_start_key(&i.a, &i.b, out),
            |i, out| direct::intersect_start_key(&i.a, &i.b, out),
            NOT_LENT,
        );
    }
    for pair in &all[..2 * LENGTHS.len()] {
        ranges.written(
            "intersect_end_key",
            pair,
            |i, out| ours::intersect_end_key(&i.a, &i.b, out),
            |i, out| direct::intersect_end_key(&i.a, &i.b, out),
            NOT_LENT,
        );
    }
    for pair in &all {
        ranges.written(
            "union",
            pair,
            |i, out| ours::union(&i.a, &i.b, out),
            |i, out| direct::union(&i.a, &i.b, out),
            Some(|i: &Input| borrowed::union(&i.a, &i.b).is_ok()),
        );
    }
}

fn prefixes(ranges: &mut Ranges) {
    let mut chance = Chance(3);
    for length in LENGTHS {
        let random = inputs(format!("{length} bytes, random"), || {
            (random_key(&mut chance, length), vec![])
        });
        let full = inputs(format!("{length} bytes, all FF"), || {
            (vec![0xFF; length], vec![])
        });
        for prefix in [random, full] {
            ranges.written(
                "from_prefix",
                &prefix,
                |i, out| ours::from_prefix(&i.a, out),
                |i, out| direct::from_prefix(&i.a, out),
                NOT_LENT,
            );
        }
    }
    // The joined keys are of the length that is named: one half is the prefix.
    let joined = from_keys(|chance, keys| {
        let (prefix, start) = keys[0].split_at(keys[0].len() / 2);
        let other = if keys[0][..prefix.len()] == keys[1][..prefix.len()] {
            keys[1][prefix.len()..].to_vec()
        } else {
            random_key(chance, start.len())
        };
        let (start, end) = (start.to_vec().min(other.clone()), start.to_vec().max(other));
        (prefix.to_vec(), half_open(&start, &end))
    });
    for given in &joined {
        ranges.written(
            "from_prefix_and_subrange",
            given,
            |i, out| ours::from_prefix_and_subrange(&i.a, &i.b, out),
            |i, out| direct::from_prefix_and_subrange(&i.a, &i.b, out),
            NOT_LENT,
        );
    }
}
