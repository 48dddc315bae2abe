//! Writes test records for a port of the calls that sample and plan to standard output: what a call is
//! given and the length of the lent buffer, with what it writes or the number of the check that stops it.
//! README.md has the record format.
//!
//! There are three buffers: 0 the first that a call reads (index, anchors or image), 1 the second (range or
//! indexes), 2 the answer. A record is
//!
//! - 4 to 6: a piece of a buffer (the number less 4). So many bytes of it (x) stay, and those after the head
//!   follow them;
//! - 7 to 9: a piece that repeats (of the buffer of the number less 7): it gets so long (x), each byte
//!   repeating the one so far (y) before it;
//! - 1 to 3: a call, in the order of `answers::plans`. x is the setting (anchors a table, or parts), y the
//!   data end offset of 1 or the least range bytes of 2, 0 for 3. What follows is the length of the lent
//!   buffer, 8 bytes;
//! - 10 and 11: a call on durable intervals, the numbers of `answers::progress`. x and y are 0, and the length
//!   of the lent buffer follows too.
use oracle::answers::plans::{value, Case, Value, PLAN_SUBCOMPACTION_RANGES, SELECT_BOUNDARIES};
use oracle::answers::progress;
use oracle::checks::{Checked, BUFFER_CEILING};
use oracle::inputs::plans as inputs;
use oracle::inputs::plans::{Inputs, Rooms, Takes};
use oracle::inputs::progress as intervals;
use oracle::inputs::{anchors, plan, Chance};
use oracle::records::{arguments, pieces, record, Piece};
use std::collections::{BTreeMap, HashMap, HashSet};
use std::io::Write;

/// The longest buffer that can be replayed.
const REPLAY_CEILING: usize = 131_072;
/// The numbers of pieces.
const PUT: u8 = 4;
const REPEAT: u8 = 7;

struct Output<W: Write> {
    to: W,
    seen: HashSet<(Case, usize)>,
    /// The two that are read and the answer, as the program that replays the records has them.
    held: [Vec<u8>; 3],
    /// Records by call and stop.
    counts: BTreeMap<(u8, u8), usize>,
    /// Plans with several ranges, and plans of over 65,536 bytes.
    split: usize,
    long: usize,
    bytes: usize,
    small: bool,
    chance: Chance,
}

impl<W: Write> Output<W> {
    fn record(&mut self, call: u8, x: u64, y: u64, bytes: &[u8]) {
        let record = record(call, x, y, bytes);
        self.bytes += record.len();
        self.to.write_all(&record).unwrap();
    }

    /// Makes one of the buffers hold these bytes.
    fn hold(&mut self, which: u8, buffer: &[u8]) {
        assert!(buffer.len() <= REPLAY_CEILING);
        let held = std::mem::take(&mut self.held[usize::from(which)]);
        for piece in pieces(&held, buffer) {
            match piece {
                Piece::Put(kept, bytes) => self.record(PUT + which, kept as u64, 0, bytes),
                Piece::Repeat(length, before) => {
                    self.record(REPEAT + which, length as u64, before as u64, &[])
                }
            }
        }
        self.held[usize::from(which)] = buffer.to_vec();
    }

    /// A call with a lent buffer of this length, if it was not recorded before.
    fn put(&mut self, case: &Case, known: &Checked<Vec<u8>>, room: usize) {
        assert!(room <= REPLAY_CEILING);
        if !self.seen.insert((case.clone(), room)) {
            return;
        }
        self.hold(0, &case.first);
        self.hold(1, &case.second);
        let stop = match known {
            Err(stop) => *stop,
            Ok(bytes) if room < bytes.len() => 16,
            Ok(bytes) => {
                let is_plan = [SELECT_BOUNDARIES, PLAN_SUBCOMPACTION_RANGES].contains(&case.call);
                self.split += usize::from(is_plan && bytes[0] > 1);
                self.long += usize::from(bytes.len() > BUFFER_CEILING);
                0
            }
        };
        match (stop, known) {
            (0, Ok(bytes)) => self.hold(2, &[&[0], &bytes[..]].concat()),
            _ => self.hold(2, &[stop]),
        }
        let room = (room as u64).to_be_bytes();
        self.record(case.call, case.setting, case.number, &room);
        *self.counts.entry((case.call, stop)).or_insert(0) += 1;
    }

    /// Of those that are enough the one just long enough comes first.
    fn rooms(&mut self, known: &Checked<Vec<u8>>, asked: Rooms) -> Vec<usize> {
        let chance = &mut self.chance;
        match (known, asked) {
            (Ok(bytes), Rooms::Each) if bytes.len() > 4_000 => vec![bytes.len(), bytes.len() - 1],
            (Ok(bytes), Rooms::Each) if !self.small => {
                let length = bytes.len();
                vec![length, length + 1, length - 1, length / 2, 0]
            }
            (Ok(bytes), Rooms::Each) => vec![bytes.len(), bytes.len() - 1],
            (Ok(bytes), Rooms::Some) => {
                let length = bytes.len();
                let more = chance.below(20);
                let short = [length - 1, 0, more % length];
                match chance.below(12) {
                    0 => vec![length, *chance.of(&short)],
                    1 | 2 => vec![length + more],
                    _ => vec![length],
                }
            }
            (Err(_), Rooms::Each) if !self.small => vec![0, 300],
            (Err(_), _) => vec![*chance.of(&[0, 1, 300])],
        }
    }

    fn records(&self) -> usize {
        self.counts.values().sum()
    }
}

impl<W: Write> Takes for Output<W> {
    fn take(&mut self, case: &Case, asked: Rooms) {
        let known = value(case).map(|value| match value {
            Value::Anchors(list) => anchors(&list),
            Value::Plan(ranges) => plan(&ranges),
        });
        for room in self.rooms(&known, asked) {
            self.put(case, &known, room);
        }
    }
}

/// Those on durable intervals; in records they have no settings.
impl<W: Write> intervals::Takes for Output<W> {
    fn take(&mut self, case: &progress::Case, asked: Rooms) {
        let known = progress::value(case).map(|ranges| plan(&ranges));
        let case = Case {
            call: case.call,
            first: case.first.clone(),
            second: case.second.clone(),
            ..Case::default()
        };
        for room in self.rooms(&known, asked) {
            self.put(&case, &known, room);
        }
    }
}

/// One of the parts 1 to 10.
fn put_plans(part: u64, count: usize, made: &mut Inputs) {
    match part {
        1 => inputs::from_the_papers(made),
        2 => inputs::damage(made),
        3 => inputs::faults_of_anchors(made),
        4 => inputs::faults_of_indexes(made),
        5 => inputs::faults_of_images(made),
        6 => inputs::ceilings(made),
        7 => inputs::random_anchors(6 * count, made),
        8 => inputs::random_indexes(count, made),
        9 => inputs::random_images(3 * count, made),
        _ => {
            inputs::long_anchors(count / 40, made);
            inputs::wide_images(count / 40, made);
            inputs::near_totals(count / 2, made);
            inputs::near_most_sampled(count / 80, made);
            inputs::long_plans(count / 80, made);
        }
    }
}

/// One of the parts from 11 on.
fn put_intervals(part: u64, count: usize, made: &mut intervals::Inputs) {
    match part {
        11 => {
            intervals::few_jobs(made);
            intervals::every_job(made);
            intervals::jobs_of_commits(made);
            intervals::random_jobs(3 * count, made);
        }
        _ => {
            intervals::subtractions_from_the_papers(made);
            intervals::damaged_subtractions(made);
            intervals::faults_of_subtractions(made);
            intervals::long_subtractions(made);
            intervals::some_subtractions(made);
            intervals::random_subtractions(3 * count, made);
        }
    }
}

fn write(small: bool, seed: u64, count: usize) {
    let mut out = Output {
        to: std::io::BufWriter::new(std::io::stdout().lock()),
        seen: HashSet::new(),
        held: Default::default(),
        counts: BTreeMap::new(),
        split: 0,
        long: 0,
        bytes: 0,
        small,
        chance: Chance(seed),
    };
    let mut classes = HashMap::new();
    for part in 1..=12 {
        let before = (out.records(), out.bytes);
        // Each part has its own numbers, so that a change in one leaves the others alone.
        let chance = seed.wrapping_mul(16).wrapping_add(part);
        out.chance = Chance(!chance);
        if part > 10 {
            let mut made = intervals::Inputs {
                to: &mut out,
                small,
                chance: Chance(chance),
                classes: HashMap::new(),
            };
            put_intervals(part, count, &mut made);
        } else {
            let mut made = Inputs {
                to: &mut out,
                small,
                chance: Chance(chance),
                classes: std::mem::take(&mut classes),
            };
            put_plans(part, count, &mut made);
            classes = made.classes;
        }
        let (records, bytes) = (out.records() - before.0, out.bytes - before.1);
        eprintln!("part {part}: {records} records, {bytes} bytes");
    }
    out.to.flush().unwrap();
    for ((call, stop), records) in &out.counts {
        eprintln!("call {call}, stop {stop}: {records}");
    }
    eprintln!(
        "all: {} records, {} plans with several ranges, {} of over 65,536 bytes, {} bytes",
        out.records(),
        out.split,
        out.long,
        out.bytes
    );
}

fn main() {
    let given: Vec<String> = std::env::args().skip(1).collect();
    let Some((small, seed, count)) = arguments(&given, 80) else {
        eprintln!("usage: plan_vectors sample [SEED [N]] | plan_vectors big SEED N");
        std::process::exit(2);
    };
    write(small, seed, count);
}
