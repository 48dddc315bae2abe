//! Writes test records for a port of `commit` to standard output: an image, a job, an id
//! supply and the length of the lent buffer, with the new image or the number of the check
//! that stops the commit. README.md has the record format.
use oracle::answers::commits::{answer, Case, Deeds};
use oracle::checks::{read_image, Checked, Stop};
use oracle::inputs::commits as inputs;
use oracle::inputs::commits::{Inputs, Takes, MOST_ROOM};
use oracle::inputs::Chance;
use oracle::records::{arguments, pieces, record, Piece};
use std::collections::{BTreeMap, HashMap, HashSet};
use std::io::Write;

/// The longest supply that can be replayed.
const SUPPLY_CEILING: usize = 1_048_576;

struct Output<W: Write> {
    to: W,
    /// Image, job, supply and answer, as the program that replays the records has them.
    held: [Vec<u8>; 4],
    seen: HashSet<Case>,
    /// Records by stop, 0 if none: alone, and in lists.
    counts: BTreeMap<Stop, [usize; 2]>,
    deeds: Deeds,
    /// Lists by the number of accepted commits.
    lists: BTreeMap<usize, usize>,
    bytes: usize,
}

impl<W: Write> Output<W> {
    fn record(&mut self, call: u8, x: usize, y: usize, bytes: &[u8]) {
        let record = record(call, x as u64, y as u64, bytes);
        self.bytes += record.len();
        self.to.write_all(&record).unwrap();
    }

    /// Makes one of the buffers hold these bytes.
    fn hold(&mut self, which: usize, buffer: &[u8]) {
        for piece in pieces(&self.held[which], buffer) {
            match piece {
                Piece::Put(kept, bytes) => self.record(which as u8, kept, 0, bytes),
                Piece::Repeat(length, before) => self.record(4 + which as u8, length, before, &[]),
            }
        }
        self.held[which] = buffer.to_vec();
    }

    fn put(&mut self, case: &Case, in_list: bool) -> Checked<Vec<u8>> {
        assert!(case.image.len() <= MOST_ROOM && case.job.len() <= MOST_ROOM);
        assert!(case.ids.len() <= SUPPLY_CEILING && case.room <= MOST_ROOM);
        let mut deeds = Deeds::default();
        let answer = answer(case, &mut deeds);
        self.hold(0, &case.image);
        self.hold(1, &case.job);
        self.hold(2, &case.ids);
        match &answer {
            Ok(bytes) => {
                // A new image passes the checks 1 to 3.
                assert!(read_image(bytes).is_ok());
                self.hold(3, &[&[0], &bytes[..]].concat());
                self.deeds.add(&deeds);
            }
            Err(stop) => self.hold(3, &[*stop]),
        }
        self.record(8, case.room, usize::from(in_list), &[]);
        if let (true, Ok(bytes)) = (in_list, &answer) {
            self.held[0] = bytes.clone();
        }
        let stop = answer.as_ref().err().copied().unwrap_or(0);
        self.counts.entry(stop).or_default()[usize::from(in_list)] += 1;
        answer
    }

    /// All records and those that were accepted.
    fn records(&self) -> (usize, usize) {
        let accepted = self.counts.get(&0).map_or(0, |counts| counts.iter().sum());
        (self.counts.values().flatten().sum(), accepted)
    }

    fn report(&self) {
        for (stop, [alone, listed]) in &self.counts {
            eprintln!("stop {stop}: {alone}, in lists {listed}");
        }
        eprintln!("accepted: {}", self.deeds);
        eprintln!(
            "all: {} records, {} lists ({:?} by accepted commits), {} bytes",
            self.records().0,
            self.lists.values().sum::<usize>(),
            self.lists,
            self.bytes
        );
    }
}

impl<W: Write> Takes for Output<W> {
    /// A commit, if it was not recorded before.
    fn take(&mut self, case: &Case) -> Stop {
        if !self.seen.insert(case.clone()) {
            return answer(case, &mut Deeds::default()).err().unwrap_or(0);
        }
        self.put(case, false).err().unwrap_or(0)
    }

    fn take_listed(&mut self, case: &Case) -> Checked<Vec<u8>> {
        self.put(case, true)
    }

    /// A program that went wrong in a list gets the next image whole.
    fn end_list(&mut self, accepted: usize) {
        self.held[0] = vec![];
        self.record(0, 0, 0, &[]);
        *self.lists.entry(accepted).or_insert(0) += 1;
    }
}

fn write(small: bool, seed: u64, count: usize) {
    let mut out = Output {
        to: std::io::BufWriter::new(std::io::stdout().lock()),
        held: Default::default(),
        seen: HashSet::new(),
        counts: BTreeMap::new(),
        deeds: Deeds::default(),
        lists: BTreeMap::new(),
        bytes: 0,
    };
    let (mut classes, mut pairs) = (HashMap::new(), BTreeMap::new());
    for part in 1..=10 {
        let before = (out.records(), out.bytes);
        let mut made = Inputs {
            to: &mut out,
            small,
            // Each part has its own numbers, so that a change in one leaves the others alone.
            chance: Chance(seed.wrapping_mul(16).wrapping_add(part)),
            classes,
            pairs,
        };
        match part {
            1 => inputs::odd(&mut made),
            2 => inputs::draws(&mut made),
            3 => inputs::damage(&mut made),
            4 => inputs::pairs(&mut made),
            5 => inputs::ceilings(&mut made),
            6 => inputs::random(count, &mut made),
            7 => inputs::lists(count / 10, &mut made),
            8 => inputs::most_pieces(&mut made),
            9 => inputs::uncovered_among_runs(&mut made),
            _ => inputs::ends(&mut made),
        }
        (classes, pairs) = (made.classes, made.pairs);
        let (records, accepted) = out.records();
        eprintln!(
            "part {part}: {} records, {} of them accepted, {} bytes",
            records - before.0 .0,
            accepted - before.0 .1,
            out.bytes - before.1
        );
    }
    out.to.flush().unwrap();
    for ((a, b), stops) in &pairs {
        eprintln!("faults of {a} and {b}: stops {stops:?}");
    }
    out.report();
}

fn main() {
    let given: Vec<String> = std::env::args().skip(1).collect();
    let Some((small, seed, count)) = arguments(&given, 700) else {
        eprintln!("usage: commit_vectors sample [SEED [N]] | commit_vectors big SEED N");
        std::process::exit(2);
    };
    write(small, seed, count);
}
