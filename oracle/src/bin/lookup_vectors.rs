//! Writes test records for a port of the lookups and of the calls on visible sizes to standard output: an
//! index or an image, and for each call on it what is asked with the answer or the number of the check
//! that stops it.
//!
//! A file is records one after the other, numbers big-endian. A record's head has 20 bytes: the call
//! (1), x and y (8 each, 0 where unused), and the length of what follows (3). There is one held
//! buffer, empty at first: an index for the calls 1 to 5, an image for the others.
//!
//! - 0: the first x bytes of the buffer stay, and what follows comes after them;
//! - 11: the buffer gets x bytes, each repeating the one y before it; nothing follows;
//! - 1 to 10, 12 to 14: a call, in the order of `answers::lookups`. x is the place of the run, y that of
//!   the view. What follows is 1 byte: the test of 1 (0 below, 1 at or below) or the kind of 10's end
//!   bound, else 0; the lengths of a key and of a range image, 2 bytes each; the key (of 1 to 4, or
//!   the end bound's of 10), the range image (of 5 to 10; none of 12 to 14); then the answer.
//!
//! The answer's first byte is the stop, 0 if none, and after a stop nothing follows. After the 0:
//!
//! - 1 and 3: the count or the partition, 8 bytes;
//! - 2 and 4: 0 for none; or 1 and the partition, 8 bytes;
//! - 5 and 6: the places from which and up to which, 8 bytes each;
//! - 7 and 10: 0 or 1;
//! - 8 and 9: 0 for no range; or 1, then the start and the end as the C call writes them: kind (1),
//!   slice (1: 1 the image, 2 the range), place and length of the key (8 each). For an unbounded
//!   bound place and length stand for nothing: both are 0 here, and the program that replays puts 0
//!   for its own too, so that the whole answer is compared;
//! - 12: 0 if the table is shown whole; or 1 and the bits of the fraction, 8 bytes;
//! - 13 and 14: the size, 8 bytes.
use oracle::answers::lookups::{Asked, Joint, Read, Value};
use oracle::checks::Checked;
use oracle::inputs::lookups as inputs;
use oracle::inputs::lookups::{Inputs, Takes};
use oracle::inputs::sizes;
use oracle::inputs::sizes::every::{long_tails, short_tails, views_from};
use oracle::inputs::Chance;
use oracle::records::{arguments, pieces, record, Piece};
use oracle::{key_of, kind_of};
use std::collections::{BTreeMap, HashMap, HashSet};
use std::io::Write;

/// The longest buffer that can be replayed, and the longest lookup with its answer.
const REPLAY_CEILING: usize = 131_072;
const BODY_CEILING: usize = 8_192;
/// A piece that repeats.
const REPEAT: u8 = 11;

fn joint_answer(buffer: &[u8], asked: &Asked, joint: &Joint) -> Vec<u8> {
    let mut answer = vec![1];
    for end in [&joint.start, &joint.end] {
        answer.extend([kind_of(&end.bound), end.slice]);
        let key = key_of(&end.bound);
        if let Some(key) = key {
            let slice = if end.slice == 1 { buffer } else { &asked.range };
            assert_eq!(slice[end.place..end.place + key.len()], key[..]);
        }
        let (place, length) = key.map_or((0, 0), |key| (end.place, key.len()));
        answer.extend((place as u64).to_be_bytes());
        answer.extend((length as u64).to_be_bytes());
    }
    answer
}

/// The answer's bytes, its stop included.
fn answer(buffer: &[u8], asked: &Asked, value: &Checked<Value>) -> Vec<u8> {
    let number = |number: &usize| (*number as u64).to_be_bytes().to_vec();
    let value = match value {
        Err(stop) => return vec![*stop],
        Ok(Value::Number(count)) => number(count),
        Ok(Value::Found(None) | Value::Joint(None)) => vec![0],
        Ok(Value::Found(Some(place))) => [vec![1], number(place)].concat(),
        Ok(Value::Places(start, end)) => [number(start), number(end)].concat(),
        Ok(Value::Is(is)) => vec![u8::from(*is)],
        Ok(Value::Shown(None)) => vec![0],
        Ok(Value::Shown(Some(bits))) => [&[1], &bits.to_be_bytes()[..]].concat(),
        Ok(Value::Bytes(size)) => size.to_be_bytes().to_vec(),
        Ok(Value::Joint(Some(joint))) => joint_answer(buffer, asked, joint),
    };
    [vec![0], value].concat()
}

/// What follows the head of a lookup.
fn body(asked: &Asked, answer: &[u8]) -> Vec<u8> {
    let length = |bytes: &[u8]| u16::try_from(bytes.len()).unwrap().to_be_bytes();
    let mut body = vec![asked.number];
    body.extend(length(&asked.key));
    body.extend(length(&asked.range));
    body.extend(&asked.key);
    body.extend(&asked.range);
    body.extend(answer);
    body
}

struct Output<W: Write> {
    to: W,
    seen: HashMap<Vec<u8>, HashSet<Asked>>,
    held: Vec<u8>,
    /// Records by call and stop.
    counts: BTreeMap<(u8, u8), usize>,
    bytes: usize,
}

impl<W: Write> Output<W> {
    fn record(&mut self, call: u8, x: u64, y: u64, bytes: &[u8]) {
        let record = record(call, x, y, bytes);
        self.bytes += record.len();
        self.to.write_all(&record).unwrap();
    }

    fn hold(&mut self, buffer: &[u8]) {
        for piece in pieces(&self.held, buffer) {
            match piece {
                Piece::Put(kept, bytes) => self.record(0, kept as u64, 0, bytes),
                Piece::Repeat(length, before) => {
                    self.record(REPEAT, length as u64, before as u64, &[])
                }
            }
        }
        self.held = buffer.to_vec();
    }

    fn records(&self) -> usize {
        self.counts.values().sum()
    }
}

impl<W: Write> Takes for Output<W> {
    /// The lookups in a buffer, but for those that were recorded before and those that are too long.
    fn take(&mut self, buffer: &[u8], asked: &[Asked]) {
        let seen = self.seen.entry(buffer.to_vec()).or_default();
        let fits = |asked: &&Asked| asked.key.len() + asked.range.len() < BODY_CEILING - 64;
        let asked = asked.iter().filter(fits);
        let asked: Vec<Asked> = asked
            .filter(|a| seen.insert((*a).clone()))
            .cloned()
            .collect();
        let Some(first) = asked.first() else {
            return;
        };
        assert!(buffer.len() <= REPLAY_CEILING);
        self.hold(buffer);
        let read = Read::new(first.is_of_index(), buffer);
        for asked in asked {
            let answer = answer(buffer, &asked, &read.value(&asked));
            let body = body(&asked, &answer);
            assert!(body.len() <= BODY_CEILING);
            self.record(asked.call, asked.run, asked.view, &body);
            *self.counts.entry((asked.call, answer[0])).or_insert(0) += 1;
        }
    }
}

/// Every view over few keys: in a small run some of each class.
fn every_view(out: &mut Inputs) {
    for tails in [short_tails(false), long_tails(false)] {
        for first in &tails {
            views_from(first, &tails, out);
        }
    }
}

fn write(small: bool, seed: u64, count: usize) {
    let mut out = Output {
        to: std::io::BufWriter::new(std::io::stdout().lock()),
        seen: HashMap::new(),
        held: vec![],
        counts: BTreeMap::new(),
        bytes: 0,
    };
    let mut classes = HashMap::new();
    for part in 1..=15 {
        let before = (out.records(), out.bytes);
        let mut made = Inputs {
            to: &mut out,
            small,
            // Each part has its own numbers, so that a change in one leaves the others alone.
            chance: Chance(seed.wrapping_mul(16).wrapping_add(part)),
            classes,
        };
        match part {
            1 => inputs::from_the_papers(&mut made),
            2 => inputs::lists(&mut made),
            3 => inputs::one_view(&mut made),
            4 => inputs::few_views(&mut made),
            5 => inputs::places(&mut made),
            6 => inputs::damage(&mut made),
            7 => inputs::damaged_ranges(&mut made),
            8 => inputs::faults_of_indexes(&mut made),
            9 => inputs::faults_of_images(&mut made),
            10 => inputs::ceilings(&mut made),
            11 => {
                inputs::random_indexes(count, &mut made);
                inputs::random_images(count, &mut made);
            }
            12 => {
                sizes::from_the_papers(&mut made);
                every_view(&mut made);
            }
            13 => sizes::of_every_kind(&mut made),
            14 => sizes::ceilings(&mut made),
            _ => {
                let (images, runs) = match small {
                    true => (4 * count, count / 10),
                    false => (count, count / 50),
                };
                sizes::random(images, &mut made);
                sizes::of_random(count, &mut made);
                sizes::long_runs(runs, &mut made);
            }
        }
        classes = made.classes;
        let (records, bytes) = (out.records() - before.0, out.bytes - before.1);
        eprintln!("part {part}: {records} records, {bytes} bytes");
    }
    out.to.flush().unwrap();
    for ((call, stop), records) in &out.counts {
        eprintln!("call {call}, stop {stop}: {records}");
    }
    eprintln!(
        "all: {} records on {} buffers, {} bytes",
        out.records(),
        out.seen.len(),
        out.bytes
    );
}

fn main() {
    let given: Vec<String> = std::env::args().skip(1).collect();
    let Some((small, seed, count)) = arguments(&given, 70) else {
        eprintln!("usage: lookup_vectors sample [SEED [N]] | lookup_vectors big SEED N");
        std::process::exit(2);
    };
    write(small, seed, count);
}
