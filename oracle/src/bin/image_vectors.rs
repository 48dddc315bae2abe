//! Writes test records for a port of the calls on images to standard output: an image, and
//! for each call on it the arguments with the answer or the number of the check that stops
//! it. README.md has the record format.
use oracle::answers::images::{at, effective, listing, Call};
use oracle::checks::{check_image, Checked, Placed, PlacedRun};
use oracle::inputs::images as inputs;
use oracle::inputs::images::{Inputs, Takes};
use oracle::inputs::Chance;
use oracle::records::{arguments, record, HEAD};
use oracle::{key_of, kind_of};
use std::collections::{BTreeMap, HashMap, HashSet};
use std::io::Write;

/// The length of the longest image, answer and lent buffer that can be replayed.
const REPLAY_CEILING: usize = 131_072;

/// Kinds, then for each bound with a key its place (24 bits) and its length (16).
fn effective_answer(buffer: &[u8], placed: &Placed) -> Vec<u8> {
    let (range, start, end) = effective(placed);
    let mut answer = vec![kind_of(&range.0), kind_of(&range.1)];
    for (bound, at) in [(&range.0, start), (&range.1, end)] {
        if let Some(key) = key_of(bound) {
            assert_eq!(buffer[at..at + key.len()], key[..]);
            answer.extend(&(at as u32).to_be_bytes()[1..]);
            answer.extend((key.len() as u16).to_be_bytes());
        }
    }
    answer
}

/// What follows the answer's first byte.
fn answer(buffer: &[u8], checked: &Checked<Vec<PlacedRun>>, call: Call) -> Checked<Vec<u8>> {
    let image = checked.as_ref().map_err(|stop| *stop)?;
    match call {
        Call::CheckImage => Ok(vec![]),
        Call::EffectiveRange(run, view) => {
            let placed = at(image, run).and_then(|run| at(&run.views, view));
            Ok(effective_answer(buffer, placed.ok_or(9)?))
        }
        Call::List(room) => {
            let text = listing(image);
            if room < text.len() as u64 {
                return Err(16);
            }
            Ok(text)
        }
    }
}

struct Output<W: Write> {
    to: W,
    seen: HashMap<Vec<u8>, HashSet<Call>>,
    /// The image that the last records were about.
    current: Vec<u8>,
    /// Records by call and stop.
    counts: BTreeMap<(u8, u8), usize>,
    bytes: usize,
}

impl<W: Write> Output<W> {
    fn record(&mut self, call: u8, x: u64, y: u64, bytes: &[u8]) {
        let record = record(call, x, y, bytes);
        self.bytes += record.len();
        self.to.write_all(&record).unwrap();
    }

    /// Makes this the image of the records that follow: what it shares with the image before
    /// is kept, and the longest part that repeats what stands `period` bytes before it is not
    /// written out.
    fn turn_to(&mut self, buffer: &[u8], period: usize) {
        let same = buffer.iter().zip(&self.current).take_while(|(a, b)| a == b);
        let kept = same.count();
        let repeats = |i: &usize| buffer[*i] == buffer[i - period];
        let (mut from, mut to, mut i) = (kept, kept, kept.max(period));
        while period > 0 && i < buffer.len() {
            let end = i + (i..buffer.len()).take_while(repeats).count();
            if end - i > to - from {
                (from, to) = (i, end);
            }
            i = end + 1;
        }
        if to - from <= HEAD {
            (from, to) = (buffer.len(), buffer.len());
        }
        self.record(0, kept as u64, 0, &buffer[kept..from]);
        if from < to {
            self.record(4, to as u64, period as u64, &[]);
            if to < buffer.len() {
                self.record(0, to as u64, 0, &buffer[to..]);
            }
        }
        self.current = buffer.to_vec();
    }

    fn records(&self) -> usize {
        self.counts.values().sum()
    }
}

impl<W: Write> Takes for Output<W> {
    /// The calls on an image, but for those that were recorded before.
    fn take(&mut self, buffer: &[u8], period: usize, calls: &[Call]) {
        let seen = self.seen.entry(buffer.to_vec()).or_default();
        let calls: Vec<Call> = calls.iter().copied().filter(|c| seen.insert(*c)).collect();
        if calls.is_empty() {
            return;
        }
        assert!(buffer.len() <= REPLAY_CEILING);
        self.turn_to(buffer, period);
        let checked = check_image(buffer);
        for call in calls {
            let answer = match answer(buffer, &checked, call) {
                Ok(bytes) => [vec![0], bytes].concat(),
                Err(stop) => vec![stop],
            };
            let (x, y) = call.arguments();
            assert!(answer.len() <= REPLAY_CEILING);
            assert!(call.number() != 3 || x <= REPLAY_CEILING as u64);
            self.record(call.number(), x, y, &answer);
            *self.counts.entry((call.number(), answer[0])).or_insert(0) += 1;
        }
    }
}

fn write(small: bool, seed: u64, count: usize) {
    let mut out = Output {
        to: std::io::BufWriter::new(std::io::stdout().lock()),
        seen: HashMap::new(),
        current: vec![],
        counts: BTreeMap::new(),
        bytes: 0,
    };
    let mut classes = HashMap::new();
    for part in 1..=11 {
        let before = (out.records(), out.bytes);
        let mut made = Inputs {
            to: &mut out,
            small,
            // Each part has its own numbers, so that a change in one leaves the others alone.
            chance: Chance(seed.wrapping_mul(16).wrapping_add(part)),
            classes,
        };
        match part {
            1 => inputs::from_the_papers(&mut made),
            2 => inputs::one_view(&mut made),
            3 => inputs::several(&mut made),
            4 => inputs::places(&mut made),
            5 => inputs::sums(&mut made),
            6 => inputs::damage(&mut made),
            7 => inputs::pairs(&mut made),
            8 => inputs::ceilings(&mut made),
            9 => inputs::random(count, &mut made),
            10 => inputs::runs_with_views(&mut made),
            _ => inputs::ends(&mut made),
        }
        classes = made.classes;
        let (records, bytes) = (out.records() - before.0, out.bytes - before.1);
        eprintln!("part {part}: {records} records, {bytes} bytes");
    }
    out.to.flush().unwrap();
    for ((call, stop), records) in &out.counts {
        eprintln!("call {call}, stop {stop}: {records}");
    }
    eprintln!(
        "all: {} records on {} images, {} bytes",
        out.records(),
        out.seen.len(),
        out.bytes
    );
}

fn main() {
    let given: Vec<String> = std::env::args().skip(1).collect();
    let Some((small, seed, count)) = arguments(&given, 150) else {
        eprintln!("usage: image_vectors sample [SEED [N]] | image_vectors big SEED N");
        std::process::exit(2);
    };
    write(small, seed, count);
}
