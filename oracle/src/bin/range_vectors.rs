//! Writes test records for a port of the key-range functions to standard output:
//! inputs, and the answers of the original functions (through the library) or the
//! number of the check that stops the call. README.md has the record format.
use oracle::answers::ranges::{value, Input, Sided, Value};
use oracle::checks::{key_places, read_range, Checked};
use oracle::inputs::ranges::{
    exhaustive, full_buffers, long_keys, random, stops, together, Inputs, Takes,
};
use oracle::inputs::{range_image, Chance};
use oracle::{key_of, Bound};
use std::collections::{HashMap, HashSet};
use std::io::Write;

/// The place of a bound's key in the argument that gave it, 16 bits; nothing for one without a key.
fn place(argument: &[u8], bound: &Bound, at: usize) -> Vec<u8> {
    key_of(bound).map_or(vec![], |key| {
        assert_eq!(argument[at..at + key.len()], key[..]);
        u16::try_from(at).unwrap().to_be_bytes().to_vec()
    })
}

/// Sides, the range, then the places of its keys.
fn joined(input: &Input, Sided { range, start, end }: &Sided) -> Vec<u8> {
    let given = |side: &u8| {
        let argument = if *side == 1 { &input.a } else { &input.b };
        (argument, key_places(&read_range(argument).unwrap()))
    };
    let ((from, (start_at, _)), (to, (_, end_at))) = (given(start), given(end));
    [
        vec![1, *start, *end],
        range_image(range),
        place(from, &range.0, start_at),
        place(to, &range.1, end_at),
    ]
    .concat()
}

/// The place of the start's key, then the key.
fn point(range: &[u8], key: Vec<u8>) -> Vec<u8> {
    let at = key_places(&read_range(range).unwrap()).0;
    let bound = Bound::Included(key.clone());
    [vec![1], place(range, &bound, at), key].concat()
}

/// What follows the answer's first byte.
fn answer(input: &Input) -> Checked<Vec<u8>> {
    Ok(match value(input)? {
        Value::Order(order) => vec![(order + 1) as u8],
        Value::Is(is) => vec![u8::from(is)],
        Value::Point(None) | Value::Joined(None) => vec![0],
        Value::Point(Some(key)) => point(&input.a, key),
        Value::Joined(Some(sided)) => joined(input, &sided),
        Value::Range(range) => {
            let image = range_image(&range);
            if input.room < image.len() {
                return Err(16);
            }
            image
        }
    })
}

struct Output<W: Write> {
    to: W,
    seen: HashSet<Vec<u8>>,
    bytes: usize,
}

impl<W: Write> Takes for Output<W> {
    fn take(&mut self, input: &Input) {
        let answer = match answer(input) {
            Ok(bytes) => [vec![0], bytes].concat(),
            Err(stop) => vec![stop],
        };
        let length = |length: usize| u16::try_from(length).unwrap().to_be_bytes();
        let mut record = vec![input.call, input.x, input.y, input.z];
        record.extend(length(input.room));
        let parts = [&input.a[..], &input.b, &answer];
        for part in parts {
            record.extend(length(part.len()));
        }
        for part in parts {
            record.extend(part);
        }
        if self.seen.insert(record.clone()) {
            self.bytes += record.len();
            self.to.write_all(&record).unwrap();
        }
    }
}

fn write(small: bool, seed: u64, count: usize) {
    let mut out = Output {
        to: std::io::BufWriter::new(std::io::stdout().lock()),
        seen: HashSet::new(),
        bytes: 0,
    };
    let mut classes = HashMap::new();
    for call in 1..=9 {
        let before = (out.seen.len(), out.bytes);
        let mut inputs = Inputs {
            to: &mut out,
            small,
            // Each call has its own numbers, so that a change in one leaves the others alone.
            chance: Chance(seed.wrapping_mul(16).wrapping_add(call.into())),
            classes,
        };
        exhaustive(call, &mut inputs);
        stops(call, &mut inputs);
        long_keys(call, &mut inputs);
        if !small {
            full_buffers(call, &mut inputs);
        }
        random(call, count, &mut inputs);
        together(call, &mut inputs);
        classes = inputs.classes;
        let (records, bytes) = (out.seen.len() - before.0, out.bytes - before.1);
        eprintln!("call {call}: {records} records, {bytes} bytes");
    }
    eprintln!("all: {} records, {} bytes", out.seen.len(), out.bytes);
    out.to.flush().unwrap();
}

fn main() {
    let arguments: Vec<String> = std::env::args().skip(1).collect();
    let Some((small, seed, count)) = oracle::records::arguments(&arguments, 40) else {
        eprintln!("usage: range_vectors sample [SEED [N]] | range_vectors big SEED N");
        std::process::exit(2);
    };
    write(small, seed, count);
}
