//! The papers' own sizes, and the steps of the Rust one by one.
use super::views::{joined, zeros, MOST};
use super::{at_places, of_run, Inputs};
use crate::answers::lookups::{value, Value, ESTIMATE_VISIBLE_SIZE, VISIBLE_FRACTION};
use crate::inputs::{before, from, from_to, image, included, run, view, EVERYTHING};
use crate::{Range, View};

fn sized(first: &[u8], last: Option<&[u8]>, visible: Option<Range>, raw: u64) -> View {
    let mut view = view(1, first, last, visible);
    (view.table.index_offset, view.table.index_len) = (raw - raw / 3, raw / 3);
    view
}

/// The three calls on one view, and what the first two must answer.
fn put(view: View, shown: Option<f64>, size: u64, out: &mut Inputs) {
    let bytes = image(&[run(7, &[view])]);
    for asked in at_places(0, 0) {
        let due = match asked.call {
            VISIBLE_FRACTION => Value::Shown(shown.map(f64::to_bits)),
            _ => Value::Bytes(size),
        };
        assert_eq!(value(&bytes, &asked), Ok(due));
        out.put(&bytes, &[asked]);
    }
}

pub fn from_the_papers(out: &mut Inputs) {
    rounding(out);
    wholes(out);
    parts(out);
    long_keys(out);
    sums(out);
}

/// "Table keys 00 to 80 (hexadecimal), visible [00,40), raw size 5: 3"; and other raw sizes.
fn rounding(out: &mut Inputs) {
    let half = |raw| sized(b"\0", Some(b"\x80"), Some(from_to(b"\0", b"\x40")), raw);
    for (raw, size) in [(0, 1), (1, 1), (2, 1), (3, 2), (5, 3), (7, 4)] {
        put(half(raw), Some(0.5), size, out);
    }
    for (raw, size) in [(MOST - 1, MOST / 2), (MOST, MOST / 2)] {
        put(half(raw), Some(0.5), size, out);
    }
    let over = image(&[run(7, &[half(MOST + 1)])]);
    for asked in at_places(0, 0) {
        assert_eq!(value(&over, &asked), Err(7));
        out.put(&over, &[asked]);
    }
}

/// No last key; a range that is the table's own, or wider; a length of 0.
fn wholes(out: &mut Inputs) {
    let (a, b) = (&b"a"[..], Some(&b"b"[..]));
    for raw in [0, 1, 5, MOST] {
        put(sized(a, b, None, raw), None, raw, out);
        for range in [
            EVERYTHING,
            included(a, b"b"),
            from(b"A"),
            included(b"A", b"c"),
        ] {
            put(sized(a, b, Some(range.clone()), raw), None, raw.max(1), out);
            put(sized(a, None, Some(range), raw), None, raw.max(1), out);
        }
        for range in [included(a, a), included(b"ab", b"ab"), from(b"b")] {
            put(sized(a, b, Some(range), raw), None, raw.max(1), out);
        }
        put(
            sized(a, Some(a), Some(included(a, a)), raw),
            None,
            raw.max(1),
            out,
        );
    }
}

/// Parts of 1.0, of the least fraction, and below epsilon.
fn parts(out: &mut Inputs) {
    let (a, b) = (&b"a"[..], Some(&b"b"[..]));
    let tiny = |count| joined(b"a", &joined(&zeros(count), b"\x01"));
    for raw in [0, 1, 5, 1_000_000, MOST] {
        let excluded = sized(a, b, Some(before(b"b")), raw);
        put(excluded, Some(1.0), raw.max(1), out);
        let least = ((raw as f64 * 1e-6).round() as u64).max(1);
        let few = sized(a, b, Some(included(a, b"a\0\0\0\x01")), raw);
        put(few, Some(1e-6), least, out);
        // 2^-56 of epsilon, 2^-52.
        let last = tiny(6);
        let short = sized(a, Some(&last), Some(before(&last)), raw);
        let sixteenth = ((raw as f64 / 16.0).round() as u64).max(1);
        put(short, Some(0.0625), sixteenth, out);
    }
}

/// 1,000 bytes that all keys begin with; keys that differ past the eighth byte alone.
fn long_keys(out: &mut Inputs) {
    let stem = vec![b'k'; 1_000];
    let key = |more: &[u8]| joined(&stem, more);
    let (first, last) = (key(b""), key(b"\x80"));
    let quarter = sized(
        &first,
        Some(&last),
        Some(from_to(&first, &key(b"\x20"))),
        100,
    );
    put(quarter, Some(0.25), 25, out);
    let ninth = joined(&zeros(8), b"\x01");
    let unseen = sized(b"", Some(b"\x80"), Some(included(b"", &ninth)), 9);
    put(unseen, None, 9, out);
}

/// A run of no views is 0, and of several the sum; the places behind them are not there.
fn sums(out: &mut Inputs) {
    let half = |raw| sized(b"\0", Some(b"\x80"), Some(before(b"\x40")), raw);
    let views = [half(5), half(MOST), sized(b"\0", None, None, 7)];
    let bytes = image(&[run(7, &[]), run(8, &views)]);
    assert_eq!(value(&bytes, &of_run(0)), Ok(Value::Bytes(0)));
    let sum = 3 + MOST / 2 + 7;
    assert_eq!(value(&bytes, &of_run(1)), Ok(Value::Bytes(sum)));
    for (run, view) in [
        (0, 0),
        (1, 0),
        (1, 1),
        (1, 2),
        (1, 3),
        (2, 0),
        (0, u64::MAX),
    ] {
        out.put(&bytes, &at_places(run, view));
    }
    out.put(&bytes, &at_places(u64::MAX, u64::MAX));
    for place in [1, 256, 1 << 32, 1 << 63] {
        let asked = at_places(0, place);
        assert_eq!(asked[1].call, ESTIMATE_VISIBLE_SIZE);
        out.put(&bytes, &asked[..2]);
        out.put(&bytes, &[of_run(place | 2)]);
    }
    out.put(&[0], &at_places(0, 0));
}
