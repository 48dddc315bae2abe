//! The recorded answers that the programs replay_ranges, replay_images, replay_commits, replay_lookups and replay_plans replay
//! in Rattle, replayed through the C interface. oracle/README.md has the layouts of the records. The values of this crate, and
//! the places of refusals, are held to the proved calls on the same bytes.
use crate::common::{agree, lend, lend_text};
use bilqarush::raw;
use bilqarush::typed::*;
use std::fs;
use std::ops::Bound;

fn records(program: &str) -> Vec<u8> {
    let root = concat!(env!("CARGO_MANIFEST_DIR"), "/../../crates");
    let path = format!("{root}/{program}/stdin");
    fs::read(&path).unwrap_or_else(|error| panic!("{path}: {error}"))
}

fn take<'a>(rest: &mut &'a [u8], count: usize) -> &'a [u8] {
    let (taken, left) = rest.split_at(count);
    *rest = left;
    taken
}

fn number(rest: &mut &[u8], width: usize) -> usize {
    take(rest, width)
        .iter()
        .fold(0, |sum, &byte| sum << 8 | usize::from(byte))
}

/// An outcome as it is recorded: the stop alone, or 0 and the answer.
fn recorded<S: Into<u8>>(outcome: Result<Vec<u8>, S>) -> Vec<u8> {
    match outcome {
        Ok(answer) => [vec![0], answer].concat(),
        Err(stop) => vec![stop.into()],
    }
}

fn outcome<T>(result: Result<T, Stop>, bytes: impl FnOnce(T) -> Vec<u8>) -> Vec<u8> {
    recorded(result.map(bytes).map_err(Stop::number))
}

// ---- ranges

fn bound(kind: u8, key: &[u8]) -> Option<Bound<&[u8]>> {
    match kind {
        0 if key.is_empty() => Some(Bound::Unbounded),
        1 => Some(Bound::Included(key)),
        2 => Some(Bound::Excluded(key)),
        _ => None,
    }
}

fn order_number(order: i8) -> Vec<u8> {
    vec![(order + 1) as u8]
}

/// By the raw call, since some records give what no `Bound` is; the safe one must agree on the others.
fn cmp_bound_record(x: [u8; 3], a: &[u8], b: &[u8]) -> Vec<u8> {
    let [a_kind, b_kind, start] = x;
    let mut order = 0;
    // SAFETY: the slices are lent whole, and the slot is this function's own.
    let stop = unsafe {
        let (a_len, b_len) = (a.len(), b.len());
        let (a, b) = (a.as_ptr(), b.as_ptr());
        raw::bilqarush_cmp_bound(a_kind, a, a_len, b_kind, b, b_len, start == 1, &mut order)
    };
    let made = match stop {
        0 => recorded(Ok::<_, u8>(order_number(order))),
        stop => vec![stop],
    };
    if let (Some(a), Some(b)) = (bound(a_kind, a), bound(b_kind, b)) {
        let bounds = [Bounds::Ends, Bounds::Starts][usize::from(start)];
        let order = cmp_bound(a, b, bounds);
        assert_eq!(outcome(order, |order| order_number(order as i8)), made);
    }
    made
}

/// The place of a key in the slice that it is a part of.
fn place_in(slice: &[u8], key: &[u8]) -> usize {
    key.as_ptr() as usize - slice.as_ptr() as usize
}

/// The place of a bound's key, 16 bits; nothing for an unbounded one.
fn place_record(slice: &[u8], bound: Bound<&[u8]>) -> Vec<u8> {
    match bound {
        Bound::Unbounded => vec![],
        Bound::Included(key) | Bound::Excluded(key) => {
            (place_in(slice, key) as u16).to_be_bytes().to_vec()
        }
    }
}

fn joined_record(a: &[u8], b: &[u8], joined: Option<Joined>) -> Vec<u8> {
    let Some(joined) = joined else {
        return vec![0];
    };
    let Range { start, end } = joined.range;
    let side = |side: Side| match side {
        Side::First => (1, a),
        Side::Second => (2, b),
    };
    let ((from, from_slice), (to, to_slice)) = (side(joined.start_from), side(joined.end_from));
    [
        vec![1, from, to],
        Range { start, end }.to_bytes().unwrap(),
        place_record(from_slice, start),
        place_record(to_slice, end),
    ]
    .concat()
}

fn point_record(range: &[u8], point: Option<&[u8]>) -> Vec<u8> {
    point.map_or(vec![0], |key| {
        [&[1], &place_record(range, Bound::Included(key))[..], key].concat()
    })
}

fn key_of(bound: Bound<&[u8]>) -> Vec<u8> {
    match bound {
        Bound::Unbounded => vec![],
        Bound::Included(key) | Bound::Excluded(key) => key.to_vec(),
    }
}

/// The calls for the keys alone answer those of `intersect`, and stop as it does.
fn keys_agree(a: &[u8], b: &[u8]) {
    let answer = intersect(RangeBytes(a), RangeBytes(b)).map_err(Stop::number);
    let keys = match answer {
        Ok(Some(joined)) => [joined.range.start, joined.range.end].map(|bound| Ok(key_of(bound))),
        Ok(None) => [Ok(vec![]), Ok(vec![])],
        Err(stop) => [Err(stop), Err(stop)],
    };
    let room = |i: usize| keys[i].as_ref().map_or(0, Vec::len);
    let start = lend(room(0), |out| {
        intersect_start_key(RangeBytes(a), RangeBytes(b), out)
    });
    let end = lend(room(1) + 1, |out| {
        intersect_end_key(RangeBytes(a), RangeBytes(b), out)
    });
    assert_eq!([start, end], keys);
}

fn range_record(call: usize, x: [u8; 3], room: usize, a: &[u8], b: &[u8]) -> Vec<u8> {
    match call {
        1 => outcome(compare(a, b), |order| order_number(order as i8)),
        2 => cmp_bound_record(x, a, b),
        3 => outcome(non_empty(RangeBytes(a)), |is| vec![is.into()]),
        4 => {
            keys_agree(a, b);
            outcome(intersect(RangeBytes(a), RangeBytes(b)), |joined| {
                joined_record(a, b, joined)
            })
        }
        5 => outcome(union(RangeBytes(a), RangeBytes(b)), |joined| {
            joined_record(a, b, joined)
        }),
        6 => recorded(lend(room, |out| from_prefix(a, out))),
        7 => recorded(lend(room, |out| {
            from_prefix_and_subrange(a, RangeBytes(b), out)
        })),
        8 => outcome(as_point(RangeBytes(a)), |key| point_record(a, key)),
        9 => outcome(contains(RangeBytes(a), b), |is| vec![is.into()]),
        _ => panic!("call {call}"),
    }
}

#[test]
fn ranges() {
    let records = records("replay_ranges");
    let mut rest = &records[..];
    let mut called = 0;
    while !rest.is_empty() {
        let call = number(&mut rest, 1);
        let x = take(&mut rest, 3).try_into().unwrap();
        let room = number(&mut rest, 2);
        let lengths = [0; 3].map(|_| number(&mut rest, 2));
        let [a, b, answer] = lengths.map(|length| take(&mut rest, length));
        agree::range(a);
        agree::range(b);
        let made = range_record(call, x, room, a, b);
        assert_eq!(
            made, answer,
            "call {call}, {x:?}, room {room}, {a:x?}, {b:x?}"
        );
        called += 1;
    }
    assert_eq!(called, 4401);
}

// ---- images and commits

/// A record with a head of 20 bytes.
struct Record<'a> {
    call: usize,
    x: usize,
    y: usize,
    bytes: &'a [u8],
}

fn next<'a>(rest: &mut &'a [u8]) -> Record<'a> {
    let call = number(rest, 1);
    let [x, y] = [0; 2].map(|_| number(rest, 8));
    let length = number(rest, 3);
    let bytes = take(rest, length);
    Record { call, x, y, bytes }
}

/// Keeps the first bytes of a buffer and puts others after them.
fn put(buffer: &mut Vec<u8>, record: &Record) {
    buffer.truncate(record.x);
    buffer.extend(record.bytes);
}

/// Extends a buffer by bytes that repeat those so far before them.
fn repeat(buffer: &mut Vec<u8>, record: &Record) {
    for at in buffer.len()..record.x {
        buffer.push(buffer[at - record.y]);
    }
}

fn bound_in(image: &[u8], bound: Bound<&[u8]>) -> (u8, Vec<u8>) {
    let (kind, key) = match bound {
        Bound::Unbounded => return (0, vec![]),
        Bound::Included(key) => (1, key),
        Bound::Excluded(key) => (2, key),
    };
    let place = &(place_in(image, key) as u32).to_be_bytes()[1..];
    let length = (key.len() as u16).to_be_bytes();
    (kind, [place, &length].concat())
}

fn effective_record(image: &[u8], range: Range<&[u8]>) -> Vec<u8> {
    let (start_kind, start) = bound_in(image, range.start);
    let (end_kind, end) = bound_in(image, range.end);
    [vec![start_kind, end_kind], start, end].concat()
}

#[test]
fn images() {
    let records = records("replay_images");
    let mut rest = &records[..];
    let mut image = Vec::new();
    let mut called = 0;
    while !rest.is_empty() {
        let record = next(&mut rest);
        let made = match record.call {
            0 => {
                put(&mut image, &record);
                continue;
            }
            4 => {
                repeat(&mut image, &record);
                continue;
            }
            1 => {
                agree::every(&image);
                outcome(check_image(ImageBytes(&image)), |()| vec![])
            }
            2 => outcome(
                compacted_effective_range(ImageBytes(&image), record.x, record.y),
                |range| effective_record(&image, range),
            ),
            3 => recorded(lend_text(record.x, |out| list(ImageBytes(&image), out))),
            call => panic!("call {call}"),
        };
        assert_eq!(made, record.bytes, "call {} on {image:x?}", record.call);
        called += 1;
    }
    assert_eq!(called, 4903);
}

/// A commit of what the buffers hold. In a list it makes what it wrote the image.
fn commit_record(record: &Record, [image, job, ids, answer]: &mut [Vec<u8>; 4]) {
    agree::image(image);
    agree::job(job);
    agree::commit(image, job, ids);
    let made = lend(record.x, |out| {
        commit(ImageBytes(image), JobBytes(job), ids, out)
    });
    assert_eq!(
        recorded(made.clone()),
        *answer,
        "image {image:x?}, job {job:x?}"
    );
    if let (Ok(new), 1) = (made, record.y) {
        *image = new;
    }
}

#[test]
fn commits() {
    let records = records("replay_commits");
    let mut rest = &records[..];
    let mut buffers = [const { Vec::new() }; 4];
    let mut called = 0;
    while !rest.is_empty() {
        let record = next(&mut rest);
        match record.call {
            0..=3 => put(&mut buffers[record.call], &record),
            4..=7 => repeat(&mut buffers[record.call - 4], &record),
            8 => {
                commit_record(&record, &mut buffers);
                called += 1;
            }
            call => panic!("call {call}"),
        }
    }
    assert_eq!(called, 3482);
}

// ---- lookups

/// What a lookup asks.
struct Asked<'a> {
    number: u8,
    key: &'a [u8],
    range: &'a [u8],
}

fn long_number(number: usize) -> Vec<u8> {
    number.to_be_bytes().to_vec()
}

fn found_record(found: Option<usize>) -> Vec<u8> {
    found.map_or(vec![0], |place| [vec![1], long_number(place)].concat())
}

fn places_record(places: std::ops::Range<usize>) -> Vec<u8> {
    [long_number(places.start), long_number(places.end)].concat()
}

/// A bound as its kind, the slice that supplied it, and the place and length of its key there, 0 if it has none.
fn supplied_record(image: &[u8], range: &[u8], side: Side, bound: Bound<&[u8]>) -> Vec<u8> {
    let (number, slice) = match side {
        Side::First => (1, image),
        Side::Second => (2, range),
    };
    let (kind, place, length) = match bound {
        Bound::Unbounded => (0, 0, 0),
        Bound::Included(key) => (1, place_in(slice, key), key.len()),
        Bound::Excluded(key) => (2, place_in(slice, key), key.len()),
    };
    [vec![kind, number], long_number(place), long_number(length)].concat()
}

fn kept_record(image: &[u8], range: &[u8], joined: Option<Joined>) -> Vec<u8> {
    joined.map_or(vec![0], |joined| {
        let start = supplied_record(image, range, joined.start_from, joined.range.start);
        let end = supplied_record(image, range, joined.end_from, joined.range.end);
        [vec![1], start, end].concat()
    })
}

/// By the raw call, since some records give what no `Bound` is; the safe one must agree on the others.
fn intersects_record(image: &[u8], run: usize, view: usize, asked: &Asked) -> Vec<u8> {
    let (range, end) = (asked.range, asked.key);
    let mut is = false;
    // SAFETY: the slices are lent whole, and the slot is this function's own.
    let stop = unsafe {
        raw::bilqarush_intersects_range(
            image.as_ptr(),
            image.len(),
            run,
            view,
            asked.number,
            end.as_ptr(),
            end.len(),
            range.as_ptr(),
            range.len(),
            &mut is,
        )
    };
    let made = match stop {
        0 => vec![0, is.into()],
        stop => vec![stop],
    };
    if let Some(end) = bound(asked.number, end) {
        let is = intersects_range(ImageBytes(image), run, view, end, RangeBytes(range));
        assert_eq!(outcome(is, |is| vec![is.into()]), made);
    }
    made
}

/// By its bits, so that no other float agrees with it.
fn shown_record(shown: VisibleFraction) -> Vec<u8> {
    match shown {
        VisibleFraction::Whole => vec![0],
        VisibleFraction::Part(part) => [&[1], &part.to_bits().to_be_bytes()[..]].concat(),
    }
}

fn size_record(size: u64) -> Vec<u8> {
    size.to_be_bytes().to_vec()
}

fn lookup_record(held: &[u8], record: &Record, asked: &Asked) -> Vec<u8> {
    let Asked { number, key, range } = *asked;
    let (run, view) = (record.x, record.y);
    match record.call {
        1 => {
            let test = [Test::Below, Test::AtOrBelow][usize::from(number)];
            outcome(partition_point(IndexBytes(held), test, key), long_number)
        }
        2 => outcome(
            first_partition_including_key(IndexBytes(held), key),
            found_record,
        ),
        3 => outcome(
            first_partition_including_or_after_key(IndexBytes(held), key),
            long_number,
        ),
        4 => outcome(
            last_partition_including_key(IndexBytes(held), key),
            found_record,
        ),
        5 => outcome(
            partitions_covering_range(IndexBytes(held), RangeBytes(range)),
            places_record,
        ),
        6 => outcome(
            table_idx_covering_range(ImageBytes(held), run, RangeBytes(range)),
            places_record,
        ),
        7 => outcome(
            overlaps_range(ImageBytes(held), run, RangeBytes(range)),
            |is| vec![is.into()],
        ),
        8 => outcome(
            compacted_intersection(ImageBytes(held), run, view, RangeBytes(range)),
            |kept| kept_record(held, range, kept),
        ),
        9 => outcome(
            calculate_view_range(ImageBytes(held), run, view, RangeBytes(range)),
            |part| kept_record(held, range, part),
        ),
        10 => intersects_record(held, run, view, asked),
        12 => outcome(visible_fraction(ImageBytes(held), run, view), shown_record),
        13 => outcome(
            estimate_visible_size(ImageBytes(held), run, view),
            size_record,
        ),
        14 => outcome(
            estimate_run_visible_size(ImageBytes(held), run),
            size_record,
        ),
        call => panic!("call {call}"),
    }
}

#[test]
fn lookups() {
    let records = records("replay_lookups");
    let mut rest = &records[..];
    let mut held = Vec::new();
    let mut called = 0;
    while !rest.is_empty() {
        let record = next(&mut rest);
        match record.call {
            0 => put(&mut held, &record),
            11 => repeat(&mut held, &record),
            call => {
                let mut answer = record.bytes;
                let kind = number(&mut answer, 1) as u8;
                let lengths = [0; 2].map(|_| number(&mut answer, 2));
                let [key, range] = lengths.map(|length| take(&mut answer, length));
                let asked = Asked {
                    number: kind,
                    key,
                    range,
                };
                agree::range(range);
                if call <= 5 {
                    agree::index(&held);
                }
                let made = lookup_record(&held, &record, &asked);
                assert_eq!(
                    made, answer,
                    "call {call}, {kind}, {key:x?}, {range:x?} on {held:x?}"
                );
                called += 1;
            }
        }
    }
    assert_eq!(called, 7334);
}

// ---- plans

fn plan_record(record: &Record, room: usize, [first, second, _]: &[Vec<u8>; 3]) -> Vec<u8> {
    let (setting, other) = (record.x, record.y as u64);
    recorded(lend(room, |out| match record.call {
        1 => sample_anchors(setting, other, IndexBytes(first), RangeBytes(second), out),
        2 => select_boundaries(setting, other, AnchorsBytes(first), out),
        3 => plan_subcompaction_ranges(setting, ImageBytes(first), IndexesBytes(second), out),
        10 => from_compaction(JobBytes(first), out),
        11 => subtract_from(RangeBytes(first), RangeBytes(second), out),
        call => panic!("call {call}"),
    }))
}

#[test]
fn plans() {
    let records = records("replay_plans");
    let mut rest = &records[..];
    // What is read first and second, and the answer.
    let mut buffers = [const { Vec::new() }; 3];
    let mut called = 0;
    while !rest.is_empty() {
        let record = next(&mut rest);
        match record.call {
            4..=6 => put(&mut buffers[record.call - 4], &record),
            7..=9 => repeat(&mut buffers[record.call - 7], &record),
            call => {
                let mut bytes = record.bytes;
                let room = number(&mut bytes, 8);
                assert!(bytes.is_empty());
                let made = plan_record(&record, room, &buffers);
                let [first, second, answer] = &buffers;
                match call {
                    1 => agree::index(first),
                    2 => agree::anchors(first),
                    3 => agree::plan(record.x, first, second),
                    10 => agree::job(first),
                    _ => agree::range(first),
                }
                assert!(
                    made == *answer,
                    "call {call}, {}, {}, room {room}, {first:x?}, {second:x?}",
                    record.x,
                    record.y
                );
                called += 1;
            }
        }
    }
    assert_eq!(called, 8029);
}
