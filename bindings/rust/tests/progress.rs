//! Durable intervals, and what they leave of ranges.
mod common;

use bilqarush::*;
use common::*;
use std::ops::Bound::Unbounded;

fn durable(parts: &[Vec<u8>]) -> Result<Vec<u8>, u8> {
    of_job(&job(7, &[7], parts))
}

fn of_job(job: &[u8]) -> Result<Vec<u8>, u8> {
    lend(DURABLE_LEN, |out| from_compaction(job, out))
}

fn left(interval: &[u8], range: &[u8]) -> Result<Vec<u8>, u8> {
    lend(LEFT_LEN, |out| subtract_from(interval, range, out))
}

/// A count and these ranges.
fn ranges(list: &[&[u8]]) -> Vec<u8> {
    [vec![list.len() as u8], list.concat()].concat()
}

#[test]
fn a_completed_part_is_its_planned_range() {
    let planned = [
        range(Unbounded, excluded("c")),
        range(included("c"), excluded("g")),
        range(included("k"), Unbounded),
    ];
    let parts = planned.each_ref().map(|of| part(of.clone(), true, &[]));
    let all = planned.each_ref().map(|of| &of[..]);
    assert_eq!(durable(&parts), Ok(ranges(&all)));
    assert_eq!(durable(&[]), Ok(vec![0]));
}

#[test]
fn an_unfinished_part_ends_before_its_last_written_key() {
    let planned = range(included("c"), excluded("g"));
    let of = |outputs: &[Vec<u8>]| durable(&[part(planned.clone(), false, outputs)]);
    assert_eq!(of(&[]), Ok(vec![0]));
    // The last key is the start.
    assert_eq!(of(&[table(1, "c", "c")]), Ok(vec![0]));
    let to_f = range(included("c"), excluded("f"));
    let outputs = [table(1, "c", "d"), table(2, "d", "f")];
    assert_eq!(of(&outputs), Ok(ranges(&[&to_f])));
    let next = range(included("c"), excluded("c\0"));
    assert_eq!(of(&[table(1, "c", "c\0")]), Ok(ranges(&[&next])));
    // An unbounded start is no key, not even the empty one.
    let empty = range(Unbounded, excluded(""));
    let open = part(range(Unbounded, Unbounded), false, &[table(1, "", "")]);
    assert_eq!(durable(&[open]), Ok(ranges(&[&empty])));
}

#[test]
fn what_a_commit_takes_out() {
    let parts = [
        part(range(included("b"), excluded("c")), true, &[]),
        part(range(included("c"), Unbounded), false, &[]),
    ];
    let intervals = durable(&parts).unwrap();
    assert_eq!(intervals[0], 1);
    // Table 1 of the example is from a to c.
    let rest = left(&intervals[1..], &range(included("a"), included("c"))).unwrap();
    let mut room = [0; IMAGE_LEN];
    let job = job(7, &[7], &parts);
    let image = commit(&example(), &job, &[5; 20], &mut room).unwrap();
    let shown = [
        range(included("a"), excluded("b")),
        range(included("c"), included("c")),
    ];
    assert_eq!(rest, ranges(&shown.each_ref().map(|of| &of[..])));
    for of in shown {
        assert!(image.windows(of.len()).any(|window| window == of));
    }
}

#[test]
fn stops_of_a_job() {
    let planned = || range(included("c"), excluded("g"));
    let one = |of: Vec<u8>, outputs: &[Vec<u8>]| durable(&[part(of, true, outputs)]);
    assert_eq!(of_job(b""), Err(1));
    assert_eq!(of_job(&[0; 65_537]), Err(3));
    assert_eq!(of_job(&[0; 65_536]), Err(1));
    assert_eq!(one(vec![1], &[]), Err(2));
    assert_eq!(one(range(included("c"), excluded("c")), &[]), Err(4));
    assert_eq!(one(planned(), &[table(1, "d", "c")]), Err(5));
    let large = sized_table(1, "c", Some("d"), [1 << 53, 1]);
    assert_eq!(one(planned(), &[large]), Err(7));
    assert_eq!(of_job(&job(7, &[8, 9], &[])), Err(8));
    assert_eq!(one(range(excluded("c"), Unbounded), &[]), Err(10));
    assert_eq!(one(range(Unbounded, included("c")), &[]), Err(10));
    let twice = [part(planned(), true, &[]), part(planned(), true, &[])];
    assert_eq!(durable(&twice), Err(10));
    assert_eq!(one(planned(), &[open_table(1, "c")]), Err(11));
    assert_eq!(one(planned(), &[table(1, "c", "g")]), Err(11));
    assert_eq!(
        one(planned(), &[table(1, "c", "e"), table(2, "d", "f")]),
        Err(11)
    );
    let good = job(7, &[7], &[part(planned(), true, &[])]);
    assert!(lend(8, |out| from_compaction(&good, out)).is_ok());
    assert_eq!(lend(7, |out| from_compaction(&good, out)), Err(16));
}

#[test]
fn as_many_bytes_as_the_job_has_are_enough() {
    // 31 ranges with two keys of 1,024 bytes.
    let key = |number: u8| format!("{}{}", "k".repeat(1023), char::from(number));
    let parts: Vec<Vec<u8>> = (0..31)
        .map(|place| {
            let (start, end) = (key(48 + 2 * place), key(49 + 2 * place));
            part(range(included(&start), excluded(&end)), true, &[])
        })
        .collect();
    let job = job(7, &[7], &parts);
    let intervals = of_job(&job).unwrap();
    assert_eq!(intervals.len(), 1 + 31 * 2053);
    assert!(lend(job.len(), |out| from_compaction(&job, out)).is_ok());
}

#[test]
fn the_edges_of_the_papers() {
    let interval = range(included("c"), excluded("f"));
    let (low, high) = (
        range(included("a"), excluded("c")),
        range(included("f"), included("z")),
    );
    let wide = range(included("a"), included("z"));
    assert_eq!(left(&interval, &wide), Ok(ranges(&[&low, &high])));
    let point = range(included("f"), included("f"));
    let both = range(included("c"), included("f"));
    assert_eq!(left(&interval, &both), Ok(ranges(&[&point])));
}

#[test]
fn an_unbounded_side_leaves_nothing_there() {
    let whole = range(Unbounded, Unbounded);
    let (to_f, from_c) = (
        range(Unbounded, excluded("f")),
        range(included("c"), Unbounded),
    );
    let (from_f, to_c) = (
        range(included("f"), Unbounded),
        range(Unbounded, excluded("c")),
    );
    assert_eq!(left(&to_f, &whole), Ok(ranges(&[&from_f])));
    assert_eq!(left(&from_c, &whole), Ok(ranges(&[&to_c])));
    assert_eq!(left(&whole, &whole), Ok(vec![0]));
    // What passes and holds no key: below the empty key.
    let below = range(Unbounded, excluded(""));
    assert_eq!(
        left(&range(included(""), Unbounded), &whole),
        Ok(ranges(&[&below]))
    );
    let from_empty = range(included(""), Unbounded);
    assert_eq!(left(&below, &whole), Ok(ranges(&[&from_empty])));
}

#[test]
fn ranges_that_touch_the_interval() {
    let interval = range(included("c"), excluded("f"));
    for whole in [
        range(included("a"), excluded("c")),
        range(included("f"), included("z")),
        range(excluded("f"), Unbounded),
        range(excluded("a"), excluded("a\0")),
    ] {
        assert_eq!(left(&interval, &whole), Ok(ranges(&[&whole])));
    }
    for inside in [
        range(included("c"), included("e")),
        range(excluded("c"), excluded("c\0")),
        interval.clone(),
    ] {
        assert_eq!(left(&interval, &inside), Ok(vec![0]));
    }
    // Up to c, with it.
    let below = range(included("a"), excluded("c"));
    assert_eq!(
        left(&interval, &range(included("a"), included("c"))),
        Ok(ranges(&[&below]))
    );
}

#[test]
fn stops_of_an_interval() {
    let good = range(included("c"), excluded("f"));
    let fails = range(included("f"), excluded("c"));
    let starts = range(excluded("c"), Unbounded);
    let ends = range(Unbounded, included("c"));
    assert_eq!(left(b"", b"\x01"), Err(1));
    assert_eq!(left(&good, b"\x01"), Err(2));
    assert_eq!(left(&[0; 65_537], b""), Err(3));
    assert_eq!(left(&good, &[0; 65_537]), Err(3));
    assert_eq!(left(&fails, &good), Err(4));
    assert_eq!(left(&starts, &fails), Err(4));
    assert_eq!(left(&starts, &good), Err(10));
    assert_eq!(left(&ends, &good), Err(10));
    // The range may be of any kinds.
    assert_eq!(
        left(&good, &starts),
        Ok(ranges(&[&range(included("f"), Unbounded)]))
    );
    assert_eq!(lend(0, |out| subtract_from(&good, &good, out)), Err(16));
}

#[test]
fn the_longest_that_is_left() {
    let key = |first: u8| format!("{}{}", char::from(first), "k".repeat(1023));
    let interval = range(included(&key(b'c')), excluded(&key(b'f')));
    let wide = range(included(&key(b'a')), included(&key(b'z')));
    let answer = left(&interval, &wide).unwrap();
    assert_eq!(answer.len(), LEFT_LEN);
    assert_eq!(
        lend(LEFT_LEN - 1, |out| subtract_from(&interval, &wide, out)),
        Err(16)
    );
}
