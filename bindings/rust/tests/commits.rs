//! Commits. Run 7 is the destination and a source, run 9 the other source.
mod common;

use bilqarush::*;
use common::*;
use std::ops::Bound::Unbounded;

/// Supply for six ids.
const IDS: &[u8] = b"0123456789abcdefghijABCDEFGHIJklmnopqrstKLMNOPQRSTuvwxyzUVWX";

/// The n-th id of the supply, of the time 0.
fn drawn(n: usize) -> u128 {
    let digits = &IDS[10 * n..][..10];
    digits
        .iter()
        .fold(0, |id, &byte| id << 8 | u128::from(byte))
}

/// Run 7 with the old table 1 from a to z, and run 9 with table 2 from c to x.
fn two_runs() -> Vec<u8> {
    image(&[
        run(7, &[whole_view(1, table(1, "a", "z"))]),
        run(9, &[whole_view(2, table(2, "c", "x"))]),
    ])
}

fn up_to_m() -> Vec<u8> {
    range(Unbounded, excluded("m"))
}

fn from_m() -> Vec<u8> {
    range(included("m"), Unbounded)
}

/// Both parts are unfinished: h and p were written last.
fn half_way() -> Vec<u8> {
    let first = [table(0x11, "a", "e"), table(0x12, "f", "h")];
    let second = [table(0x21, "m", "p")];
    job(
        7,
        &[7, 9],
        &[
            part(up_to_m(), false, &first),
            part(from_m(), false, &second),
        ],
    )
}

/// Both parts are completed.
fn completed() -> Vec<u8> {
    let first = [
        table(0x11, "a", "e"),
        table(0x12, "f", "h"),
        table(0x13, "h", "l"),
    ];
    let second = [table(0x21, "m", "p"), table(0x22, "q", "y")];
    job(
        7,
        &[7, 9],
        &[part(up_to_m(), true, &first), part(from_m(), true, &second)],
    )
}

fn committed(image: &[u8], job: &[u8], ids: &[u8]) -> Result<Vec<u8>, u8> {
    lend(IMAGE_LEN, |out| commit(image, job, ids, out))
}

fn listed(image: &[u8]) -> String {
    let listing = lend(LISTING_LEN, |out| list(image, out)).unwrap();
    String::from_utf8(listing).unwrap()
}

/// The image after `half_way`. Cut outputs draw first, then the pieces of run 7, then those of run 9.
fn after_half_way() -> Vec<u8> {
    let cut = |n, table, start, end| cut_view(drawn(n), table, range(start, end));
    let old = || table(1, "a", "z");
    let other = || table(2, "c", "x");
    image(&[
        run(
            7,
            &[
                whole_view(0x11, table(0x11, "a", "e")),
                cut(0, table(0x12, "f", "h"), Unbounded, excluded("h")),
                cut(2, old(), included("h"), excluded("m")),
                cut(1, table(0x21, "m", "p"), included("m"), excluded("p")),
                cut(3, old(), included("p"), included("z")),
            ],
        ),
        run(
            9,
            &[
                cut(4, other(), included("h"), excluded("m")),
                cut(5, other(), included("p"), included("x")),
            ],
        ),
    ])
}

#[test]
fn a_half_finished_compaction_is_committed() {
    let new = committed(&two_runs(), &half_way(), IDS).unwrap();
    assert_eq!(new, after_half_way());
    assert_eq!(check_image(&new), Ok(()));
}

#[test]
fn the_last_written_key_is_still_shown_by_the_old_table() {
    let new = committed(&two_runs(), &half_way(), IDS).unwrap();
    let lines = "run view table start end\n\
                 7 0 00000000000000000000000000000011 [61 65]\n\
                 7 1 00000000000000000000000000000012 [66 68)\n\
                 7 2 00000000000000000000000000000001 [68 6d)\n\
                 7 3 00000000000000000000000000000021 [6d 70)\n\
                 7 4 00000000000000000000000000000001 [70 7a]\n\
                 9 0 00000000000000000000000000000002 [68 6d)\n\
                 9 1 00000000000000000000000000000002 [70 78]\n";
    assert_eq!(listed(&new), lines);
    // Key h, by the calls on ranges.
    let holds_h = |view| {
        let effective = compacted_effective_range(&new, 0, view).unwrap();
        contains(&range(effective.start, effective.end), b"h").unwrap()
    };
    assert_eq!(
        [0, 1, 2, 3, 4].map(holds_h),
        [false, false, true, false, false]
    );
}

#[test]
fn a_later_record_is_committed_on_the_new_image() {
    let half = committed(&two_runs(), &half_way(), IDS).unwrap();
    // Nothing is cut any more, so no id is drawn.
    let all = committed(&half, &completed(), &[]).unwrap();
    assert_eq!(all, committed(&two_runs(), &completed(), &[]).unwrap());
    let lines = "run view table start end\n\
                 7 0 00000000000000000000000000000011 [61 65]\n\
                 7 1 00000000000000000000000000000012 [66 68]\n\
                 7 2 00000000000000000000000000000013 [68 6c]\n\
                 7 3 00000000000000000000000000000021 [6d 70]\n\
                 7 4 00000000000000000000000000000022 [71 79]\n";
    assert_eq!(listed(&all), lines);
}

#[test]
fn an_unfinished_part_whose_last_key_is_its_start_has_no_interval() {
    let outputs = [table(0x21, "m", "m")];
    let job = job(7, &[7], &[part(from_m(), false, &outputs)]);
    assert_eq!(committed(&two_runs(), &job, &[]), Ok(two_runs()));
}

#[test]
fn a_draw_that_makes_the_old_id_is_made_again() {
    let old = image(&[run(7, &[whole_view(1, table(1, "a", "z"))])]);
    let job = job(7, &[7], &[part(up_to_m(), true, &[])]);
    let old_id = [0, 0, 0, 0, 0, 0, 0, 0, 0, 1];
    let ids = [&old_id[..], &IDS[..10]].concat();
    let view = cut_view(
        drawn(0),
        table(1, "a", "z"),
        range(included("m"), included("z")),
    );
    let new = committed(&old, &job, &ids);
    assert_eq!(new, Ok(image(&[run(7, &[view])])));
    assert_eq!(committed(&old, &job, &ids[..19]), Err(14));
}

#[test]
fn supply_and_buffer_are_just_enough() {
    let room = after_half_way().len();
    let lent = |room, ids| lend(room, |out| commit(&two_runs(), &half_way(), ids, out));
    assert_eq!(lent(room, IDS), Ok(after_half_way()));
    assert_eq!(lent(room - 1, IDS), Err(16));
    assert_eq!(lent(0, IDS), Err(16));
    assert_eq!(lent(room, &IDS[..59]), Err(14));
    assert_eq!(lent(0, &[]), Err(14));
}

/// A job with one part and sources 7.
fn one_part(range: Vec<u8>, completed: bool, outputs: &[Vec<u8>]) -> Vec<u8> {
    job(7, &[7], &[part(range, completed, outputs)])
}

/// Jobs that a commit on `two_runs` refuses, with their stops.
fn refused_jobs() -> Vec<(Vec<u8>, u8)> {
    let whole = || range(Unbounded, Unbounded);
    let good = half_way();
    let with = |table| one_part(whole(), true, &[table]);
    vec![
        (vec![], 1),
        (good[..good.len() - 1].to_vec(), 1),
        ([&good[..], &[0]].concat(), 1),
        (one_part(vec![0x01], true, &[]), 2),
        (b"\0\0\0\x07\x41".to_vec(), 3),
        (key_of(0, 65_537), 3),
        (one_part(range(included("d"), excluded("d")), true, &[]), 4),
        (with(table(0x11, "b", "a")), 5),
        (with(sized_table(0x11, "a", Some("b"), [1 << 53, 1])), 7),
        (job(7, &[9], &[]), 8),
        (job(7, &[], &[]), 8),
        (job(7, &[7, 8], &[]), 9),
        (one_part(range(excluded("a"), Unbounded), true, &[]), 10),
        (one_part(range(Unbounded, included("m")), true, &[]), 10),
        (
            job(
                7,
                &[7],
                &[part(from_m(), true, &[]), part(from_m(), true, &[])],
            ),
            10,
        ),
        (with(open_table(0x11, "a")), 11),
        (one_part(up_to_m(), true, &[table(0x11, "a", "m")]), 11),
        (
            one_part(
                whole(),
                true,
                &[table(0x11, "a", "c"), table(0x12, "b", "d")],
            ),
            11,
        ),
        (one_part(from_m(), false, &[table(1, "m", "m")]), 12),
    ]
}

#[test]
fn each_stop_of_a_job() {
    for (job, stop) in refused_jobs() {
        assert_eq!(committed(&two_runs(), &job, IDS), Err(stop));
        // No supply and no room: these stops come last.
        let lent = lend(0, |out| commit(&two_runs(), &job, &[], out));
        assert_eq!(lent, Err(stop));
    }
}

#[test]
fn stops_of_the_image_in_a_commit() {
    let twice = image(&[run(7, &[]), run(7, &[])]);
    assert_eq!(committed(&twice, &half_way(), IDS), Err(6));
    // The image's fields come before the job's, and 4 to 7 cover both.
    assert_eq!(committed(&[65], &[], IDS), Err(3));
    assert_eq!(committed(&twice, &[], IDS), Err(1));
    let last_below_first = one_part(vec![0], true, &[table(0x11, "b", "a")]);
    assert_eq!(committed(&twice, &last_below_first, IDS), Err(5));
}

#[test]
fn a_result_with_too_many_views() {
    let views = vec![whole_view(1, open_table(1, "")); 1024];
    let full = image(&[run(7, &views)]);
    // Each view is cut in two.
    let job = one_part(range(included("a"), excluded("b")), true, &[]);
    let ids: Vec<u8> = (0..2048 * 10).map(|i| (i % 251) as u8 + 1).collect();
    assert_eq!(committed(&full, &job, &ids), Err(15));
    assert_eq!(committed(&full, &job, &ids[1..]), Err(14));
    assert_eq!(lend(0, |out| commit(&full, &job, &ids, out)), Err(15));
}

fn long(byte: u8) -> String {
    char::from(byte).to_string().repeat(1024)
}

/// Run 7 with some tables of long keys from a to z.
fn wide(tables: u128) -> Vec<u8> {
    let view = |id| whole_view(id, table(id, &long(b'a'), &long(b'z')));
    image(&[run(7, &(1..=tables).map(view).collect::<Vec<_>>())])
}

/// Twelve completed parts without outputs: from b to c, from d to e and so on.
fn twelve_parts() -> Vec<u8> {
    let parts = (b'b'..b'z').step_by(2).map(|byte| {
        let [start, end] = [byte, byte + 1].map(long);
        part(range(included(&start), excluded(&end)), true, &[])
    });
    job(7, &[7], &parts.collect::<Vec<_>>())
}

#[test]
fn a_result_of_too_many_bytes() {
    let ids = [7; 26 * 10];
    // 13 pieces: each has an id, a table, a flag and a range, with four long keys among them.
    let new = committed(&wide(1), &twelve_parts(), &ids).unwrap();
    assert_eq!(new.len(), 7 + 13 * (16 + 41 + 2 + 4 * 1026));
    assert_eq!(committed(&wide(2), &twelve_parts(), &ids), Err(15));
}
