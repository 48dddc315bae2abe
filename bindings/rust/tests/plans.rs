//! Samples and plans.
mod common;

use bilqarush::*;
use common::*;
use std::ops::Bound::Unbounded;

fn everything() -> Vec<u8> {
    range(Unbounded, Unbounded)
}

/// Blocks of 10, 20, 30 and 40 bytes, if the data end at 100.
fn blocks() -> Vec<u8> {
    placed_index(&[(0, "a"), (10, "c"), (30, "e"), (60, "g")])
}

fn sampled(most: usize, data_end: u64, index: &[u8], range: &[u8]) -> Result<Vec<u8>, u8> {
    lend(ANCHORS_LEN, |out| {
        sample_anchors(most, data_end, index, range, out)
    })
}

fn selected(parts: usize, least: u64, anchors: &[u8]) -> Result<Vec<u8>, u8> {
    lend(PLAN_LEN, |out| {
        select_boundaries(parts, least, anchors, out)
    })
}

fn planned(parts: usize, image: &[u8], indexes: &[u8]) -> Result<Vec<u8>, u8> {
    lend(PLAN_LEN, |out| {
        plan_subcompaction_ranges(parts, image, indexes, out)
    })
}

#[test]
fn a_block_runs_to_the_next_and_the_last_to_the_end() {
    let each = anchors(&[("a", 10), ("c", 20), ("e", 30), ("g", 40)]);
    for most in [4, 5, 128, 4096] {
        assert_eq!(
            sampled(most, 100, &blocks(), &everything()),
            Ok(each.clone())
        );
    }
    let nothing = index(&[]);
    assert_eq!(sampled(1, 100, &nothing, &everything()), Ok(anchors(&[])));
}

#[test]
fn blocks_go_in_groups() {
    let two = anchors(&[("a", 30), ("e", 70)]);
    assert_eq!(sampled(2, 100, &blocks(), &everything()), Ok(two.clone()));
    // Three groups of one size are not to be had of four blocks.
    assert_eq!(sampled(3, 100, &blocks(), &everything()), Ok(two));
    let one = anchors(&[("a", 100)]);
    assert_eq!(sampled(1, 100, &blocks(), &everything()), Ok(one.clone()));
    assert_eq!(sampled(0, 100, &blocks(), &everything()), Ok(one));
}

#[test]
fn an_anchor_counts_by_its_key() {
    let some = range(included("b"), excluded("g"));
    let shown = anchors(&[("c", 20), ("e", 30)]);
    assert_eq!(sampled(4, 100, &blocks(), &some), Ok(shown));
    // Of a group all or nothing.
    assert_eq!(sampled(2, 100, &blocks(), &some), Ok(anchors(&[("e", 70)])));
    let empty = range(Unbounded, excluded(""));
    assert_eq!(sampled(2, 100, &blocks(), &empty), Ok(anchors(&[])));
}

#[test]
fn where_offsets_fall_there_are_no_bytes() {
    let falls = placed_index(&[(50, "a"), (20, "b"), (u64::MAX, "c")]);
    let due = anchors(&[("a", 0), ("b", u64::MAX - 20), ("c", 0)]);
    assert_eq!(sampled(3, 7, &falls, &everything()), Ok(due));
    let ends = anchors(&[("a", 0), ("b", u64::MAX - 20), ("c", 0)]);
    assert_eq!(sampled(3, u64::MAX, &falls, &everything()), Ok(ends));
}

#[test]
fn stops_of_a_sample() {
    let (good, whole) = (blocks(), everything());
    let falls = index(&["b", "a"]);
    let fails = range(included("a"), excluded("a"));
    assert_eq!(sampled(4097, 0, b"", b""), Err(3));
    assert_eq!(sampled(usize::MAX, 0, &good, &whole), Err(3));
    assert_eq!(sampled(4096, 0, b"", b"\x01"), Err(1));
    assert_eq!(sampled(4096, 0, &good, b"\x01"), Err(2));
    assert_eq!(sampled(1, 0, &falls, &fails), Err(4));
    assert_eq!(sampled(1, 0, &falls, &whole), Err(6));
    assert_eq!(sampled(1, 0, &[0; 65_537], &whole), Err(3));
    let room = anchors(&[("a", 100)]).len();
    assert!(lend(room, |out| sample_anchors(1, 100, &good, &whole, out)).is_ok());
    assert_eq!(
        lend(room - 1, |out| sample_anchors(1, 100, &good, &whole, out)),
        Err(16)
    );
}

#[test]
fn the_edges_of_the_papers() {
    let four = anchors(&[("a", 10), ("b", 10), ("c", 10), ("d", 10)]);
    assert_eq!(selected(2, 0, &four), Ok(plan(&["c"])));
    assert_eq!(selected(4, 40, &four), Ok(plan(&[])));
    assert_eq!(selected(4, 0, &four), Ok(plan(&["b", "c", "d"])));
    assert_eq!(selected(1, 0, &four), Ok(plan(&[])));
    assert_eq!(selected(0, 0, &four), Ok(plan(&[])));
    assert_eq!(selected(64, 0, &anchors(&[])), Ok(plan(&[])));
}

#[test]
fn equal_keys_keep_their_order() {
    let first = anchors(&[("a", 5), ("b", 30), ("b", 10), ("c", 5)]);
    let other = anchors(&[("a", 5), ("b", 10), ("b", 30), ("c", 5)]);
    assert_eq!(selected(2, 0, &first), Ok(plan(&["b"])));
    assert_eq!(selected(2, 0, &other), Ok(plan(&["c"])));
    let backwards = anchors(&[("c", 5), ("b", 30), ("b", 10), ("a", 5)]);
    assert_eq!(selected(2, 0, &backwards), Ok(plan(&["b"])));
}

#[test]
fn a_boundary_is_above_the_smallest_key_and_the_one_before() {
    let one_key = anchors(&[("k", 7), ("k", 7), ("k", 7)]);
    assert_eq!(selected(3, 0, &one_key), Ok(plan(&[])));
    let stacked = anchors(&[("a", 50), ("a", 50), ("b", 1), ("b", 1), ("c", 1)]);
    assert_eq!(selected(4, 0, &stacked), Ok(plan(&["b", "c"])));
}

#[test]
fn the_threshold_grows_by_the_target() {
    // 30 in three parts: 18 were reached at b, and at c 19 are fewer than 20.
    let over = anchors(&[("a", 18), ("b", 1), ("c", 1), ("d", 10)]);
    assert_eq!(selected(3, 0, &over), Ok(plan(&["b", "d"])));
    // The bytes before a key count, and not its own.
    let own = anchors(&[("a", 9), ("b", 10), ("c", 1)]);
    assert_eq!(selected(2, 0, &own), Ok(plan(&["c"])));
}

#[test]
fn totals_are_exact() {
    let most = 1 << 63;
    for parts in [0, 1, 2, 64] {
        let over = anchors(&[("a", most - 1), ("b", 1)]);
        assert_eq!(selected(parts, 0, &over), Err(7));
        let wraps = anchors(&[("a", u64::MAX), ("b", 2)]);
        assert_eq!(selected(parts, 0, &wraps), Err(7));
        let just = anchors(&[("a", most - 2), ("b", 1)]);
        assert!(selected(parts, u64::MAX, &just).is_ok());
    }
    let just = anchors(&[("a", most - 2), ("b", 1)]);
    assert_eq!(selected(2, most - 2, &just), Ok(plan(&["b"])));
    assert_eq!(selected(2, most - 1, &just), Ok(plan(&[])));
}

#[test]
fn stops_of_anchors() {
    assert_eq!(selected(65, 0, b""), Err(3));
    assert_eq!(selected(64, 0, b""), Err(1));
    assert_eq!(selected(2, 0, &4097u16.to_be_bytes()), Err(3));
    assert_eq!(selected(2, 0, &4096u16.to_be_bytes()), Err(1));
    assert_eq!(selected(2, 0, b"\0\x01\x04\x01"), Err(3));
    assert_eq!(selected(2, 0, &[anchors(&[]), vec![0]].concat()), Err(1));
}

/// 64 keys, the first of them empty, the others of 1,024 bytes.
fn long_keys() -> Vec<String> {
    let key = |place: u8| format!("{}{}", "k".repeat(1023), char::from(b'0' + place));
    let mut keys = vec![String::new()];
    keys.extend((0..63).map(key));
    keys
}

#[test]
fn the_longest_plan() {
    let keys = long_keys();
    let list: Vec<(&str, u64)> = keys.iter().map(|key| (&key[..], 10)).collect();
    let boundaries: Vec<&str> = keys[1..].iter().map(|key| &key[..]).collect();
    let due = plan(&boundaries);
    assert_eq!(due.len(), PLAN_LEN);
    let given = anchors(&list);
    assert_eq!(selected(64, 0, &given), Ok(due));
    assert_eq!(
        lend(PLAN_LEN - 1, |out| select_boundaries(64, 0, &given, out)),
        Err(16)
    );
}

/// A view of a table with a raw size of 7, whose data end at 100.
fn light_view(id: u128, first: &str, visible: Option<Vec<u8>>) -> Vec<u8> {
    let table = ended_table(id, first, None, [3, 4], 100);
    match visible {
        None => whole_view(id, table),
        Some(range) => cut_view(id, table, range),
    }
}

#[test]
fn the_anchors_of_all_views_are_planned() {
    let views = [light_view(1, "a", None), light_view(2, "a", None)];
    let one_run = image(&[run(7, &views)]);
    let two_runs = image(&[run(7, &views[..1]), run(8, &views[1..])]);
    let indexes = [blocks(), blocks()].concat();
    // a 10, a 10, c 20, c 20, e 30, e 30, g 40, g 40: 90 are reached at the second e, 120 at g.
    for image in [one_run, two_runs] {
        assert_eq!(planned(2, &image, &indexes), Ok(plan(&["g"])));
        assert_eq!(planned(1, &image, &indexes), Ok(plan(&[])));
        assert_eq!(planned(64, &image, &indexes), Ok(plan(&["c", "e", "g"])));
    }
}

#[test]
fn what_a_view_does_not_show_is_not_planned() {
    let shown = range(Unbounded, excluded("g"));
    let image = image(&[run(7, &[light_view(1, "a", Some(shown))])]);
    // a 10, c 20, e 30.
    assert_eq!(planned(2, &image, &blocks()), Ok(plan(&["e"])));
    assert_eq!(planned(64, &image, &blocks()), Ok(plan(&["c", "e"])));
}

#[test]
fn the_least_range_is_the_largest_raw_size() {
    let sized = |index| whole_view(1, ended_table(1, "a", None, index, 100));
    let of = |index| image(&[run(7, &[sized(index), sized([0, 0])])]);
    let indexes = [blocks(), index(&[])].concat();
    assert_eq!(planned(4, &of([9, 21]), &indexes), Ok(plan(&["e", "g"])));
    assert_eq!(planned(4, &of([60, 0]), &indexes), Ok(plan(&["g"])));
    assert_eq!(planned(4, &of([60, 39]), &indexes), Ok(plan(&[])));
    assert_eq!(planned(4, &of([60, 40]), &indexes), Ok(plan(&[])));
}

#[test]
fn an_image_without_views_has_no_indexes() {
    for image in [image(&[]), image(&[run(7, &[])])] {
        assert_eq!(planned(8, &image, &[]), Ok(plan(&[])));
        assert_eq!(planned(8, &image, &[0]), Err(1));
        assert_eq!(planned(65, &image, &[0]), Err(3));
    }
}

#[test]
fn stops_of_a_plan() {
    let views = [light_view(1, "a", None), light_view(2, "b", None)];
    let good = image(&[run(7, &views)]);
    let fits = [blocks(), blocks()].concat();
    assert_eq!(planned(2, &good, &blocks()), Err(1));
    assert_eq!(planned(2, &good, &[&fits[..], &[0]].concat()), Err(1));
    assert_eq!(planned(2, b"\x01", &[0; 65_537]), Err(1));
    assert_eq!(planned(2, &good, &[0; 65_537]), Err(3));
    let falls = [blocks(), index(&["b", "a"])].concat();
    assert_eq!(planned(1, &good, &falls), Err(6));
    let descends = image(&[run(
        7,
        &[light_view(1, "b", None), light_view(2, "a", None)],
    )]);
    assert_eq!(planned(1, &descends, &fits), Err(6));
    let excluded_start = range(excluded("b"), Unbounded);
    let cut = image(&[run(7, &[light_view(1, "a", Some(excluded_start))])]);
    assert_eq!(planned(1, &cut, &index(&["b", "a"])), Err(5));
    // 2^63 - 1 is shown of one view, and 1 of the other.
    let heavy = placed_index(&[(0, "c"), ((1 << 63) - 1, "d")]);
    let one = placed_index(&[(99, "c")]);
    assert_eq!(planned(1, &good, &[heavy, one].concat()), Err(7));
}

#[test]
fn over_4096_anchors_are_stop_15() {
    let names: Vec<String> = (0..128).map(|place| format!("k{place:03}")).collect();
    let blocks: Vec<(u64, &str)> = (0..).zip(names.iter().map(|name| &name[..])).collect();
    let full = placed_index(&blocks);
    let views: Vec<Vec<u8>> = (0..33).map(|id| light_view(id, "k", None)).collect();
    let indexes = |last: &str| [full.repeat(32), placed_index(&[(0, last)])].concat();
    assert_eq!(
        planned(1, &image(&[run(7, &views)]), &indexes("k")),
        Err(15)
    );
    // What is not shown does not count.
    assert_eq!(
        planned(1, &image(&[run(7, &views)]), &indexes("a")),
        Ok(plan(&[]))
    );
    assert!(planned(64, &image(&[run(7, &views[..32])]), &full.repeat(32)).is_ok());
}
