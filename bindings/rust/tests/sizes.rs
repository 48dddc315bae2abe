//! Visible fractions and visible sizes.
mod common;

use bilqarush::VisibleFraction::{Part, Whole};
use bilqarush::*;
use common::*;
use std::ops::Bound::{self, Unbounded};

/// An image of one run of one view.
fn of_view(view: Vec<u8>) -> Vec<u8> {
    image(&[run(7, &[view])])
}

/// A table from one key to another, of which a range is visible.
fn cut(first: &str, last: &str, start: Bound<&[u8]>, end: Bound<&[u8]>) -> Vec<u8> {
    of_view(cut_view(1, table(1, first, last), range(start, end)))
}

/// How much of such a table is visible.
fn fraction(first: &str, last: &str, start: Bound<&[u8]>, end: Bound<&[u8]>) -> VisibleFraction {
    visible_fraction(&cut(first, last, start, end), 0, 0).unwrap()
}

/// Each call, stops alone.
fn stops(image: &[u8], run: usize, view: usize) -> [Option<u8>; 3] {
    [
        visible_fraction(image, run, view).err(),
        estimate_visible_size(image, run, view).err(),
        estimate_run_visible_size(image, run).err(),
    ]
    .map(|stop| stop.map(Stop::number))
}

/// Bytes that are no image, with their stops; with each of the checks 4 to 6 the one after it fails too.
fn refused_images() -> Vec<(Vec<u8>, u8)> {
    let good = example();
    let mut padded = good.clone();
    padded[6] |= 1;
    let two = |first: Vec<u8>| image(&[run(7, &[first, whole_view(2, open_table(2, "A"))])]);
    let too_large = sized_table(1, "a", Some("c"), [1 << 53, 1]);
    vec![
        (vec![], 1),
        (good[..good.len() - 1].to_vec(), 1),
        ([&good[..], &[0]].concat(), 1),
        (padded, 2),
        (vec![65], 3),
        (key_of(0, 65_537), 3),
        (cut("d", "c", included("d"), excluded("d")), 4),
        (two(whole_view(1, table(1, "c", "b"))), 5),
        (two(whole_view(1, too_large.clone())), 6),
        (of_view(whole_view(1, too_large)), 7),
    ]
}

#[test]
fn each_stop_of_an_image() {
    for (image, stop) in refused_images() {
        assert_eq!(stops(&image, 0, 0), [Some(stop); 3]);
        assert_eq!(stops(&image, 9, 9), [Some(stop); 3]);
    }
}

#[test]
fn places_that_are_not_there() {
    let image = example();
    for run in [1, 2, 1 << 32, usize::MAX] {
        assert_eq!(stops(&image, run, 0), [Some(9); 3]);
    }
    for view in [2, 3, 1 << 32, usize::MAX] {
        assert_eq!(stops(&image, 0, view), [Some(9), Some(9), None]);
    }
    assert_eq!(stops(&image, 0, 1), [None; 3]);
    assert_eq!(stops(&[0], 0, 0), [Some(9); 3]);
}

// ---- fractions

#[test]
fn what_is_whole() {
    // No visible range; no last key, with a visible range and without.
    let image = example();
    assert_eq!(visible_fraction(&image, 0, 0), Ok(Whole));
    assert_eq!(visible_fraction(&image, 0, 1), Ok(Whole));
    let open = cut_view(1, open_table(1, "a"), range(included("b"), excluded("c")));
    assert_eq!(visible_fraction(&of_view(open), 0, 0), Ok(Whole));
    // All of the table is visible.
    assert_eq!(fraction("a", "z", Unbounded, Unbounded), Whole);
    assert_eq!(fraction("a", "z", included("a"), included("z")), Whole);
    assert_eq!(fraction("b", "y", included("a"), excluded("z")), Whole);
    // One key is, or two that differ after eight bytes.
    assert_eq!(fraction("a", "z", included("b"), included("b")), Whole);
    let ninth = included("b12345678");
    assert_eq!(fraction("a", "z", included("b1234567"), ninth), Whole);
}

#[test]
fn what_is_a_part() {
    assert_eq!(fraction("\0", "@", Unbounded, excluded(" ")), Part(0.5));
    // 3 of 25; behind a common prefix too.
    assert_eq!(fraction("a", "z", included("b"), excluded("e")), Part(0.12));
    let [from, to] = [included("lamp/b"), included("lamp/e")];
    assert_eq!(fraction("lamp/a", "lamp/z", from, to), Part(0.12));
    // The last key alone is hidden: all of the length.
    assert_eq!(fraction("a", "z", Unbounded, excluded("z")), Part(1.0));
}

#[test]
fn the_least_part() {
    let [from, to] = [included("b"), included("b\0\0\x01")];
    assert_eq!(fraction("a", "z", from, to), Part(1e-6));
    let [from, to] = [included("b"), included("b\x01")];
    assert_eq!(fraction("a", "z", from, to), Part(1.0 / 256.0 / 25.0));
}

#[test]
fn bytes_after_the_common_prefix() {
    // The eighth byte counts, the ninth does not. The own range is shorter than 2^-52.
    let (eighth, ninth) = ("k\0\0\0\0\0\0\0\x01", "k\0\0\0\0\0\0\0\0\x01");
    let to = excluded(eighth);
    assert_eq!(fraction("k", eighth, Unbounded, to), Part(1.0 / 4096.0));
    assert_eq!(fraction("k", ninth, Unbounded, excluded(ninth)), Whole);
    // A first key that is all common prefix counts as 0.
    assert_eq!(fraction("k", "k@", Unbounded, excluded("k ")), Part(0.5));
}

#[test]
fn parts_bit_by_bit() {
    let bits = |first, last, start, end| match fraction(first, last, start, end) {
        Part(part) => part.to_bits(),
        Whole => 0,
    };
    assert_eq!(
        bits("\0", "@", Unbounded, excluded(" ")),
        0x3FE0_0000_0000_0000
    );
    // 1 of 3, and 2 of 3.
    assert_eq!(
        bits("a", "d", Unbounded, excluded("b")),
        0x3FD5_5555_5555_5555
    );
    assert_eq!(
        bits("a", "d", included("b"), Unbounded),
        0x3FE5_5555_5555_5555
    );
}

// ---- sizes

/// The size of a view of a table from 00 to 40 with an index at an offset and of a length.
fn size(index: [u64; 2], visible: Option<Vec<u8>>) -> u64 {
    let table = sized_table(1, "\0", Some("@"), index);
    let view = match visible {
        None => whole_view(1, table),
        Some(visible) => cut_view(1, table, visible),
    };
    estimate_visible_size(&of_view(view), 0, 0).unwrap()
}

#[test]
fn sizes_without_a_visible_range() {
    for index in [[0, 0], [3, 2], [0, 1 << 53], [1 << 53, 0]] {
        assert_eq!(size(index, None), index[0] + index[1]);
    }
}

#[test]
fn sizes_of_what_is_whole() {
    let whole = || Some(range(Unbounded, Unbounded));
    assert_eq!(size([3, 2], whole()), 5);
    assert_eq!(size([1 << 53, 0], whole()), 1 << 53);
    // 1 at least.
    assert_eq!(size([0, 0], whole()), 1);
}

#[test]
fn sizes_of_a_half() {
    let half = || Some(range(Unbounded, excluded(" ")));
    // A half goes up.
    for (raw, size_of_half) in [(1, 1), (2, 1), (3, 2), (4, 2), (5, 3), (7, 4)] {
        assert_eq!(size([raw, 0], half()), size_of_half);
    }
    assert_eq!(size([3, 2], half()), 3);
    assert_eq!(size([0, 0], half()), 1);
    assert_eq!(size([(1 << 53) - 1, 0], half()), 1 << 52);
    assert_eq!(size([1 << 52, 1 << 52], half()), 1 << 52);
}

#[test]
fn sizes_of_the_least_part() {
    let least = || Some(range(Unbounded, excluded("\0\0\0\x01")));
    assert_eq!(size([0, 499_999], least()), 1);
    assert_eq!(size([0, 1_499_999], least()), 1);
    assert_eq!(size([0, 1_500_001], least()), 2);
}

#[test]
fn sizes_of_runs() {
    let sized = |id, size| sized_table(id, "\0", Some("@"), [size, 0]);
    let half = || range(Unbounded, excluded(" "));
    let views = [
        cut_view(1, sized(1, 5), half()),
        whole_view(2, sized(2, 100)),
        cut_view(3, sized(3, 0), half()),
    ];
    let image = image(&[run(5, &[]), run(7, &views)]);
    assert_eq!(estimate_run_visible_size(&image, 0), Ok(0));
    assert_eq!(estimate_run_visible_size(&image, 1), Ok(3 + 100 + 1));
}

#[test]
fn a_run_of_1024_views_of_the_largest_size() {
    let view = whole_view(1, sized_table(1, "", None, [1 << 53, 0]));
    let image = image(&[run(7, &vec![view; 1024])]);
    assert_eq!(estimate_run_visible_size(&image, 0), Ok(1 << 63));
}
