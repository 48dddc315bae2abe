//! Images: their checks, effective ranges and listings.
mod common;

use bilqarush::*;
use common::*;
use std::ops::Bound::{self, Unbounded};

const HEADER: &str = "run view table start end\n";

fn listed(image: &[u8]) -> String {
    let listing = lend(HEADER.len() + 2 * image.len(), |out| list(image, out));
    String::from_utf8(listing.unwrap()).unwrap()
}

/// An image of one run of one view.
fn of_view(view: Vec<u8>) -> Vec<u8> {
    image(&[run(7, &[view])])
}

/// The example with one byte changed.
fn changed(at: usize, byte: u8) -> Vec<u8> {
    let mut image = example();
    image[at] = byte;
    image
}

/// Table 1 from c to m, of which a range is visible.
fn visible(start: Bound<&[u8]>, end: Bound<&[u8]>) -> Vec<u8> {
    of_view(cut_view(1, table(1, "c", "m"), range(start, end)))
}

/// Table 1 from a on, with an index at an offset and of a length.
fn indexed(offset: u64, length: u64) -> Vec<u8> {
    of_view(whole_view(1, sized_table(1, "a", None, [offset, length])))
}

/// Two tables from a to z in run 7, visible from two keys.
fn starts(first: &str, second: &str) -> Vec<u8> {
    let view = |id, start| cut_view(id, table(id, "a", "z"), range(included(start), Unbounded));
    image(&[run(7, &[view(1, first), view(2, second)])])
}

/// Bytes that are no image, with their stops.
fn refused_images() -> Vec<(Vec<u8>, u8)> {
    let example = example();
    vec![
        (vec![], 1),
        (example[..example.len() - 1].to_vec(), 1),
        ([&example[..], &[0]].concat(), 1),
        (vec![64], 1),
        (changed(6, 0x21), 2),
        (changed(0x3F, 0x81), 2),
        (vec![65], 3),
        (b"\x01\0\0\0\x07\x40\x11".to_vec(), 3),
        (changed(0x40, 0x04), 3),
        (key_of(0, 65_537), 3),
        (visible(included("d"), excluded("d")), 4),
        (of_view(whole_view(1, table(1, "b", "a"))), 5),
        (visible(excluded("c"), Unbounded), 5),
        (visible(Unbounded, excluded("c")), 5),
        (starts("d", "c"), 6),
        (image(&[run(7, &[]), run(7, &[])]), 6),
        (indexed(1 << 53, 1), 7),
        (indexed(u64::MAX, u64::MAX), 7),
    ]
}

#[test]
fn images_are_accepted() {
    assert_eq!(check_image(&example()), Ok(()));
    assert_eq!(check_image(&[0]), Ok(()));
    assert_eq!(check_image(&starts("c", "c")), Ok(()));
    assert_eq!(check_image(&indexed(1 << 53, 0)), Ok(()));
    assert_eq!(check_image(&visible(Unbounded, included("c"))), Ok(()));
}

#[test]
fn each_stop_of_an_image() {
    for (image, stop) in refused_images() {
        assert_eq!(refused(check_image(&image)), stop);
        // The place is not there either, and the buffers are too short.
        assert_eq!(refused(compacted_effective_range(&image, 9, 9)), stop);
        assert_eq!(lend(0, |out| list(&image, out)), Err(stop));
        assert_eq!(lend(99, |out| list(&image, out)), Err(stop));
    }
}

#[test]
fn effective_ranges() {
    let image = example();
    let first = compacted_effective_range(&image, 0, 0).unwrap();
    assert_eq!((first.start, first.end), (included("a"), included("c")));
    let second = compacted_effective_range(&image, 0, 1).unwrap();
    assert_eq!((second.start, second.end), (included("d"), Unbounded));
    let cut = visible(Unbounded, excluded("f"));
    let cut = compacted_effective_range(&cut, 0, 0).unwrap();
    assert_eq!((cut.start, cut.end), (included("c"), excluded("f")));
}

#[test]
fn keys_of_an_effective_range_are_parts_of_the_image() {
    let image = example();
    let range = compacted_effective_range(&image, 0, 0).unwrap();
    let Bound::Included(start) = range.start else {
        panic!("{range:?}")
    };
    assert_eq!(start.as_ptr(), image[0x42..].as_ptr());
}

#[test]
fn places_that_are_not_there() {
    let image = example();
    for (run, view) in [(0, 2), (1, 0), (usize::MAX, usize::MAX), (0, usize::MAX)] {
        assert_eq!(refused(compacted_effective_range(&image, run, view)), 9);
    }
    assert_eq!(refused(compacted_effective_range(&[0], 0, 0)), 9);
}

#[test]
fn the_example_is_listed() {
    let lines = "7 0 00000000000000000000000000000001 [61 63]\n\
                 7 1 00000000000000000000000000000002 [64 -\n";
    let listing = format!("{HEADER}{lines}");
    assert_eq!(listed(&example()), listing);
    let room = listing.len();
    let exact = lend(room, |out| list(&example(), out));
    assert_eq!(exact, Ok(listing.into_bytes()));
    assert_eq!(lend(room - 1, |out| list(&example(), out)), Err(16));
}

#[test]
fn other_listings() {
    assert_eq!(listed(&[0]), HEADER);
    assert_eq!(lend(24, |out| list(&[0], out)), Err(16));
    let id = 0xFEDC_BA98_7654_3210_0123_4567_89AB_CDEF;
    let view = cut_view(
        3,
        table(id, "c", "m"),
        range(included("d"), excluded("\u{7f}")),
    );
    let cut = cut_view(4, table(9, "e", "m"), range(Unbounded, excluded("f")));
    let empty_key = whole_view(5, table(8, "", ""));
    let image = image(&[run(u32::MAX, &[view, cut]), run(0, &[empty_key])]);
    let lines = "4294967295 0 fedcba98765432100123456789abcdef [64 6d]\n\
                 4294967295 1 00000000000000000000000000000009 [65 66)\n\
                 0 0 00000000000000000000000000000008 [ ]\n";
    assert_eq!(listed(&image), format!("{HEADER}{lines}"));
}

#[test]
fn a_run_of_1024_views_is_listed() {
    let views = vec![whole_view(1, table(1, "", "")); 1024];
    let image = image(&[run(7, &views)]);
    assert_eq!(check_image(&image), Ok(()));
    let listing = lend(LISTING_LEN, |out| list(&image, out)).unwrap();
    assert_eq!(listing.iter().filter(|&&byte| byte == b'\n').count(), 1025);
}
