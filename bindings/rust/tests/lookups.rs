//! Lookups: partitions in an index, views in an image.
mod common;

use bilqarush::*;
use common::*;
use std::ops::Bound::{self, Unbounded};

// ---- indexes

/// Bytes that are no index, with their stops; those that descend apart.
fn refused_indexes() -> Vec<(Vec<u8>, u8)> {
    let good = index(&["a", "b"]);
    let first = &good[..10];
    let mut many = good.clone();
    many[1] = 3;
    vec![
        (vec![], 1),
        (vec![0], 1),
        (good[..good.len() - 1].to_vec(), 1),
        ([&good[..], &[0]].concat(), 1),
        (many, 1),
        (vec![0xFF; 65_536], 3),
        (vec![0; 65_536], 1),
        (vec![0; 65_537], 3),
        // Key lengths of 1,024 and 1,025, without the bytes.
        ([first, &[4, 0]].concat(), 1),
        ([first, &[4, 1]].concat(), 3),
    ]
}

/// Each lookup of a key in an index, stops alone.
fn lookups(index: &[u8], key: &[u8]) -> [Option<u8>; 5] {
    [
        partition_point(index, Test::Below, key).err(),
        partition_point(index, Test::AtOrBelow, key).err(),
        first_partition_including_key(index, key).err(),
        first_partition_including_or_after_key(index, key).err(),
        last_partition_including_key(index, key).err(),
    ]
    .map(|stop| stop.map(Stop::number))
}

fn covering(index: &[u8], start: Bound<&[u8]>, end: Bound<&[u8]>) -> std::ops::Range<usize> {
    partitions_covering_range(index, &range(start, end)).unwrap()
}

#[test]
fn each_stop_of_an_index() {
    let whole = range(Unbounded, Unbounded);
    for (index, stop) in refused_indexes() {
        assert_eq!(lookups(&index, b"a"), [Some(stop); 5]);
        // The key is too long, and the range is none at all.
        assert_eq!(lookups(&index, &key_of(7, 1025)), [Some(stop); 5]);
        assert_eq!(refused(partitions_covering_range(&index, &whole)), stop);
        assert_eq!(refused(partitions_covering_range(&index, b"\x01")), stop);
    }
}

#[test]
fn stops_in_their_order() {
    let descends = index(&["b", "a"]);
    assert_eq!(lookups(&descends, b"a"), [Some(6); 5]);
    assert_eq!(lookups(&descends, &key_of(7, 1024)), [Some(6); 5]);
    assert_eq!(lookups(&descends, &key_of(7, 1025)), [Some(3); 5]);
    assert_eq!(lookups(&index(&["a", "a"]), &key_of(7, 1025)), [Some(3); 5]);
    let refuses = |range: &[u8]| refused(partitions_covering_range(&descends, range));
    assert_eq!(refuses(b""), 1);
    assert_eq!(refuses(b"\x01"), 2);
    assert_eq!(refuses(b"\x40\x04\x01"), 3);
    assert_eq!(refuses(&range(included("b"), excluded("b"))), 4);
    assert_eq!(refuses(&range(included("b"), included("b"))), 6);
}

#[test]
fn partition_points() {
    let index = index(&["a", "b", "b", "d"]);
    let points = |key: &str| {
        [Test::Below, Test::AtOrBelow]
            .map(|test| partition_point(&index, test, key.as_bytes()).unwrap())
    };
    assert_eq!(points(""), [0, 0]);
    assert_eq!(points("a"), [0, 1]);
    assert_eq!(points("b"), [1, 3]);
    assert_eq!(points("b\0"), [3, 3]);
    assert_eq!(points("d"), [3, 4]);
    assert_eq!(points("e"), [4, 4]);
}

#[test]
fn partitions_of_a_key() {
    let index = index(&["a", "b", "b", "d"]);
    let found = |key: &str| {
        let key = key.as_bytes();
        [
            first_partition_including_key(&index, key).unwrap(),
            Some(first_partition_including_or_after_key(&index, key).unwrap()),
            last_partition_including_key(&index, key).unwrap(),
        ]
    };
    assert_eq!(found(""), [None, Some(0), None]);
    assert_eq!(found("a"), [Some(0); 3]);
    assert_eq!(found("a\0"), [Some(0); 3]);
    assert_eq!(found("b"), [Some(0), Some(0), Some(2)]);
    assert_eq!(found("c"), [Some(2); 3]);
    assert_eq!(found("d"), [Some(2), Some(2), Some(3)]);
    assert_eq!(found("e"), [Some(3); 3]);
}

#[test]
fn the_papers_coverings() {
    let four = index(&["a", "b", "b", "d"]);
    assert_eq!(covering(&four, included("b"), included("b")), 0..3);
    assert_eq!(covering(&four, Unbounded, excluded("b")), 0..2);
    let one = index(&["b"]);
    assert_eq!(covering(&one, included("a"), included("a")), 0..0);
}

#[test]
fn other_coverings() {
    let index = index(&["a", "b", "b", "d"]);
    assert_eq!(covering(&index, Unbounded, Unbounded), 0..4);
    assert_eq!(covering(&index, excluded("b"), excluded("c")), 0..3);
    assert_eq!(covering(&index, included("c"), excluded("d")), 2..3);
    assert_eq!(covering(&index, included("c"), included("d")), 2..4);
    assert_eq!(covering(&index, excluded("d"), Unbounded), 2..4);
    assert_eq!(covering(&index, included("x"), included("y")), 3..4);
    assert_eq!(covering(&index, Unbounded, excluded("a")), 0..0);
    assert_eq!(covering(&index, Unbounded, excluded("")), 0..0);
}

#[test]
fn no_partitions() {
    let none = index(&[]);
    for key in [&b""[..], b"a"] {
        assert_eq!(partition_point(&none, Test::Below, key), Ok(0));
        assert_eq!(partition_point(&none, Test::AtOrBelow, key), Ok(0));
        assert_eq!(first_partition_including_key(&none, key), Ok(None));
        assert_eq!(first_partition_including_or_after_key(&none, key), Ok(0));
        assert_eq!(last_partition_including_key(&none, key), Ok(None));
    }
    assert_eq!(covering(&none, Unbounded, Unbounded), 0..0);
    assert_eq!(covering(&none, included("a"), included("a")), 0..0);
    assert_eq!(covering(&none, excluded("a"), included("b")), 0..0);
}

#[test]
fn an_index_of_65536_bytes() {
    // 6,553 blocks of 10 bytes leave 4, which the last first key takes.
    let mut index = index(&vec![""; 6553]);
    let last = index.len() - 1;
    index[last] = 4;
    index.extend(b"zzzz");
    assert_eq!(index.len(), 65_536);
    assert_eq!(partition_point(&index, Test::AtOrBelow, b""), Ok(6552));
    assert_eq!(
        last_partition_including_key(&index, b"zzzz"),
        Ok(Some(6552))
    );
    index.push(0);
    assert_eq!(refused(partition_point(&index, Test::Below, b"")), 3);
}

// ---- images

/// Run 5 without views; run 7 with a to c, then d on of which d to f without f is visible, then g on.
fn runs() -> Vec<u8> {
    let visible = range(included("d"), excluded("f"));
    let views = [
        whole_view(1, table(1, "a", "c")),
        cut_view(2, open_table(2, "d"), visible),
        whole_view(3, open_table(3, "g")),
    ];
    image(&[run(5, &[]), run(7, &views)])
}

/// Each call on the first view of run 7, stops alone.
fn stops(image: &[u8], run: usize, view: usize, range: &[u8]) -> [Option<u8>; 5] {
    [
        table_idx_covering_range(image, run, range).err(),
        overlaps_range(image, run, range).err(),
        compacted_intersection(image, run, view, range).err(),
        calculate_view_range(image, run, view, range).err(),
        intersects_range(image, run, view, Unbounded, range).err(),
    ]
    .map(|stop| stop.map(Stop::number))
}

/// Images with a stop each, and with each of the checks 4 to 7 the ones after it too.
fn refused_images() -> Vec<(Vec<u8>, u8)> {
    let good = runs();
    let mut padded = good.clone();
    padded[6] |= 1;
    let view = |first, last, visible, size| {
        cut_view(1, sized_table(1, first, Some(last), [size, 1]), visible)
    };
    let falls = whole_view(2, open_table(2, "A"));
    let of = |view: Vec<u8>| image(&[run(7, &[view, falls.clone()])]);
    let (empty, apart) = (
        range(included("d"), excluded("d")),
        range(included("x"), Unbounded),
    );
    vec![
        (good[..good.len() - 1].to_vec(), 1),
        (padded, 2),
        (vec![65], 3),
        (of(view("d", "c", empty, 1 << 53)), 4),
        (of(view("a", "c", apart, 1 << 53)), 5),
        (of(view("a", "c", range(Unbounded, Unbounded), 1 << 53)), 6),
        (
            image(&[run(
                7,
                &[view("a", "c", range(Unbounded, Unbounded), 1 << 53)],
            )]),
            7,
        ),
    ]
}

#[test]
fn each_stop_of_an_image() {
    let whole = range(Unbounded, Unbounded);
    for (image, stop) in refused_images() {
        assert_eq!(stops(&image, 0, 0, &whole), [Some(stop); 5]);
        assert_eq!(stops(&image, 9, 9, &whole), [Some(stop); 5]);
        // The range fails: that is before 5.
        let fails = range(included("d"), excluded("d"));
        assert_eq!(stops(&image, 9, 9, &fails), [Some(stop.min(4)); 5]);
        // It is no range: that is before 4.
        assert_eq!(
            stops(&image, 9, 9, b"\x01"),
            [Some(if stop < 4 { stop } else { 2 }); 5]
        );
    }
}

#[test]
fn each_stop_of_a_range() {
    let image = runs();
    for (range, stop) in [
        (vec![], 1),
        (b"\x40\0\x02a".to_vec(), 1),
        (b"\x00a".to_vec(), 1),
        (key_of(0, 65_536), 1),
        (b"\x30".to_vec(), 2),
        (b"\x40\x04\x01".to_vec(), 3),
        (key_of(0, 65_537), 3),
        (range(included("b"), included("a")), 4),
    ] {
        assert_eq!(stops(&image, 1, 0, &range), [Some(stop); 5]);
        assert_eq!(stops(&image, 9, 9, &range), [Some(stop); 5]);
    }
}

#[test]
fn places_that_are_not_there() {
    let (image, whole) = (runs(), range(Unbounded, Unbounded));
    for run in [2, 3, 1 << 32, usize::MAX] {
        assert_eq!(stops(&image, run, 0, &whole), [Some(9); 5]);
    }
    for (run, view) in [(0, 0), (1, 3), (1, 1 << 32), (1, usize::MAX)] {
        let stops = stops(&image, run, view, &whole);
        assert_eq!(stops, [None, None, Some(9), Some(9), Some(9)]);
    }
    assert_eq!(stops(&[0], 0, 0, &whole), [Some(9); 5]);
}

#[test]
fn the_end_bound_is_checked_before_the_range() {
    let image = runs();
    let long = key_of(7, 1025);
    for end in [Bound::Included(&long[..]), Bound::Excluded(&long)] {
        assert_eq!(refused(intersects_range(&image, 1, 0, end, b"\x01")), 3);
        assert_eq!(refused(intersects_range(&[65], 1, 0, end, b"\x01")), 3);
        assert_eq!(refused(intersects_range(&[], 1, 0, end, b"\x01")), 1);
    }
    let end = Bound::Included(&long[..1024]);
    assert_eq!(refused(intersects_range(&image, 1, 0, end, b"\x01")), 2);
}

#[test]
fn views_that_cover_a_range() {
    let image = runs();
    let covering = |start, end| table_idx_covering_range(&image, 1, &range(start, end)).unwrap();
    assert_eq!(covering(Unbounded, Unbounded), 0..3);
    assert_eq!(covering(included("b"), included("b")), 0..1);
    // The gaps count to the view before them.
    assert_eq!(covering(included("cc"), excluded("d")), 0..1);
    assert_eq!(covering(included("f"), excluded("g")), 1..2);
    assert_eq!(covering(included("f"), included("g")), 1..3);
    assert_eq!(covering(excluded("x"), Unbounded), 2..3);
    assert_eq!(covering(Unbounded, excluded("a")), 0..0);
    assert_eq!(covering(Unbounded, included("A")), 0..0);
    let whole = range(Unbounded, Unbounded);
    assert_eq!(table_idx_covering_range(&image, 0, &whole), Ok(0..0));
}

#[test]
fn views_of_equal_starts_are_walked_back() {
    let view = |id| whole_view(id, open_table(id, "b"));
    let views = [whole_view(1, open_table(1, "a")), view(2), view(3), view(4)];
    let image = image(&[run(7, &views)]);
    let covering = |start, end| table_idx_covering_range(&image, 0, &range(start, end)).unwrap();
    // Table 1 has no last key, so it may hold b too.
    assert_eq!(covering(included("b"), included("b")), 0..4);
    assert_eq!(covering(excluded("b"), included("c")), 3..4);
    assert_eq!(covering(Unbounded, excluded("b")), 0..1);
}

#[test]
fn spans_of_runs() {
    let image = runs();
    let overlaps = |run, start, end| overlaps_range(&image, run, &range(start, end)).unwrap();
    assert!(overlaps(1, Unbounded, included("a")));
    assert!(!overlaps(1, Unbounded, excluded("a")));
    // The gap between two views is part of the span.
    assert!(overlaps(1, included("cc"), excluded("d")));
    assert!(overlaps(1, included("x"), Unbounded));
    assert!(!overlaps(0, Unbounded, Unbounded));
}

/// A range's bounds, and the slices that supplied them.
type Supplied<'a> = (Bound<&'a [u8]>, Bound<&'a [u8]>, Side, Side);

fn supplied(joined: Joined) -> Supplied {
    let Range { start, end } = joined.range;
    (start, end, joined.start_from, joined.end_from)
}

/// What a view of run 7 keeps.
fn kept<'a>(image: &'a [u8], view: usize, range: &'a [u8]) -> Option<Supplied<'a>> {
    let kept = compacted_intersection(image, 1, view, range);
    kept.unwrap().map(supplied)
}

/// What a view of run 7 is read for.
fn part<'a>(image: &'a [u8], view: usize, range: &'a [u8]) -> Option<Supplied<'a>> {
    let part = calculate_view_range(image, 1, view, range);
    part.unwrap().map(supplied)
}

#[test]
fn what_a_view_keeps() {
    use Side::First;
    let image = runs();
    let whole = range(Unbounded, Unbounded);
    // Up to the next view's start, past its own last key.
    let first = (included("a"), excluded("d"), First, First);
    assert_eq!(kept(&image, 0, &whole), Some(first));
    // Within its visible range.
    let second = (included("d"), excluded("f"), First, First);
    assert_eq!(kept(&image, 1, &whole), Some(second));
    let third = (included("g"), Unbounded, First, First);
    assert_eq!(kept(&image, 2, &whole), Some(third));
    assert_eq!(kept(&image, 1, &range(included("f"), Unbounded)), None);
}

#[test]
fn of_equal_bounds_a_view_keeps() {
    use Side::{First, Second};
    let image = runs();
    // The range's start, and the image's end.
    let asked = range(included("a"), excluded("d"));
    let same = (included("a"), excluded("d"), Second, First);
    assert_eq!(kept(&image, 0, &asked), Some(same));
    // But the visible range is the second of its intersection: its start, and not its end.
    let asked = range(included("d"), excluded("f"));
    let same = (included("d"), excluded("f"), First, Second);
    assert_eq!(kept(&image, 1, &asked), Some(same));
    // Both end unbounded: the image's.
    let asked = range(included("h"), Unbounded);
    let same = (included("h"), Unbounded, Second, First);
    assert_eq!(kept(&image, 2, &asked), Some(same));
}

#[test]
fn what_a_view_is_read_for() {
    use Side::{First, Second};
    let image = runs();
    let asked = range(included("a"), included("c"));
    let same = (included("a"), included("c"), First, Second);
    assert_eq!(part(&image, 0, &asked), Some(same));
    assert_eq!(part(&image, 0, &range(included("d"), Unbounded)), None);
    let asked = range(excluded("e"), Unbounded);
    let cut = (excluded("e"), excluded("f"), Second, First);
    assert_eq!(part(&image, 1, &asked), Some(cut));
    // Neither a visible range nor a last key: the range as it is, though it lies before the table.
    let asked = range(Unbounded, included("b"));
    let as_it_is = (Unbounded, included("b"), Second, Second);
    assert_eq!(part(&image, 2, &asked), Some(as_it_is));
}

#[test]
fn keys_are_parts_of_the_image_and_of_the_range() {
    let image = example();
    let asked = range(included("b"), Unbounded);
    let part = calculate_view_range(&image, 0, 0, &asked).unwrap().unwrap();
    let (Bound::Included(start), Bound::Included(end)) = (part.range.start, part.range.end) else {
        panic!("{part:?}")
    };
    assert_eq!(start.as_ptr(), asked[3..].as_ptr());
    assert_eq!(end.as_ptr(), image[0x45..].as_ptr());
}

#[test]
fn ranges_up_to_an_end_bound() {
    let image = runs();
    let meets =
        |view, end, start, to| intersects_range(&image, 1, view, end, &range(start, to)).unwrap();
    // The bound stands in place of the last key c.
    assert!(meets(0, Unbounded, included("x"), included("y")));
    assert!(meets(0, included("x"), included("x"), Unbounded));
    assert!(!meets(0, excluded("x"), included("x"), Unbounded));
    assert!(!meets(0, Unbounded, Unbounded, excluded("a")));
    // The view lies behind the bound.
    assert!(!meets(1, excluded("d"), Unbounded, Unbounded));
    assert!(meets(1, included("d"), Unbounded, Unbounded));
    // It is not cut by its visible range.
    assert!(meets(1, Unbounded, included("f"), Unbounded));
}
