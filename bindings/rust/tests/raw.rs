//! The C interface itself: slots and lent buffers that a stop leaves as they were, and answers byte by byte.
mod common;

use bilqarush::raw::*;
use common::{
    anchors, cut_view, example, excluded, image, included, index, job, part, plan, range, run,
    sized_table, table, whole_view, UNWRITTEN,
};
use std::ops::Bound::Unbounded;

const SLOT: usize = 77;

/// A call on a filled buffer of some room: what it returned, and the front that it wrote. After a stop the slot must be
/// as it was, and the rest of the buffer always.
fn told(room: usize, call: impl FnOnce(*mut u8, usize, *mut usize) -> u8) -> (u8, Vec<u8>) {
    let mut out = vec![UNWRITTEN; room];
    let mut written = SLOT;
    let stop = call(out.as_mut_ptr(), room, &mut written);
    if stop != 0 {
        assert_eq!(written, SLOT);
        written = 0;
    }
    assert!(out[written..].iter().all(|&byte| byte == UNWRITTEN));
    out.truncate(written);
    (stop, out)
}

fn cmp_bound(a_kind: u8, a: &[u8], b_kind: u8, b: &[u8]) -> (u8, i8) {
    let mut order = 77;
    // SAFETY: the slices are lent whole, and the slot is this function's own. So it is in each call below.
    let stop = unsafe {
        bilqarush_cmp_bound(
            a_kind,
            a.as_ptr(),
            a.len(),
            b_kind,
            b.as_ptr(),
            b.len(),
            true,
            &mut order,
        )
    };
    (stop, order)
}

#[test]
fn bounds_by_kind_and_key() {
    assert_eq!(cmp_bound(1, b"a", 2, b"a"), (0, -1));
    assert_eq!(cmp_bound(1, b"a", 0, b""), (0, 1));
    assert_eq!(cmp_bound(3, b"a", 1, b"a"), (2, 77));
    assert_eq!(cmp_bound(1, b"a", 255, b"a"), (2, 77));
    assert_eq!(cmp_bound(0, b"a", 1, b"a"), (1, 77));
    assert_eq!(cmp_bound(1, b"a", 0, &[0; 65_536]), (1, 77));
    assert_eq!(cmp_bound(1, b"a", 0, &[0; 65_537]), (3, 77));
    assert_eq!(cmp_bound(2, &[0; 1025], 3, b"a"), (3, 77));
    assert_eq!(cmp_bound(3, &[0; 1025], 0, b"a"), (2, 77));
}

#[test]
fn slots_of_numbers_stay_after_a_stop() {
    let long = [0; 1025];
    let mut order = 77;
    let stop = unsafe { bilqarush_compare(long.as_ptr(), 1025, long.as_ptr(), 1, &mut order) };
    assert_eq!((stop, order), (3, 77));
    for before in [false, true] {
        let mut is = before;
        let stop = unsafe { bilqarush_non_empty([1].as_ptr(), 1, &mut is) };
        assert_eq!((stop, is), (2, before));
        let stop = unsafe { bilqarush_contains([1].as_ptr(), 1, long.as_ptr(), 1, &mut is) };
        assert_eq!((stop, is), (2, before));
    }
}

fn as_point(range: &[u8], room: usize) -> (u8, Vec<u8>) {
    told(room, |to, room, written| unsafe {
        bilqarush_as_point(range.as_ptr(), range.len(), to, room, written)
    })
}

#[test]
fn points_byte_by_byte() {
    let point = range(included("abc"), included("abc"));
    let answer = [1, 0, 0, 0, 0, 0, 0, 0, 3, 0, 0, 0, 0, 0, 0, 0, 3];
    assert_eq!(answer.len(), BILQARUSH_POINT_LEN);
    assert_eq!(as_point(&point, 20), (0, answer.to_vec()));
    assert_eq!(as_point(&point, 17), (0, answer.to_vec()));
    assert_eq!(as_point(&point, 16), (16, vec![]));
    let no_point = range(Unbounded, Unbounded);
    assert_eq!(as_point(&no_point, 1), (0, vec![0]));
    assert_eq!(as_point(&no_point, 0), (16, vec![]));
    assert_eq!(
        as_point(&range(included("a"), excluded("a")), 0),
        (4, vec![])
    );
}

fn intersect(a: &[u8], b: &[u8], room: usize) -> (u8, Vec<u8>) {
    told(room, |to, room, written| unsafe {
        bilqarush_intersect(a.as_ptr(), a.len(), b.as_ptr(), b.len(), to, room, written)
    })
}

fn union(a: &[u8], b: &[u8], room: usize) -> (u8, Vec<u8>) {
    told(room, |to, room, written| unsafe {
        bilqarush_union(a.as_ptr(), a.len(), b.as_ptr(), b.len(), to, room, written)
    })
}

/// A place and a length.
fn place(at: u64, length: u64) -> Vec<u8> {
    [at.to_be_bytes(), length.to_be_bytes()].concat()
}

#[test]
fn intersections_and_unions_byte_by_byte() {
    let a = range(included("aa"), included("m"));
    let b = range(excluded("c"), excluded("z"));
    let both = [&[1, 2, 2][..], &place(3, 1), &[1, 1], &place(7, 1)].concat();
    assert_eq!(both.len(), BILQARUSH_JOINED_LEN);
    assert_eq!(intersect(&a, &b, 40), (0, both.clone()));
    assert_eq!(intersect(&a, &b, 37), (0, both));
    assert_eq!(intersect(&a, &b, 36), (16, vec![]));
    let either = [&[1, 1, 1][..], &place(3, 2), &[2, 2], &place(6, 1)].concat();
    assert_eq!(union(&a, &b, 37), (0, either));
    assert_eq!(union(&a, &b, 36), (16, vec![]));
}

#[test]
fn no_intersection_and_no_union() {
    let a = range(included("a"), included("b"));
    let apart = range(included("c"), included("d"));
    for call in [intersect, union] {
        assert_eq!(call(&a, &apart, 1), (0, vec![0]));
        assert_eq!(call(&a, &apart, 0), (16, vec![]));
        assert_eq!(call(&a, &[], 37), (1, vec![]));
    }
}

#[test]
fn an_unbounded_bound_has_length_0() {
    let whole = range(Unbounded, Unbounded);
    let (stop, answer) = intersect(&whole, &whole, 37);
    assert_eq!((stop, answer.len()), (0, 37));
    assert_eq!(answer[..3], [1, 0, 2]);
    assert_eq!(answer[11..19], [0; 8]);
    assert_eq!(answer[19..21], [0, 1]);
    assert_eq!(answer[29..37], [0; 8]);
}

fn effective_range(image: &[u8], run: usize, view: usize, room: usize) -> (u8, Vec<u8>) {
    told(room, |to, room, written| unsafe {
        bilqarush_compacted_effective_range(
            image.as_ptr(),
            image.len(),
            run,
            view,
            to,
            room,
            written,
        )
    })
}

#[test]
fn effective_ranges_byte_by_byte() {
    let image = example();
    let answer = [&[1][..], &place(0x42, 1), &[1], &place(0x45, 1)].concat();
    assert_eq!(answer.len(), BILQARUSH_VIEW_RANGE_LEN);
    assert_eq!(effective_range(&image, 0, 0, 34), (0, answer.clone()));
    assert_eq!(effective_range(&image, 0, 0, 99), (0, answer));
    assert_eq!(effective_range(&image, 0, 0, 33), (16, vec![]));
    assert_eq!(effective_range(&image, 0, 2, 0), (9, vec![]));
    assert_eq!(effective_range(&[], 0, 0, 34), (1, vec![]));
}

#[test]
fn what_is_read_stays() {
    let image = example();
    let (stop, listing) = told(200, |to, room, written| unsafe {
        bilqarush_list(image.as_ptr(), image.len(), to, room, written)
    });
    assert_eq!((stop, listing.len()), (0, 113));
    let job = common::job(7, &[7], &[]);
    let ids = [];
    let (stop, new) = told(200, |to, room, written| unsafe {
        bilqarush_commit(
            image.as_ptr(),
            image.len(),
            job.as_ptr(),
            job.len(),
            ids.as_ptr(),
            ids.len(),
            to,
            room,
            written,
        )
    });
    assert_eq!((stop, new), (0, example()));
    assert_eq!(image, example());
    assert_eq!(job, common::job(7, &[7], &[]));
}

/// A call that finds a partition: what it returned, and the slots.
fn finds(
    call: unsafe extern "C" fn(*const u8, usize, *const u8, usize, *mut bool, *mut usize) -> u8,
    index: &[u8],
    key: &[u8],
    before: bool,
) -> (u8, bool, usize) {
    let (mut found, mut partition) = (before, SLOT);
    let stop = unsafe {
        call(
            index.as_ptr(),
            index.len(),
            key.as_ptr(),
            key.len(),
            &mut found,
            &mut partition,
        )
    };
    (stop, found, partition)
}

#[test]
fn a_partition_that_is_not_found_leaves_its_slot() {
    let (some, none) = (index(&["b"]), index(&[]));
    for call in [
        bilqarush_first_partition_including_key,
        bilqarush_last_partition_including_key,
    ] {
        for before in [false, true] {
            assert_eq!(finds(call, &some, b"b", before), (0, true, 0));
            assert_eq!(finds(call, &some, b"a", before), (0, false, SLOT));
            assert_eq!(finds(call, &none, b"a", before), (0, false, SLOT));
            assert_eq!(finds(call, b"", b"a", before), (1, before, SLOT));
        }
    }
}

#[test]
fn slots_of_lookups_stay_after_a_stop() {
    let [image, falls, whole] = [example(), index(&["b", "a"]), range(Unbounded, Unbounded)];
    let (at, length) = (falls.as_ptr(), falls.len());
    let (of, size) = (image.as_ptr(), image.len());
    let (asked, long) = (whole.as_ptr(), whole.len());
    let (mut first, mut second) = (SLOT, SLOT + 1);
    unsafe {
        let key = [7].as_ptr();
        let stop = bilqarush_partition_point(at, length, true, key, 1, &mut first);
        assert_eq!((stop, first), (6, SLOT));
        let stop = bilqarush_first_partition_including_or_after_key(at, length, key, 1, &mut first);
        assert_eq!((stop, first), (6, SLOT));
        let stop =
            bilqarush_partitions_covering_range(at, length, asked, long, &mut first, &mut second);
        assert_eq!((stop, first, second), (6, SLOT, SLOT + 1));
        let stop =
            bilqarush_table_idx_covering_range(of, size, 1, asked, long, &mut first, &mut second);
        assert_eq!((stop, first, second), (9, SLOT, SLOT + 1));
        for before in [false, true] {
            let mut is = before;
            let stop = bilqarush_overlaps_range(of, size, 1, asked, long, &mut is);
            assert_eq!((stop, is), (9, before));
            let stop = bilqarush_intersects_range(of, size, 0, 2, 0, key, 0, asked, long, &mut is);
            assert_eq!((stop, is), (9, before));
        }
    }
}

fn intersects_range(end_kind: u8, end: &[u8], range: &[u8]) -> (u8, u8) {
    let image = example();
    let mut is = false;
    let stop = unsafe {
        bilqarush_intersects_range(
            image.as_ptr(),
            image.len(),
            0,
            0,
            end_kind,
            end.as_ptr(),
            end.len(),
            range.as_ptr(),
            range.len(),
            &mut is,
        )
    };
    (stop, is.into())
}

#[test]
fn end_bounds_by_kind_and_key() {
    let whole = range(Unbounded, Unbounded);
    assert_eq!(intersects_range(0, b"", &whole), (0, 1));
    assert_eq!(intersects_range(1, b"a", &whole), (0, 1));
    assert_eq!(intersects_range(2, b"a", &whole), (0, 0));
    // The bound comes before the range.
    for range in [&whole[..], b"\x01"] {
        assert_eq!(intersects_range(3, b"a", range), (2, 0));
        assert_eq!(intersects_range(255, &[0; 65_537], range), (2, 0));
        assert_eq!(intersects_range(0, b"a", range), (1, 0));
        assert_eq!(intersects_range(0, &[0; 65_536], range), (1, 0));
        assert_eq!(intersects_range(0, &[0; 65_537], range), (3, 0));
        assert_eq!(intersects_range(2, &[0; 1025], range), (3, 0));
    }
}

/// A call on a view of the first run of the example.
fn on_view(
    call: unsafe extern "C" fn(
        *const u8,
        usize,
        usize,
        usize,
        *const u8,
        usize,
        *mut u8,
        usize,
        *mut usize,
    ) -> u8,
    view: usize,
    range: &[u8],
    room: usize,
) -> (u8, Vec<u8>) {
    let image = example();
    told(room, |to, room, written| unsafe {
        let (asked, length) = (range.as_ptr(), range.len());
        call(
            image.as_ptr(),
            image.len(),
            0,
            view,
            asked,
            length,
            to,
            room,
            written,
        )
    })
}

#[test]
fn ranges_of_views_byte_by_byte() {
    let (keeps, reads) = (
        bilqarush_compacted_intersection,
        bilqarush_calculate_view_range,
    );
    let asked = range(included("b"), Unbounded);
    // Up to the start of the next view, which is d; up to the last key, which is c.
    let kept = [&[1, 1, 2][..], &place(3, 1), &[2, 1], &place(0x82, 1)].concat();
    let read = [&[1, 1, 2][..], &place(3, 1), &[1, 1], &place(0x45, 1)].concat();
    assert_eq!(on_view(keeps, 0, &asked, 40), (0, kept.clone()));
    assert_eq!(on_view(keeps, 0, &asked, 37), (0, kept));
    assert_eq!(on_view(reads, 0, &asked, 37), (0, read));
    let apart = range(Unbounded, excluded("a"));
    for call in [keeps, reads] {
        assert_eq!(on_view(call, 0, &asked, 36), (16, vec![]));
        assert_eq!(on_view(call, 0, &apart, 1), (0, vec![0]));
        assert_eq!(on_view(call, 0, &apart, 0), (16, vec![]));
        assert_eq!(on_view(call, 2, &asked, 0), (9, vec![]));
    }
}

/// A table with keys from 00 to 40 and a raw size of 5: all is visible, and half of it.
fn all_and_half() -> [Vec<u8>; 2] {
    let table = || sized_table(1, "\0", Some("@"), [3, 2]);
    let half = range(Unbounded, excluded(" "));
    [whole_view(1, table()), cut_view(1, table(), half)].map(|view| image(&[run(7, &[view])]))
}

/// What the call returned, and the slots.
fn visible_fraction(image: &[u8], view: usize, before: bool) -> (u8, bool, f64) {
    let (mut part, mut fraction) = (before, 77.0);
    let stop = unsafe {
        let (at, length) = (image.as_ptr(), image.len());
        bilqarush_visible_fraction(at, length, 0, view, &mut part, &mut fraction)
    };
    (stop, part, fraction)
}

#[test]
fn what_is_whole_leaves_the_slot_of_the_fraction() {
    let [all, half] = all_and_half();
    for before in [false, true] {
        assert_eq!(visible_fraction(&half, 0, before), (0, true, 0.5));
        assert_eq!(visible_fraction(&all, 0, before), (0, false, 77.0));
        assert_eq!(visible_fraction(&half, 1, before), (9, before, 77.0));
        assert_eq!(visible_fraction(b"", 0, before), (1, before, 77.0));
    }
}

#[test]
fn slots_of_sizes_stay_after_a_stop() {
    let [all, half] = all_and_half();
    let sizes = |image: &[u8], place: usize| {
        let (at, length) = (image.as_ptr(), image.len());
        let (mut of_view, mut of_run) = (77, 77);
        let stops = unsafe {
            [
                bilqarush_estimate_visible_size(at, length, place, 0, &mut of_view),
                bilqarush_estimate_run_visible_size(at, length, place, &mut of_run),
            ]
        };
        (stops, [of_view, of_run])
    };
    assert_eq!(sizes(&all, 0), ([0; 2], [5; 2]));
    assert_eq!(sizes(&half, 0), ([0; 2], [3; 2]));
    assert_eq!(sizes(&half, 1), ([9; 2], [77; 2]));
    assert_eq!(sizes(b"", 0), ([1; 2], [77; 2]));
}

fn sample_anchors(most: usize, index: &[u8], range: &[u8], room: usize) -> (u8, Vec<u8>) {
    told(room, |to, room, written| unsafe {
        let (asked, length) = (range.as_ptr(), range.len());
        let (at, size) = (index.as_ptr(), index.len());
        bilqarush_sample_anchors(most, 9000, at, size, asked, length, to, room, written)
    })
}

fn select_boundaries(parts: usize, least: u64, anchors: &[u8], room: usize) -> (u8, Vec<u8>) {
    told(room, |to, room, written| unsafe {
        let (at, length) = (anchors.as_ptr(), anchors.len());
        bilqarush_select_boundaries(parts, least, at, length, to, room, written)
    })
}

fn plan_ranges(parts: usize, image: &[u8], indexes: &[u8], room: usize) -> (u8, Vec<u8>) {
    told(room, |to, room, written| unsafe {
        let (at, length) = (indexes.as_ptr(), indexes.len());
        let (of, size) = (image.as_ptr(), image.len());
        bilqarush_plan_subcompaction_ranges(parts, of, size, at, length, to, room, written)
    })
}

#[test]
fn anchors_byte_by_byte() {
    let (whole, blocks) = (range(Unbounded, Unbounded), index(&["a", "b"]));
    let answer = anchors(&[("a", 4096), ("b", 4904)]);
    assert_eq!(sample_anchors(2, &blocks, &whole, 24), (0, answer.clone()));
    assert_eq!(sample_anchors(4096, &blocks, &whole, 99), (0, answer));
    assert_eq!(sample_anchors(2, &blocks, &whole, 23), (16, vec![]));
    assert_eq!(sample_anchors(4097, &blocks, &whole, 99), (3, vec![]));
    assert_eq!(sample_anchors(2, &blocks, &[], 99), (1, vec![]));
}

#[test]
fn plans_byte_by_byte() {
    let two = anchors(&[("b", 10), ("a", 10)]);
    let answer = plan(&["b"]);
    assert_eq!(select_boundaries(2, 0, &two, 9), (0, answer.clone()));
    assert_eq!(select_boundaries(2, 0, &two, 99), (0, answer));
    assert_eq!(select_boundaries(2, 0, &two, 8), (16, vec![]));
    assert_eq!(select_boundaries(2, 20, &two, 2), (0, vec![1, 0]));
    assert_eq!(select_boundaries(65, 0, &two, 99), (3, vec![]));
    assert_eq!(select_boundaries(2, 0, &two[1..], 99), (1, vec![]));
    let over = anchors(&[("b", u64::MAX), ("a", 1)]);
    assert_eq!(select_boundaries(1, 0, &over, 0), (7, vec![]));
    let indexes = [index(&["a", "b", "c"]), index(&["d", "e"])].concat();
    assert_eq!(plan_ranges(2, &example(), &indexes, 99), (0, plan(&["c"])));
    assert_eq!(plan_ranges(2, &example(), &indexes, 9), (0, plan(&["c"])));
    assert_eq!(plan_ranges(2, &example(), &indexes, 8), (16, vec![]));
    assert_eq!(plan_ranges(2, &example(), &indexes[1..], 99), (1, vec![]));
    assert_eq!(plan_ranges(65, &example(), &indexes, 99), (3, vec![]));
    assert_eq!(plan_ranges(64, &[0], &[], 2), (0, vec![1, 0]));
    assert_eq!(plan_ranges(64, &[0], &[0], 2), (1, vec![]));
}

fn from_compaction(job: &[u8], room: usize) -> (u8, Vec<u8>) {
    told(room, |to, room, written| unsafe {
        bilqarush_from_compaction(job.as_ptr(), job.len(), to, room, written)
    })
}

fn subtract_from(interval: &[u8], range: &[u8], room: usize) -> (u8, Vec<u8>) {
    told(room, |to, room, written| unsafe {
        let (at, length) = (interval.as_ptr(), interval.len());
        let (of, size) = (range.as_ptr(), range.len());
        bilqarush_subtract_from(at, length, of, size, to, room, written)
    })
}

#[test]
fn durable_intervals_byte_by_byte() {
    let done = part(range(Unbounded, excluded("c")), true, &[]);
    let begun = part(
        range(included("c"), Unbounded),
        false,
        &[table(1, "c", "f")],
    );
    let both = job(7, &[7], &[done, begun]);
    let answer = b"\x02\x20\0\x01c\x60\0\x01c\0\x01f".to_vec();
    assert_eq!(from_compaction(&both, 12), (0, answer.clone()));
    assert_eq!(from_compaction(&both, 99), (0, answer));
    assert_eq!(from_compaction(&both, 11), (16, vec![]));
    assert_eq!(from_compaction(&both[1..], 99), (1, vec![]));
    assert_eq!(from_compaction(&job(7, &[], &[]), 0), (8, vec![]));
    assert_eq!(from_compaction(&job(7, &[7], &[]), 1), (0, vec![0]));
    assert_eq!(from_compaction(&job(7, &[7], &[]), 0), (16, vec![]));
}

#[test]
fn what_an_interval_leaves_byte_by_byte() {
    let interval = range(included("c"), excluded("f"));
    let wide = range(included("a"), included("z"));
    let answer = b"\x02\x60\0\x01a\0\x01c\x50\0\x01f\0\x01z".to_vec();
    assert_eq!(subtract_from(&interval, &wide, 15), (0, answer.clone()));
    assert_eq!(subtract_from(&interval, &wide, 99), (0, answer));
    assert_eq!(subtract_from(&interval, &wide, 14), (16, vec![]));
    assert_eq!(subtract_from(&interval, &interval, 1), (0, vec![0]));
    assert_eq!(subtract_from(&interval, &interval, 0), (16, vec![]));
    assert_eq!(subtract_from(&wide, &interval, 99), (10, vec![]));
    assert_eq!(subtract_from(&wide, b"\x01", 99), (2, vec![]));
}
