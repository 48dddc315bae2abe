//! The papers' own lookups, and those of the comments in the Rust.
use super::{covering, of_key, of_view, of_views, up_to, Inputs};
use crate::answers::lookups::{
    value, Value, CALCULATE_VIEW_RANGE, COMPACTED_INTERSECTION, FIRST_INCLUDING,
    FIRST_INCLUDING_OR_AFTER, TABLES_COVERING,
};
use crate::inputs::{
    before, excluded, from, from_to, image, included, index, range_image, run, since, view,
    EVERYTHING,
};
use crate::{Bound, Key, Range, View};

fn keys(list: &[&[u8]]) -> Vec<Key> {
    list.iter().map(|key| key.to_vec()).collect()
}

/// Ranges over the keys of the examples, those that hold no key among them.
fn asked() -> Vec<Range> {
    vec![
        included(b"b", b"b"),
        before(b"b"),
        included(b"a", b"a"),
        EVERYTHING,
        included(b"a", b"c"),
        from_to(b"a", b"d"),
        excluded(b"b", b"b\0"),
        before(b""),
        from(b"d"),
        (Bound::Excluded(b"c".to_vec()), Bound::Unbounded),
    ]
}

pub fn from_the_papers(out: &mut Inputs) {
    edges_of_indexes(out);
    no_partitions(out);
    kept_by_views(out);
    views_that_overlap(out);
}

/// "First keys a,b,b,d: point b gives 0..3; - to b) gives 0..2. First key b: point a gives 0..0."
fn edges_of_indexes(out: &mut Inputs) {
    let four = index(&keys(&[b"a", b"b", b"b", b"d"]));
    let one = index(&keys(&[b"b"]));
    let places = |index: &[u8], range: &Range| value(index, &covering(&range_image(range)));
    assert_eq!(
        places(&four, &included(b"b", b"b")),
        Ok(Value::Places(0, 3))
    );
    assert_eq!(places(&four, &before(b"b")), Ok(Value::Places(0, 2)));
    assert_eq!(places(&one, &included(b"a", b"a")), Ok(Value::Places(0, 0)));
    for index in [four, one] {
        for key in [&b""[..], b"a", b"a\0", b"b", b"c", b"d", b"e"] {
            out.put(&index, &of_key(key));
        }
        for range in asked() {
            out.put(&index, &[covering(&range_image(&range))]);
        }
    }
}

/// "`first_partition_including_key` answers none, `first_partition_including_or_after_key` 0, and a
/// covering is 0..0."
fn no_partitions(out: &mut Inputs) {
    let none = index(&[]);
    for key in [&b""[..], b"a"] {
        for asked in of_key(key) {
            let value = value(&none, &asked);
            match asked.call {
                FIRST_INCLUDING => assert_eq!(value, Ok(Value::Found(None))),
                FIRST_INCLUDING_OR_AFTER => assert_eq!(value, Ok(Value::Number(0))),
                _ => {}
            }
            out.put(&none, &[asked]);
        }
    }
    for range in asked() {
        let asked = covering(&range_image(&range));
        assert_eq!(value(&none, &asked), Ok(Value::Places(0, 0)));
        out.put(&none, &[asked]);
    }
}

/// The cases that the comment of `compacted_intersection` names.
fn kept_by_views(out: &mut Inputs) {
    let visible =
        |number, first: &[u8], last: Option<&[u8]>, range| view(number, first, last, Some(range));
    let runs: [&[View]; 6] = [
        // No next view.
        &[view(1, b"a", Some(b"m"), None)],
        // A next view; and the keys of the gap count to the first.
        &[view(1, b"a", Some(b"g"), None), view(2, b"m", None, None)],
        // A shared boundary key.
        &[
            view(1, b"a", Some(b"m"), None),
            view(2, b"m", Some(b"z"), None),
        ],
        // A gap that an earlier commit left.
        &[
            visible(1, b"a", Some(b"l"), from_to(b"a", b"g")),
            view(2, b"m", None, None),
        ],
        // `calculate_view_range` cuts by the visible range, not by the effective one.
        &[visible(1, b"c", Some(b"k"), included(b"a", b"m"))],
        &[
            visible(1, b"c", None, included(b"a", b"m")),
            view(2, b"d", None, since(b"m")),
        ],
    ];
    for views in runs {
        let bytes = image(&[run(7, views)]);
        let ranges = [
            EVERYTHING,
            from(b"a"),
            from(b"h"),
            included(b"m", b"m"),
            from_to(b"g", b"m"),
            from_to(b"a", b"g"),
            before(b"m"),
            included(b"a", b"m"),
            excluded(b"g", b"g\0"),
            before(b""),
        ];
        for range in ranges.map(|range| range_image(&range)) {
            for place in 0..views.len() as u64 {
                for call in [COMPACTED_INTERSECTION, CALCULATE_VIEW_RANGE] {
                    out.put(&bytes, &[of_view(call, 0, place, &range)]);
                }
            }
            let end = Bound::Excluded(b"m".to_vec());
            out.put(&bytes, &of_views(0, 0, &end, &range)[..2]);
            out.put(&bytes, &[up_to(0, 0, (2, b"m"), &range)]);
        }
    }
}

/// "Views of one run may overlap, most often where a last key is missing": the walk back reaches each
/// that may hold the start of the range.
fn views_that_overlap(out: &mut Inputs) {
    let open = |number, first: &[u8]| view(number, first, None, None);
    let views = [
        open(1, b"a"),
        open(2, b"b"),
        open(3, b"b"),
        view(4, b"b", Some(b"b"), None),
        open(5, b"b"),
        open(6, b"d"),
    ];
    let bytes = image(&[run(7, &views)]);
    let point = of_view(TABLES_COVERING, 0, 0, &range_image(&included(b"b", b"b")));
    assert_eq!(value(&bytes, &point), Ok(Value::Places(0, 5)));
    for range in asked() {
        out.put(
            &bytes,
            &[of_view(TABLES_COVERING, 0, 0, &range_image(&range))],
        );
    }
}
