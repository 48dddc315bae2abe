//! Runs of a few views: all kinds of last key, visible range, end bound and asked range.
use super::every::{good_views, runs_from};
use super::lists::told;
use super::{images_of, kind_and_key, of_view, of_views, up_to, Inputs, RANGE_CALLS};
use crate::answers::lookups::{
    value, Asked, Value, COMPACTED_INTERSECTION, INTERSECTS_RANGE, OVERLAPS_RANGE, TABLES_COVERING,
};
use crate::checks::Checked;
use crate::inputs::images::every::every_view;
use crate::inputs::{
    all_bounds, all_ranges, from_to, image, included, order_class, range_image, run, since, until,
    view, EVERYTHING,
};
use crate::{kind_of, Bound, Key, Range, View};

/// What of a view a lookup depends on: its last key and its visible range, or its effective end.
fn view_class(view: &View, call: u8) -> Vec<u8> {
    if call == INTERSECTS_RANGE {
        return vec![kind_of(&crate::effective_range(view).unwrap().1)];
    }
    let mut class = vec![u8::from(view.table.last.is_some())];
    if let Some((start, end)) = &view.visible {
        class.extend([9, kind_of(start), kind_of(end)]);
    }
    class
}

/// The class of a lookup in a run: the call, the answer, and the kinds of what is asked for.
fn class_of(number: u8, views: &[View], asked: &Asked, answer: &Checked<Value>) -> Vec<u8> {
    let mut class = vec![number, asked.call, asked.number, asked.range[0]];
    class.extend(told(answer));
    if answer.is_err() {
        return class;
    }
    if asked.call != TABLES_COVERING && asked.call != OVERLAPS_RANGE {
        class.extend(view_class(&views[asked.view as usize], asked.call));
    }
    class
}

/// One view over a few keys, with each range and end bound: in a small run one of each class.
pub fn one_view(out: &mut Inputs) {
    let keys: Vec<Key> = [&b""[..], b"a", b"a\0", b"b"].map(<[u8]>::to_vec).to_vec();
    let mut views = good_views(&every_view(&keys));
    out.chance.shuffle(&mut views);
    let mut ranges = images_of(&all_ranges(&keys));
    let ends = all_bounds(&keys);
    for view in views {
        let views = [view];
        let bytes = image(&[run(3, &views)]);
        out.chance.shuffle(&mut ranges);
        let mut wanted = vec![];
        // Some of each, or there were too many: every range is tried in some view.
        for range in &ranges[..12] {
            let end = kind_and_key(out.chance.of(&ends));
            let mut each = RANGE_CALLS.map(|call| of_view(call, 0, 0, range)).to_vec();
            each.push(up_to(0, 0, end, range));
            for asked in each {
                let answer = value(&bytes, &asked);
                if out.some(1, &class_of(2, &views, &asked, &answer)) {
                    wanted.push(asked);
                }
            }
        }
        out.put(&bytes, &wanted);
    }
}

/// Views to put side by side: with a last key and without, cut at either end, of one key.
fn pool() -> Vec<View> {
    let excluded_end = |key: &[u8]| Some((Bound::Unbounded, Bound::Excluded(key.to_vec())));
    vec![
        view(1, b"a", Some(b"c"), None),
        view(2, b"a", None, None),
        view(3, b"a", Some(b"a"), None),
        view(4, b"", None, Some(from_to(b"a", b"b"))),
        view(5, b"b", None, until(b"c")),
        view(6, b"b", Some(b"b"), Some(EVERYTHING)),
        view(7, b"a", Some(b"d"), Some(included(b"b", b"b\0"))),
        view(8, b"b\0", None, since(b"")),
        view(9, b"c", Some(b"d"), excluded_end(b"d")),
        view(10, b"d", None, None),
    ]
}

/// Two and three views of the pool, with each range over their keys: in a small run few of each
/// class.
pub fn few_views(out: &mut Inputs) {
    let pool = pool();
    let keys = [&b""[..], b"a", b"b", b"b\0", b"c", b"d"].map(<[u8]>::to_vec);
    let mut ranges = all_ranges(&keys);
    for count in [2, 3] {
        let from = |first| runs_from(first, &pool, count);
        let mut runs: Vec<Vec<View>> = pool.iter().flat_map(from).collect();
        out.chance.shuffle(&mut runs);
        for views in runs {
            out.chance.shuffle(&mut ranges);
            of_each_class(&views, &ranges[..16], out);
        }
    }
}

fn of_each_class(views: &[View], ranges: &[Range], out: &mut Inputs) {
    let bytes = image(&[run(3, views)]);
    let mut wanted = vec![];
    for range in ranges {
        let image = range_image(range);
        let mut each = RANGE_CALLS[..2]
            .iter()
            .map(|call| of_view(*call, 0, 0, &image))
            .collect::<Vec<_>>();
        for place in 0..views.len() as u64 {
            each.push(of_view(COMPACTED_INTERSECTION, 0, place, &image));
        }
        for asked in each {
            let answer = value(&bytes, &asked);
            let mut class = class_of(3, views, &asked, &answer);
            if asked.call == COMPACTED_INTERSECTION && answer.is_ok() {
                class.push(u8::from(asked.view + 1 == views.len() as u64));
                class.extend(met_class(views, &asked, range));
            }
            if out.some(1, &class) {
                wanted.push(asked);
            }
        }
    }
    out.put(&bytes, &wanted);
}

/// How the asked range lies to the view that is asked for.
fn met_class(views: &[View], asked: &Asked, range: &Range) -> Vec<u8> {
    let own = crate::effective_range(&views[asked.view as usize]).unwrap();
    [
        order_class(&[&own.0, &range.0]),
        order_class(&[&own.1, &range.1]),
    ]
    .concat()
}

/// Places that are there and places that are not.
pub fn places(out: &mut Inputs) {
    let views = [
        view(1, b"a", Some(b"c"), None),
        view(2, b"d", None, Some(included(b"e", b"f"))),
    ];
    let far = [2, 3, 255, 65_536, 1 << 32, 1 << 63, u64::MAX];
    let ranges = [EVERYTHING, from_to(b"b", b"e"), from_to(b"b", b"b")];
    for (number, runs) in [
        vec![],
        vec![run(1, &[])],
        vec![run(1, &views), run(2, &[]), run(0, &views[1..])],
    ]
    .iter()
    .enumerate()
    {
        let bytes = image(runs);
        for range in &ranges[..if out.small && number < 2 { 1 } else { 3 }] {
            let range = range_image(range);
            let end = Bound::Excluded(b"e".to_vec());
            for place in 0..3 {
                out.put(&bytes, &of_views(0, place, &end, &range));
                out.put(&bytes, &of_views(place, 0, &end, &range));
            }
            for place in far {
                let at = if out.small && place < 1 << 63 { 1 } else { 2 };
                out.put(&bytes, &of_views(0, place, &end, &range)[5 - at..]);
                out.put(&bytes, &of_views(place, 0, &end, &range)[5 - 2 * at..]);
            }
        }
    }
}
