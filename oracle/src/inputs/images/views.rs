//! One view, several views and runs, places, sums.
use super::{all_places, rooms, Inputs};
use crate::answers::images::{listing, Call};
use crate::checks::{check_4, check_5, check_image, descends, Stop};
use crate::inputs::{all_ranges, from_to, image, included, run, until, view};
use crate::{kind_of, Bound, Key, Range, Run, View};

/// Views over a few keys: all kinds of last key and of visible range.
pub fn one_view(out: &mut Inputs) {
    let keys: Vec<Key> = [&[][..], b"\0", b"a", b"a\0", b"\xFF"]
        .map(<[u8]>::to_vec)
        .to_vec();
    let mut ranges: Vec<Option<Range>> = all_ranges(&keys).into_iter().map(Some).collect();
    ranges.push(None);
    out.chance.shuffle(&mut ranges);
    let mut firsts = keys.clone();
    out.chance.shuffle(&mut firsts);
    let mut lasts: Vec<Option<Key>> = keys.into_iter().map(Some).collect();
    lasts.push(None);
    out.chance.shuffle(&mut lasts);
    for visible in &ranges {
        for first in &firsts {
            for last in &lasts {
                let view = view(5, first, last.as_deref(), visible.clone());
                if out.some(2, &view_class(&view)) {
                    out.put_each(&image(&[run(3, &[view])]));
                }
            }
        }
    }
}

/// The stop; kinds; which bounds the effective range has, and how the keys lie to each other.
fn view_class(view: &View) -> Vec<u8> {
    let stop: Stop = check_4(view)
        .and_then(|()| check_5(view))
        .err()
        .unwrap_or(0);
    let table = &view.table;
    let mut class = vec![1, stop, u8::from(table.last.is_some())];
    if stop == 5 {
        let starts_excluded = view.visible.as_ref().map_or(0, |range| kind_of(&range.0)) == 2;
        class.extend([u8::from(starts_excluded), u8::from(descends(table))]);
    }
    if let Some((start, end)) = &view.visible {
        class.extend([9, kind_of(start), kind_of(end)]);
        if stop == 0 {
            let first = Bound::Included(table.first.clone());
            class.push(crate::cmp_start(&first, start) as u8);
            let last = table.last.clone().map_or(Bound::Unbounded, Bound::Included);
            class.push(crate::cmp_end(&last, end) as u8);
        }
    }
    class
}

pub fn several(out: &mut Inputs) {
    pairs(out);
    equal_ids(out);
    decimals(out);
    counts(out);
}

/// Effective starts a, a, a00, b, b, c, the empty key.
fn pool() -> [View; 7] {
    [
        view(1, b"a", Some(b"c"), None),
        view(2, b"", None, Some(from_to(b"a", b"b"))),
        view(3, b"a\0", None, until(b"a\0")),
        view(4, b"b", None, None),
        view(5, b"a", Some(b"z"), Some(included(b"b", b"b"))),
        view(
            6,
            b"c",
            Some(b"c"),
            Some((Bound::Unbounded, Bound::Unbounded)),
        ),
        view(7, b"", Some(b""), None),
    ]
}

/// Two of them in one run and in two, and a third.
fn pairs(out: &mut Inputs) {
    let pool = pool();
    for (i, a) in pool.iter().enumerate() {
        for (j, b) in pool.iter().enumerate() {
            let pair = [a.clone(), b.clone()];
            if out.small && i > j && (i + j) % 2 == 0 {
                continue;
            }
            out.put_each(&image(&[run(1, &pair)]));
            if !out.small || i > j && i > 4 {
                // In two runs no order is asked for.
                out.put_each(&image(&[run(1, &pair[..1]), run(2, &pair[1..])]));
                out.put_each(&image(&[
                    run(2, &pair[..1]),
                    run(1, &[]),
                    run(2, &pair[1..]),
                ]));
                // A third view, and a run before it.
                for c in &pool[..if out.small { 1 } else { pool.len() }] {
                    let three = [c.clone(), a.clone(), b.clone()];
                    out.put_each(&image(&[run(9, &[]), run(1, &three)]));
                }
            }
        }
    }
}

/// Equal ids among several runs.
fn equal_ids(out: &mut Inputs) {
    let pool = pool();
    for ids in [
        &[1, 1][..],
        &[1, 2, 1],
        &[1, 2, 2],
        &[3, 2, 1],
        &[0, 0x0100_0000],
        &[0x0100_0000, 1, 0x0100_0000],
        &[u32::MAX, 0, u32::MAX],
        &[u32::MAX, 0, u32::MAX - 1],
        &[4, 4, 4],
    ] {
        let runs: Vec<Run> = ids.iter().map(|id| run(*id, &[])).collect();
        out.put_each(&image(&runs));
        let runs: Vec<Run> = ids.iter().map(|id| run(*id, &pool[..1])).collect();
        out.put_each(&image(&runs));
    }
}

/// Decimal run ids; all bytes in hexadecimal; rooms.
fn decimals(out: &mut Inputs) {
    let pool = pool();
    let mut all = view(
        0,
        &(0..=127).collect::<Vec<u8>>(),
        Some(&(128..=255).collect::<Vec<u8>>()),
        None,
    );
    all.table.id = *b"\x01\x23\x45\x67\x89\xAB\xCD\xEF\xFE\xDC\xBA\x98\x76\x54\x32\x10";
    let runs = [
        run(0, &pool[..1]),
        run(9, &pool[3..4]),
        run(10, &[]),
        run(99, &pool[6..]),
        run(100, &pool[..2]),
        run(1_234_567_890, &pool[3..5]),
        run(u32::MAX, &[all]),
    ];
    let buffer = image(&runs);
    let text = listing(&check_image(&buffer).unwrap()).len();
    out.put(&buffer, &[Call::CheckImage]);
    out.put(&buffer, &all_places(&runs));
    out.put(&buffer, &rooms(text));
}

/// Each number of views up to 12, so that places have one digit and two.
fn counts(out: &mut Inputs) {
    let pool = pool();
    for count in 0..=12 {
        let views = vec![pool[5].clone(); count];
        if !out.small || count > 8 {
            out.put_each(&image(&[
                run(count as u32, &views),
                run(77, &views[..count / 2]),
            ]));
        }
    }
}

/// Places that are there and places that are not.
pub fn places(out: &mut Inputs) {
    let views = [
        view(1, b"a", Some(b"c"), None),
        view(2, b"d", None, Some(included(b"e", b"f"))),
    ];
    let far = [
        255,
        256,
        4_096,
        65_535,
        65_536,
        1 << 32,
        1 << 63,
        u64::MAX - 1,
        u64::MAX,
    ];
    for runs in [
        vec![],
        vec![run(1, &[])],
        vec![run(1, &views), run(2, &[]), run(0, &views[1..])],
        vec![run(2, &[]), run(1, &views[..1])],
    ] {
        let mut calls = vec![Call::CheckImage];
        for i in 0..=runs.len() as u64 + 1 {
            calls.extend((0..4).map(|j| Call::EffectiveRange(i, j)));
            calls.extend(far.map(|place| Call::EffectiveRange(i, place)));
        }
        for place in far {
            calls.push(Call::EffectiveRange(place, 0));
            calls.push(Call::EffectiveRange(place, 1));
            calls.push(Call::EffectiveRange(place, place));
        }
        out.put(&image(&runs), &calls);
    }
}

pub fn sums(out: &mut Inputs) {
    const MOST: u64 = 1 << 53;
    let sums = [
        (0, 0),
        (MOST, 0),
        (0, MOST),
        (MOST / 2, MOST / 2),
        (MOST - 1, 1),
        (1, MOST - 1),
        (MOST, 1),
        (1, MOST),
        (0, MOST + 1),
        (MOST + 1, 0),
        (MOST / 2, MOST / 2 + 1),
        (MOST - 1, 2),
        // 2^64 and above, a wrapped sum being 0, small, or exactly at the ceiling.
        (u64::MAX, 1),
        (1, u64::MAX),
        (u64::MAX, u64::MAX),
        (1 << 63, 1 << 63),
        (u64::MAX, MOST + 1),
        (u64::MAX - 4, 5 + MOST),
        (1 << 63, (1 << 63) + MOST),
        (u64::MAX, 0),
        (0, u64::MAX),
        (u64::MAX - MOST, MOST),
        // Alike in the low 32 or 53 bits only.
        (1 << 54, 5),
        (5, 1 << 62),
        (MOST - (1 << 32), 1 << 32),
        (MOST - (1 << 32), (1 << 32) + 1),
    ];
    for (i, (offset, length)) in sums.into_iter().enumerate() {
        for filter in [0, u64::MAX] {
            let mut views = [view(1, b"a", None, None), view(2, b"b", Some(b"c"), None)];
            views[i % 2].table.index_offset = offset;
            views[i % 2].table.index_len = length;
            views[1 - i % 2].table.filter_offset = filter;
            if !out.small || filter > 0 {
                out.put_each(&image(&[run(1, &views)]));
            } else {
                out.put_each(&image(&[run(1, &views[i % 2..=i % 2])]));
            }
        }
    }
}
