//! The papers' edges, and inputs at which the calls turn.
use super::{anchors_of, index_of, plan, planning, sample, select, Inputs};
use crate::answers::plans::{value, Case, Value};
use crate::inputs::{
    before, excluded, from, from_to, image, included, run, since, until, view, EVERYTHING,
};
use crate::{Bound, Index, Key, Range, Run, View};

/// 2^63.
const OVER: u64 = 1 << 63;

pub fn from_the_papers(out: &mut Inputs) {
    edges(out);
    settings(out);
    totals(out);
    turns(out);
    offsets(out);
    strides(out);
    views(out);
}

/// The keys at which a plan's ranges begin.
fn boundaries(case: &Case) -> Vec<Key> {
    let Ok(Value::Plan(ranges)) = value(case) else {
        panic!("no plan");
    };
    let starts = ranges.into_iter().map(|(start, _)| start);
    let keys = starts.filter_map(|start| match start {
        Bound::Included(key) => Some(key),
        _ => None,
    });
    keys.collect()
}

/// Puts a call that splits at these keys.
fn put_split(case: &Case, keys: &[&[u8]], out: &mut Inputs) {
    assert_eq!(boundaries(case), keys);
    out.put_with_each_room(case);
}

/// "Anchors a,b,c,d of 10 each, 2 parts, least 0: -..c), [c..-. The same, 4 parts, least 40: one range."
/// Equal keys in both orders; no anchors; one key alone.
fn edges(out: &mut Inputs) {
    let four = anchors_of(&[(b"a", 10), (b"b", 10), (b"c", 10), (b"d", 10)]);
    put_split(&select(2, 0, &four), &[b"c"], out);
    put_split(&select(4, 40, &four), &[], out);
    put_split(&select(4, 39, &four), &[], out);
    put_split(&select(4, 20, &four), &[b"c"], out);
    put_split(&select(4, 0, &four), &[b"b", b"c", b"d"], out);
    let two = |list: &[(&[u8], u64)]| select(2, 0, &anchors_of(list));
    let first = [(b"a".as_slice(), 5), (b"b", 30), (b"b", 10), (b"c", 5)];
    let other = [(b"a".as_slice(), 5), (b"b", 10), (b"b", 30), (b"c", 5)];
    put_split(&two(&first), &[b"b"], out);
    put_split(&two(&other), &[b"c"], out);
    put_split(&select(10, 0, &anchors_of(&first)), &[b"b", b"c"], out);
    put_split(&two(&[]), &[], out);
    put_split(&two(&[(b"", 7)]), &[], out);
    put_split(&two(&[(b"k", 7), (b"k", 7), (b"k", 7)]), &[], out);
    put_split(&two(&[(b"", 0), (b"a", 0)]), &[], out);
    put_split(&two(&[(b"", 1), (b"\0", 1)]), &[b"\0"], out);
    // Given in no order; a prefix comes first.
    let mixed = [(b"ab".as_slice(), 9), (b"a", 9), (b"b", 9), (b"", 9)];
    put_split(
        &select(4, 0, &anchors_of(&mixed)),
        &[b"a", b"ab", b"b"],
        out,
    );
    for list in [&first[..], &other, &mixed] {
        for parts in 0..6 {
            for least in [0, 1, 9, 10, 25, 49, 50, u64::MAX] {
                out.put(&select(parts, least, &anchors_of(list)));
            }
        }
    }
}

/// Requested parts and anchors a table around 0, 1 and their ceilings.
fn settings(out: &mut Inputs) {
    let numbers = [
        0,
        1,
        2,
        63,
        64,
        65,
        127,
        128,
        255,
        256,
        4_095,
        4_096,
        4_097,
        65_536,
        1 << 32,
        (1 << 32) + 2,
        OVER,
        u64::MAX,
    ];
    let few = anchors_of(&[(b"a", 10), (b"b", 10), (b"c", 11)]);
    let index = index_of(&[(0, b"a"), (10, b"b"), (30, b"c")]);
    let runs = [run(7, &[view(1, b"a", None, None)])];
    for number in numbers {
        out.put(&select(number, 0, &few));
        out.put(&sample(number, 50, &index, &EVERYTHING));
        out.put(&plan(number, &runs, &[index.clone()]));
        // Before any buffer.
        for bytes in [&b""[..], &[0xFF; 7]] {
            out.put(&super::selecting(number, 0, bytes));
            out.put(&super::sampling(number, 0, bytes, bytes));
            out.put(&planning(number, bytes, bytes));
        }
        // Least range bytes and the data end have no ceiling.
        for parts in [0, 1, 2, 64] {
            out.put(&select(parts, number, &few));
        }
        out.put(&sample(2, number, &index, &EVERYTHING));
    }
}

/// Totals of 2^63 - 1, 2^63 and far beyond, also such that wrap 64 bits; for one part too.
fn totals(out: &mut Inputs) {
    let lists: [&[u64]; 10] = [
        &[OVER - 1],
        &[OVER],
        &[OVER - 2, 1],
        &[OVER - 1, 1],
        &[u64::MAX],
        &[u64::MAX, u64::MAX],
        &[OVER, OVER],
        &[u64::MAX, 1, 5],
        &[1, OVER - 3, 1],
        &[OVER / 2, 0, OVER / 2 - 1, 0],
    ];
    let keys: [&[u8]; 4] = [b"a", b"b", b"c", b"d"];
    for list in lists {
        for parts in [0, 1, 2, 3, 64] {
            let pairs: Vec<_> = keys.into_iter().zip(list.iter().copied()).collect();
            for least in [0, OVER - 2, OVER - 1, OVER, u64::MAX] {
                out.put(&select(parts, least, &anchors_of(&pairs)));
            }
            // One view for each anchor, the last block of which ends there.
            let of = |(key, bytes): (&[u8], u64)| {
                let mut one = view(1, key, None, None);
                one.table.filter_offset = bytes;
                (one, index_of(&[(0, key)]))
            };
            let both: (Vec<View>, Vec<Index>) = pairs.into_iter().map(of).unzip();
            out.put(&plan(parts, &[run(7, &both.0)], &both.1));
        }
    }
}

/// Where a boundary opens: once the bytes before its key reach the threshold, and not its own; the
/// threshold grows by the target and not from what was reached.
fn turns(out: &mut Inputs) {
    let of = |bytes: &[u64]| -> Vec<(Key, u64)> {
        let keys = (b'a'..).map(|byte| vec![byte]);
        keys.zip(bytes.iter().copied()).collect()
    };
    put_split(&select(2, 0, &of(&[9, 10, 1])), &[b"c"], out);
    put_split(&select(2, 0, &of(&[10, 9, 1])), &[b"b"], out);
    put_split(&select(2, 0, &of(&[9, 11])), &[], out);
    put_split(&select(3, 0, &of(&[18, 1, 1, 10])), &[b"b", b"d"], out);
    put_split(&select(3, 0, &of(&[25, 1, 1, 3])), &[b"b", b"c"], out);
    put_split(&select(3, 10, &of(&[1, 1, 40, 1, 1])), &[b"d", b"e"], out);
    put_split(&select(2, 1, &of(&[1, 1, 1, 1])), &[b"c"], out);
    put_split(&select(64, 1, &of(&[1; 20])), &keys_after_first(20), out);
    put_split(&select(5, 3, &of(&[0, 0, 3, 0, 1])), &[b"d"], out);
    // The smallest key has enough by itself, and more anchors on it.
    let stacked = anchors_of(&[(b"a", 50), (b"a", 50), (b"b", 1), (b"b", 1), (b"c", 1)]);
    put_split(&select(4, 0, &stacked), &[b"b", b"c"], out);
    put_split(&select(2, 0, &stacked), &[b"b"], out);
}

fn keys_after_first(count: u8) -> Vec<&'static [u8]> {
    const LETTERS: &[u8] = b"abcdefghijklmnopqrstuvwxyz";
    (1..usize::from(count))
        .map(|at| &LETTERS[at..=at])
        .collect()
}

/// Offsets that fall, that are equal, and 2^64 - 1; a data end before the last of them.
fn offsets(out: &mut Inputs) {
    let most = u64::MAX;
    let lists: [&[u64]; 8] = [
        &[0, 10, 30],
        &[30, 10, 0],
        &[7, 7, 7],
        &[most, most, most],
        &[0, most, 0],
        &[most, 0, most],
        &[10, 5, 20],
        &[1, OVER, OVER - 1],
    ];
    let keys: [&[u8]; 3] = [b"a", b"b", b"c"];
    for list in lists {
        let pairs: Vec<_> = list.iter().copied().zip(keys).collect();
        let index = index_of(&pairs);
        for data_end in [0, 7, 30, 31, OVER, most - 1, most] {
            for count in [0, 1, 2, 3, 4, 128] {
                out.put(&sample(count, data_end, &index, &EVERYTHING));
            }
            let mut one = view(1, b"a", None, None);
            one.table.filter_offset = data_end;
            for parts in [1, 3] {
                out.put(&plan(parts, &[run(7, &[one.clone()])], &[index.clone()]));
            }
        }
    }
}

/// Blocks of 10 bytes with keys 0000, 0001 and so on.
pub fn even_index(count: usize) -> Index {
    let blocks = (0..count).map(|place| crate::Block {
        offset: 10 * place as u64,
        first: (place as u16).to_be_bytes().to_vec(),
    });
    blocks.collect()
}

/// Groups: as many as blocks, one more or fewer, and a last one that is shorter.
fn strides(out: &mut Inputs) {
    for count in [0, 1, 2, 3, 5, 7, 8, 9, 16] {
        let index = even_index(count);
        for most in 0..=count as u64 + 1 {
            let end = 10 * count as u64;
            out.put(&sample(most, end, &index, &EVERYTHING));
            // A range that begins and ends inside groups.
            let range = from_to(&[0, 1], &[0, 6]);
            out.put(&sample(most, end + 3, &index, &range));
        }
    }
    let mut whole = view(1, b"", None, None);
    whole.table.filter_offset = 1_000_000;
    (whole.table.index_offset, whole.table.index_len) = (20, 0);
    let mut cut = whole.clone();
    cut.visible = Some(from_to(&[0, 1], &[0, 130]));
    for count in [127, 128, 129, 130, 255, 256, 257, 300] {
        let index = even_index(count);
        for view in [&whole, &cut] {
            let mut view = view.clone();
            view.table.filter_offset = 10 * count as u64;
            let case = plan(64, &[run(7, &[view.clone()])], &[index.clone()]);
            if out.some(4, &[1, u8::from(view.visible.is_some())]) {
                out.put(&case);
            }
        }
    }
}

/// Images without views, with an index buffer of 0 bytes and of 1; views that show few of their anchors;
/// equal keys across tables; the largest raw size as the least range.
fn views(out: &mut Inputs) {
    for runs in [&[][..], &[run(7, &[])], &[run(7, &[]), run(8, &[])]] {
        for parts in [0, 1, 2, 64] {
            for indexes in [&[][..], &[0], &[0, 0], &[0, 0, 0]] {
                out.put_with_each_room(&planning(parts, &image(runs), indexes));
            }
        }
    }
    let index = index_of(&[(0, b"a"), (10, b"c"), (20, b"e"), (30, b"g")]);
    let ranges: [Option<Range>; 8] = [
        None,
        Some(EVERYTHING),
        since(b"c"),
        until(b"e"),
        Some(from_to(b"b", b"e")),
        Some(included(b"c", b"c")),
        Some(before(b"c")),
        Some(from(b"d")),
    ];
    for first in &ranges {
        for second in &ranges {
            let mut views = [
                view(1, b"a", Some(b"h"), first.clone()),
                view(2, b"a", None, second.clone()),
            ];
            for view in &mut views {
                view.table.filter_offset = 40;
                (view.table.index_offset, view.table.index_len) = (4, 3);
            }
            let [one, two] = &views;
            let apart = [run(1, &[one.clone()]), run(2, &[two.clone()])];
            let indexes = [index.clone(), index.clone()];
            for parts in [2, 3, 8] {
                out.put(&plan(parts, &apart, &indexes));
                out.put(&plan(parts, &[run(1, &views)], &indexes));
            }
        }
    }
    for range in [
        EVERYTHING,
        included(b"c", b"e"),
        excluded(b"c", b"g"),
        from(b"h"),
        before(b""),
        excluded(b"a", b"a\0"),
        from_to(b"c", b"c"),
        (Bound::Excluded(b"a".to_vec()), Bound::Unbounded),
    ] {
        for most in [1, 2, 3, 4] {
            out.put_with_each_room(&sample(most, 40, &index, &range));
        }
    }
    raw_sizes(out);
}

/// The least range is the largest of all raw sizes, of an index offset and a length together.
fn raw_sizes(out: &mut Inputs) {
    let sized = |number: u8, index_offset: u64, index_len: u64| {
        let mut view = view(number, b"a", None, None);
        view.table.filter_offset = 40;
        (view.table.index_offset, view.table.index_len) = (index_offset, index_len);
        view
    };
    let index = index_of(&[(0, b"a"), (10, b"c"), (20, b"e"), (30, b"g")]);
    let sizes: [[(u64, u64); 2]; 8] = [
        [(0, 0), (0, 0)],
        [(0, 20), (5, 4)],
        [(5, 4), (20, 0)],
        [(39, 0), (0, 39)],
        [(39, 40), (0, 0)],
        [(0, 0), (40, 40)],
        [(1 << 53, 0), (0, 0)],
        [(0, 0), (1 << 53, 1)],
    ];
    for [one, two] in sizes {
        let runs: [Run; 1] = [run(1, &[sized(1, one.0, one.1), sized(2, two.0, two.1)])];
        for parts in [1, 2, 4, 8] {
            out.put(&plan(parts, &runs, &[index.clone(), index.clone()]));
        }
    }
}
