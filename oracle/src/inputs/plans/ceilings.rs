//! Plans at the ceilings.
use super::{
    anchors_of, end_to_end, papers::even_index, plan, planning, sample, sampling, select,
    selecting, Inputs,
};
use crate::answers::plans::{value, Case, Value};
use crate::checks::{Checked, ANCHOR_CEILING, BUFFER_CEILING, KEY_CEILING};
use crate::inputs::{
    anchors, before, from, image, included, range_image, run, view, write_index, EVERYTHING,
};
use crate::{Block, Index, Key, View};

pub fn ceilings(out: &mut Inputs) {
    longest_plan(out);
    most_anchors(out);
    full_anchors(out);
    full_indexes(out);
    most_sampled(out);
    many_views(out);
    many_runs(out);
    long_keys(out);
}

/// The number of a plan's ranges, or the stop.
fn ranges(case: &Case) -> Checked<usize> {
    value(case).map(|value| match value {
        Value::Plan(ranges) => ranges.len(),
        Value::Anchors(_) => panic!("no plan"),
    })
}

fn put_of(case: &Case, due: Checked<usize>, out: &mut Inputs) {
    assert_eq!(ranges(case), due);
    out.put_with_each_room(case);
}

/// A view whose raw size is 1, and whose data end at an offset.
fn light(first: &[u8], data_end: u64) -> View {
    let mut view = view(1, first, None, None);
    (view.table.index_offset, view.table.index_len) = (1, 0);
    view.table.filter_offset = data_end;
    view
}

/// 64 keys of this length, but for the first, which is empty: they differ in the last byte.
fn long_list(length: usize) -> Vec<Key> {
    let mut keys = vec![vec![]];
    for last in 1..64 {
        keys.push([&vec![b'k'; length - 1][..], &[last]].concat());
    }
    keys
}

fn evenly(keys: &[Key], bytes: u64) -> Vec<(Key, u64)> {
    keys.iter().map(|key| (key.clone(), bytes)).collect()
}

fn evenly_placed(keys: &[Key], bytes: u64) -> Index {
    let offsets = (0..).step_by(bytes as usize);
    let blocks = keys.iter().zip(offsets).map(|(first, offset)| Block {
        offset,
        first: first.clone(),
    });
    blocks.collect()
}

/// 64 ranges with 63 keys of 1,024 bytes: 129,341 bytes. Fewer parts, and one that is none.
fn longest_plan(out: &mut Inputs) {
    let keys = long_list(KEY_CEILING);
    let index = evenly_placed(&keys, 10);
    let runs = [run(7, &[light(b"", 640)])];
    for parts in [64, 63, 2, 1, 65] {
        let due = if parts > 64 {
            Err(3)
        } else {
            Ok(parts as usize)
        };
        // 63 parts have 10 bytes each, and so do all but the last.
        put_of(&select(parts, 0, &evenly(&keys, 10)), due, out);
        put_of(&plan(parts, &runs, &[index.clone()]), due, out);
    }
    let mut backwards = evenly(&keys, 10);
    backwards.reverse();
    put_of(&select(64, 0, &backwards), Ok(64), out);
    // Of over 65,536 bytes, and just that.
    for length in [519, 520, 600] {
        put_of(&select(64, 0, &evenly(&long_list(length), 10)), Ok(64), out);
    }
}

/// 4,095 to 4,097 anchors: on one key, on 64 keys in turn, each way round.
fn most_anchors(out: &mut Inputs) {
    for count in [ANCHOR_CEILING - 1, ANCHOR_CEILING, ANCHOR_CEILING + 1] {
        let list = |key: &dyn Fn(usize) -> Key| -> Vec<(Key, u64)> {
            (0..count).map(|place| (key(place), 3)).collect()
        };
        let due = |count_of_ranges: usize| match count > ANCHOR_CEILING {
            true => Err(3),
            false => Ok(count_of_ranges),
        };
        put_of(&select(64, 0, &list(&|_| vec![])), due(1), out);
        put_of(
            &select(64, 0, &list(&|at| vec![at as u8 % 64])),
            due(64),
            out,
        );
        let falls = list(&|at| vec![63 - at as u8 % 64]);
        put_of(&select(64, 0, &falls), due(64), out);
        put_of(&select(1, 0, &falls), due(1), out);
        if !out.small {
            let numbered = |at: usize| (at as u16).to_be_bytes().to_vec();
            for parts in [2, 8, 64] {
                put_of(
                    &select(parts, 0, &list(&numbered)),
                    due(parts as usize),
                    out,
                );
                let falls = list(&|at| numbered(count - at));
                put_of(&select(parts, 0, &falls), due(parts as usize), out);
            }
        }
    }
    // A count of 4,097 with nothing after it.
    out.put(&selecting(2, 0, &4_097u16.to_be_bytes()));
    out.put(&selecting(2, 0, &4_096u16.to_be_bytes()));
}

/// 65,535 to 65,537 bytes.
fn full_anchors(out: &mut Inputs) {
    for length in [BUFFER_CEILING - 1, BUFFER_CEILING, BUFFER_CEILING + 1] {
        let mut keys = long_list(KEY_CEILING);
        keys[0] = vec![b'a'; length - 2 - 63 * (KEY_CEILING + 10) - 10];
        let bytes = anchors(&evenly(&keys, 10));
        assert_eq!(bytes.len(), length);
        out.put_with_each_room(&selecting(64, 0, &bytes));
        let index = write_index(&evenly_placed(&keys, 10)).0;
        assert_eq!(index.len(), length);
        let image = image(&[run(7, &[light(b"", 640)])]);
        out.put_with_each_room(&planning(64, &image, &index));
        out.put_with_each_room(&sampling(64, 640, &index, &range_image(&EVERYTHING)));
    }
    let list = anchors_of(&[(b"a", 1), (b"b", 1)]);
    let mut long = anchors(&list);
    long.resize(BUFFER_CEILING + 1, 0);
    out.put(&selecting(2, 0, &long));
}

/// As many blocks as 65,536 bytes can have, in groups; 4,095 to 4,097 blocks.
fn full_indexes(out: &mut Inputs) {
    let of = |count: usize| -> Index {
        let block = |place: usize| Block {
            offset: 7,
            first: if place < 100 { vec![] } else { b"z".to_vec() },
        };
        (0..count).map(block).collect()
    };
    for (count, most) in [
        (4_095, 4_096),
        (4_096, 4_096),
        (4_097, 4_096),
        (5_900, 4_096),
        (5_900, 1),
        (5_900, 128),
        (4_096, 4_095),
    ] {
        let index = of(count);
        out.put(&sample(most, 9, &index, &EVERYTHING));
        out.put(&sample(most, 9, &index, &before(b"z")));
    }
    out.put_with_each_room(&sample(4_096, 9, &of(4_096), &from(b"z")));
    let empty = Block {
        offset: 1 << 40,
        first: vec![],
    };
    let mut index = vec![empty; 6_553];
    index[6_552].first = b"zzzz".to_vec();
    let bytes = write_index(&index).0;
    assert_eq!(bytes.len(), BUFFER_CEILING);
    for most in [0, 1, 100, 4_096] {
        let range = range_image(&EVERYTHING);
        out.put(&sampling(most, u64::MAX, &bytes, &range));
        out.put(&sampling(
            most,
            u64::MAX,
            &[&bytes[..], b"z"].concat(),
            &range,
        ));
    }
    let image = image(&[run(7, &[light(b"", 1 << 41)])]);
    out.put(&planning(64, &image, &bytes));
    out.put(&planning(64, &image, &[&bytes[..], b"z"].concat()));
}

/// 4,096 and 4,097 anchors of several views; those that no view shows do not count. Stop 7 comes before
/// 15, and 15 before 16.
fn most_sampled(out: &mut Inputs) {
    let index = even_index(128);
    let short = |key: &[u8]| -> Index {
        vec![Block {
            offset: 0,
            first: key.to_vec(),
        }]
    };
    let mut views = vec![light(b"", 1_280); 32];
    let mut indexes = vec![index.clone(); 32];
    put_of(&plan(64, &[run(7, &views)], &indexes), Ok(64), out);
    put_of(&plan(1, &[run(7, &views)], &indexes), Ok(1), out);
    views.push(light(b"k", 10));
    indexes.push(short(b"z"));
    put_of(&plan(64, &[run(7, &views)], &indexes), Err(15), out);
    put_of(&plan(1, &[run(7, &views)], &indexes), Err(15), out);
    indexes[32] = short(b"a");
    put_of(&plan(64, &[run(7, &views)], &indexes), Ok(64), out);
    views[32].table.filter_offset = 1 << 63;
    put_of(&plan(64, &[run(7, &views)], &indexes), Ok(64), out);
    indexes[32] = short(b"z");
    put_of(&plan(64, &[run(7, &views)], &indexes), Err(7), out);
    views[32].table.filter_offset = 10;
    // One block more in a table: two in a group, so that 64 and one anchors are sampled of it.
    indexes[0] = even_index(129);
    put_of(&plan(64, &[run(7, &views)], &indexes), Ok(64), out);
    // In runs that are apart, and some shown in part.
    let apart: Vec<_> = (0..33)
        .map(|place| run(place as u32, &views[place..=place]))
        .collect();
    put_of(&plan(64, &apart, &indexes), Ok(64), out);
    indexes[0] = index.clone();
    put_of(&plan(64, &apart, &indexes), Err(15), out);
    views[0].visible = Some(included(b"", &[0, 126]));
    put_of(&plan(64, &[run(7, &views)], &indexes), Ok(64), out);
    let mut many = vec![light(b"", 1_280); 42];
    many.extend(vec![light(b"", 0); 3]);
    let mut indexes = vec![index; 42];
    indexes.extend(vec![vec![]; 3]);
    put_of(&plan(2, &[run(7, &many)], &indexes), Err(15), out);
}

/// 1,023 to 1,025 views, with no blocks and with four each.
fn many_views(out: &mut Inputs) {
    for count in [1_023, 1_024, 1_025] {
        let views = vec![light(b"", 40); count];
        let image = image(&[run(7, &views)]);
        let due = |ranges: usize| if count > 1_024 { Err(3) } else { Ok(ranges) };
        let none = end_to_end(&vec![vec![]; count]);
        put_of(&planning(64, &image, &none), due(1), out);
        out.put(&planning(64, &image, &none[..none.len() - 1]));
        out.put(&planning(64, &image, &[&none[..], b"\0"].concat()));
        let four: Index = (0..4)
            .map(|place| Block {
                offset: 10 * place,
                first: vec![place as u8],
            })
            .collect();
        let indexes = vec![four; count];
        put_of(&planning(64, &image, &end_to_end(&indexes)), due(4), out);
    }
}

/// 63 to 65 runs, each with a view, also in turn without one.
fn many_runs(out: &mut Inputs) {
    for count in [63, 64, 65] {
        let key = |place: u32| vec![b'a' + (place % 7) as u8];
        let runs: Vec<_> = (0..count)
            .map(|place| run(place, &[light(&key(place), 10)]))
            .collect();
        let of = |place: u32| evenly_placed(&[key(place), vec![b'h', place as u8]], 5);
        let indexes: Vec<Index> = (0..count).map(of).collect();
        out.put_with_each_room(&plan(64, &runs, &indexes));
        let mut fewer = runs;
        fewer
            .iter_mut()
            .step_by(2)
            .for_each(|run| run.views.clear());
        let odd: Vec<Index> = indexes.into_iter().skip(1).step_by(2).collect();
        out.put(&plan(8, &fewer, &odd));
    }
}

/// Keys of 1,023 to 1,025 bytes.
fn long_keys(out: &mut Inputs) {
    for length in [KEY_CEILING - 1, KEY_CEILING, KEY_CEILING + 1] {
        let keys = [vec![b'k'; length - 1], vec![b'k'; length], b"l".to_vec()];
        let index = evenly_placed(&keys, 10);
        let shown = keys[1][..length.min(KEY_CEILING)].to_vec();
        for parts in [2, 3] {
            out.put_with_each_room(&select(parts, 0, &evenly(&keys, 10)));
            let mut view = light(b"k", 30);
            out.put(&plan(parts, &[run(7, &[view.clone()])], &[index.clone()]));
            view.visible = Some(from(&shown));
            out.put(&plan(parts, &[run(7, &[view])], &[index.clone()]));
        }
        out.put_with_each_room(&sample(3, 30, &index, &EVERYTHING));
        out.put(&sample(3, 30, &index, &from(&keys[1])));
        out.put(&sample(3, 30, &even_index(3), &from(&keys[1])));
    }
}
