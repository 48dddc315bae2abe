//! Damaged indexes, ranges and end bounds. (Damaged images are those of the calls on images.)
use super::{covering, of_key, of_view, of_views, up_to, Inputs, RANGE_CALLS};
use crate::inputs::images::two_views;
use crate::inputs::ranges::damages;
use crate::inputs::{
    blocks, excluded, image, included, index, range_image, write_index, Field, Mark,
};
use crate::{Bound, Key};

fn small_indexes() -> [Vec<Key>; 3] {
    [
        vec![],
        vec![b"ab".to_vec()],
        vec![vec![], b"a".to_vec(), b"a\0".to_vec()],
    ]
}

/// One place of an index damaged, in every way.
pub fn damage(out: &mut Inputs) {
    for (which, keys) in small_indexes().iter().enumerate() {
        let (good, marks) = write_index(&blocks(keys));
        for length in 0..good.len() {
            put_two(&good[..length], out);
        }
        for more in [&[0][..], &[0xFF], &[0, 0], &[0; 10], &good] {
            put_two(&[&good[..], more].concat(), out);
        }
        for at in 0..good.len() {
            if out.small && which == 2 && at % 3 > 0 {
                continue;
            }
            let values = [good[at] ^ 1, 0xFF, good[at] ^ 0x40, 0, good[at] ^ 0x80];
            for value in &values[..if out.small { 2 } else { 5 }] {
                let mut bytes = good.clone();
                bytes[at] = *value;
                put_two(&bytes, out);
            }
        }
        marks.iter().for_each(|mark| each_number(&good, mark, out));
    }
    end_kinds(out);
}

/// Other counts and lengths.
fn each_number(good: &[u8], mark: &Mark, out: &mut Inputs) {
    let values: &[u16] = match mark.field {
        Field::BlockCount => &[0, 1, 2, 3, 4, 6_553, 6_554, 65_535],
        Field::FirstLength => &[0, 1, 2, 3, 1_023, 1_024, 1_025, 1_280, 65_535],
        _ => &[],
    };
    for value in values {
        let mut bytes = good.to_vec();
        bytes[mark.at..mark.at + 2].copy_from_slice(&value.to_be_bytes());
        put_two(&bytes, out);
        // The input ends right after the number.
        bytes.truncate(mark.at + 2);
        put_two(&bytes, out);
    }
}

/// A lookup of a key, any of the five, and of a range. In a small run one of the two.
fn put_two(bytes: &[u8], out: &mut Inputs) {
    let key: &[u8] = *out.chance.of(&[&b""[..], b"a", b"ab"]);
    let key = of_key(key)[out.chance.below(5)].clone();
    let range = out
        .chance
        .of(&[included(b"a", b"a"), excluded(b"", b"b")])
        .clone();
    let range = covering(&range_image(&range));
    match out.small {
        true if out.chance.percent(30) => out.put(bytes, &[range]),
        true => out.put(bytes, &[key]),
        false => out.put(bytes, &[key, range]),
    }
}

/// Copies of good ranges, damaged at one place in every way, in an index and in an image.
pub fn damaged_ranges(out: &mut Inputs) {
    let first_keys = [&b"a"[..], b"b"].map(<[u8]>::to_vec);
    let (index, image) = (index(&first_keys), image(&two_views()));
    let mut bases = vec![range_image(&included(b"ab", b"k"))];
    if !out.small {
        bases.push(range_image(&included(b"k", b"k")));
        bases.push(range_image(&(Bound::Unbounded, Bound::Excluded(vec![]))));
        bases.push(vec![0]);
    }
    for base in bases {
        for range in damages(&base, !out.small) {
            out.put(&index, &[covering(&range)]);
            let end = Bound::Included(b"k".to_vec());
            let all = of_views(0, 1, &end, &range);
            if out.small {
                let call = out.chance.below(5);
                out.put(&image, &all[call..=call]);
            } else {
                out.put(&image, &all);
            }
        }
    }
}

/// Kinds of the end bound, with a key and without: 3 and more are none.
fn end_kinds(out: &mut Inputs) {
    let image = image(&two_views());
    let range = range_image(&included(b"c", b"c"));
    for kind in 0..=255u8 {
        if out.small && kind > 4 && kind.count_ones() != 1 && kind != 255 {
            continue;
        }
        for end in [&b""[..], b"k", b"h"] {
            out.put(&image, &[up_to(0, 0, (kind, end), &range)]);
            if !out.small {
                out.put(&image, &[up_to(0, 1, (kind, end), b"\x01")]);
                out.put(&image, &[up_to(9, 1, (kind, end), &range)]);
            }
        }
    }
    let asked = RANGE_CALLS.map(|call| of_view(call, 0, 1, &range));
    out.put(&image, &asked);
}
