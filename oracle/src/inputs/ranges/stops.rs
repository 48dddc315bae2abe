//! Inputs that are refused: pairs of stops, so that their order shows, and damaged images.
use super::{bound_call, call1, call2, rooms, Inputs, MOST_ROOM};
use crate::answers::ranges::{
    Input, AS_POINT, CMP_BOUND, COMPARE_KEYS, CONTAINS, FROM_PREFIX, FROM_PREFIX_AND_SUBRANGE,
    INTERSECT, NON_EMPTY, UNION,
};
use crate::inputs::{excluded, included, range_image};
use crate::Bound;

/// Every way in which one place of an image can be damaged.
pub fn damages(good: &[u8], all_values: bool) -> Vec<Vec<u8>> {
    let mut list: Vec<Vec<u8>> = (0..good.len()).map(|n| good[..n].to_vec()).collect();
    let changed = |at: usize, value: u8| {
        let mut copy = good.to_vec();
        copy[at] = value;
        copy
    };
    for (at, &byte) in good.iter().enumerate() {
        let mut values = vec![byte ^ 1, byte ^ 4, 0xFF];
        if all_values {
            values.extend([0, byte.wrapping_add(1), byte.wrapping_sub(1), byte ^ 0x80]);
        }
        list.extend(values.into_iter().map(|value| changed(at, value)));
    }
    for bit in 0..8 {
        list.push(changed(0, good[0] ^ 1 << bit));
    }
    list.push(changed(0, good[0] | 0xC0));
    list.push(changed(0, good[0] | 0x30));
    for more in [&[0][..], &[0xFF], &[0, 0], good] {
        list.push([good, more].concat());
    }
    for at in lengths_at(good) {
        for length in [0, 1, 1_023, 1_024, 1_025, 1_280, 65_535u16] {
            let mut copy = good.to_vec();
            copy[at..at + 2].copy_from_slice(&length.to_be_bytes());
            list.push(copy.clone());
            // The input ends right after the length.
            copy.truncate(at + 2);
            list.push(copy);
        }
    }
    list
}

/// The places of the key lengths in a good image.
pub fn lengths_at(good: &[u8]) -> Vec<usize> {
    let keys = usize::from(good[0] >> 6 != 0) + usize::from(good[0] >> 4 & 3 != 0);
    let mut places = vec![];
    let mut at = 1;
    for _ in 0..keys {
        places.push(at);
        at += 2 + usize::from(good[at]) * 256 + usize::from(good[at + 1]);
    }
    places
}

fn good_image() -> Vec<u8> {
    range_image(&included(b"ab", b"b"))
}

/// Images of short ranges: good ones, and some for each of the stops 1 to 4.
pub fn order_images() -> Vec<Vec<u8>> {
    let good = good_image();
    let mut list = vec![
        good.clone(),
        range_image(&(Bound::Unbounded, Bound::Excluded(vec![]))),
        range_image(&included(b"b", b"a")),
        range_image(&excluded(b"a", b"a")),
        vec![],
        good[..good.len() - 1].to_vec(),
        [&good[..], b"x"].concat(),
        vec![0xC0],
        vec![0x30],
        vec![0x01],
        [&[0x18][..], &good[1..]].concat(),
        vec![0x40, 0x04, 0x01],
        vec![0x10, 0xFF, 0xFF],
        // The start key's length comes before the end of the input,
        vec![0x50, 0, 1, b'b', 4, 1],
        // and a fault of the head before both.
        vec![0x51, 4, 1],
    ];
    list.push([&range_image(&included(b"b", b"a"))[..], &[0]].concat());
    list
}

pub fn stops(call: u8, out: &mut Inputs) {
    match call {
        COMPARE_KEYS => long_compared(out),
        CMP_BOUND => bounds(out),
        NON_EMPTY | AS_POINT => heads(call, out),
        INTERSECT | UNION => pairs(call, out),
        FROM_PREFIX => {
            for &room in out.first(&[0, MOST_ROOM], 1) {
                out.put(&Input {
                    room,
                    ..call1(call, &long(1_025))
                });
            }
        }
        FROM_PREFIX_AND_SUBRANGE => {
            subranges(out);
            joined_too_long(out);
        }
        CONTAINS => ranges_and_keys(out),
        _ => unreachable!(),
    }
    damaged(call, out);
}

pub fn long(length: usize) -> Vec<u8> {
    vec![b'k'; length]
}

fn long_compared(out: &mut Inputs) {
    let lengths = [(1_025, 0), (0, 1_025), (1_025, 1_025), (2_000, 1)];
    for (a, b) in out.first(&lengths, 2) {
        out.put(&call2(COMPARE_KEYS, &long(*a), &long(*b)));
    }
}

fn bounds(out: &mut Inputs) {
    for x in [0, 1, 2, 3, 4, 128, 255] {
        for y in [0, 1, 2, 3, 4, 128, 255] {
            for (a, b) in [("", ""), ("a", ""), ("", "a"), ("a", "a")] {
                let z = out.chance.below(2) as u8;
                out.put(&bound_call(x, y, z, a.as_bytes(), b.as_bytes()));
            }
        }
    }
    for &(x, y) in out.first(&[(0, 1), (3, 1), (1, 3), (2, 0)], 3) {
        out.put(&bound_call(x, y, 1, &long(1_025), b"a"));
        out.put(&bound_call(1, x, 0, b"a", &long(1_025)));
        if !out.small {
            out.put(&bound_call(y, x, 0, b"a", &long(1_025)));
            out.put(&bound_call(y, x, 1, b"", &long(1_025)));
        }
    }
}

/// Every head, alone and with keys.
fn heads(call: u8, out: &mut Inputs) {
    let good = good_image();
    for head in 0..=255u8 {
        if head & 15 == 0 {
            out.put(&call1(call, &[&[head], &good[1..]].concat()));
        }
        if head & 15 == 0 || call == NON_EMPTY || !out.small {
            out.put(&call1(call, &[head]));
        }
        if head & 15 == 0 || !out.small {
            out.put(&call1(call, &[head, 4, 1]));
            out.put(&call1(call, &[&[head], &good[1..5]].concat()));
        }
    }
    for image in &order_images() {
        out.put(&call1(call, image));
    }
}

fn pairs(call: u8, out: &mut Inputs) {
    let images = order_images();
    for a in &images {
        for b in &images {
            out.put(&call2(call, a, b));
        }
    }
}

fn subranges(out: &mut Inputs) {
    let call = FROM_PREFIX_AND_SUBRANGE;
    let images = order_images();
    for prefix in [&[][..], b"a", b"\xFF\xFF"] {
        for image in &images {
            out.put_rooms(&call2(call, prefix, image));
        }
    }
    for &i in out.first(&[7, 0, 2, 4, 11], 1) {
        out.put(&call2(call, &long(1_025), &images[i]));
    }
}

/// Over 1,024 bytes once joined: each end, before stop 4, after stops 1 and 2.
fn joined_too_long(out: &mut Inputs) {
    let call = FROM_PREFIX_AND_SUBRANGE;
    let none = Bound::Unbounded;
    let key = |length| Bound::Included(long(length));
    let joined = [
        (1_024, (key(1), none.clone())),
        (1_024, (none.clone(), Bound::Excluded(vec![]))),
        (600, (key(424), none.clone())),
        (600, (key(425), key(0))),
        (1, (none.clone(), key(1_024))),
        (0, (none.clone(), key(1_024))),
        (1_024, (none.clone(), key(1))),
        (1_023, (key(2), key(1))),
        (1_023, (key(1), key(1))),
        (1_024, (none.clone(), key(0))),
        (1_024, (none.clone(), none)),
    ];
    for (prefix, range) in out.first(&joined, 6) {
        let input = call2(call, &long(*prefix), &range_image(range));
        out.put(&Input {
            room: 2_053,
            ..input.clone()
        });
        if !out.small {
            out.put_rooms(&input);
        }
    }
    if !out.small {
        out.put(&call2(call, &long(1_024), &[0x10, 0, 1]));
        out.put(&call2(call, &long(1_024), &[0x11, 0, 1, b'k']));
    }
}

fn ranges_and_keys(out: &mut Inputs) {
    let images = order_images();
    for image in &images {
        for key in [&[][..], b"ab", b"b\0"] {
            out.put(&call2(CONTAINS, image, key));
        }
    }
    for &i in out.first(&[2, 7, 0, 4, 11], 2) {
        out.put(&call2(CONTAINS, &images[i], &long(1_025)));
    }
}

/// Damaged copies, of the first and of the second range.
fn damaged(call: u8, out: &mut Inputs) {
    let good = good_image();
    let other = range_image(&(Bound::Excluded(b"a\0".to_vec()), Bound::Unbounded));
    let point = range_image(&included(b"k", b"k"));
    let from = range_image(&(Bound::Unbounded, Bound::Included(b"kk".to_vec())));
    let bases = match (call, out.small) {
        (NON_EMPTY, _) | (_, false) => vec![good, point, from, other.clone(), vec![0]],
        (_, true) => vec![good],
    };
    for base in bases {
        for damaged in damages(&base, !out.small || call == NON_EMPTY) {
            match call {
                NON_EMPTY | AS_POINT => out.put(&call1(call, &damaged)),
                INTERSECT | UNION => {
                    out.put(&call2(call, &damaged, &other));
                    out.put(&call2(call, &other, &damaged));
                }
                FROM_PREFIX_AND_SUBRANGE => {
                    let input = call2(call, b"p", &damaged);
                    let room = *out.chance.of(&rooms(&input));
                    out.put(&Input { room, ..input });
                }
                CONTAINS => out.put(&call2(call, &damaged, b"ab")),
                _ => {}
            }
        }
    }
}
