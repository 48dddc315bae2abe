//! Long keys and long buffers.
use super::{bound_call, call1, call2, Inputs, MOST_ROOM};
use crate::answers::ranges::{
    Input, AS_POINT, CMP_BOUND, COMPARE_KEYS, CONTAINS, FROM_PREFIX, FROM_PREFIX_AND_SUBRANGE,
    INTERSECT, NON_EMPTY, UNION,
};
use crate::inputs::{excluded, included, range_image};
use crate::{Bound, Key, Range};

fn filled(byte: u8, length: usize) -> Key {
    vec![byte; length]
}

fn ending(byte: u8, length: usize) -> Key {
    [vec![b'k'; length - 1], vec![byte]].concat()
}

fn keys() -> [Key; 12] {
    [
        filled(b'k', 1_024),
        filled(b'k', 1_023),
        ending(b'j', 1_024),
        filled(0xFF, 1_024),
        ending(b'\0', 1_024),
        ending(0xFF, 1_024),
        filled(b'k', 1_025),
        ending(0xFF, 1_023),
        filled(0xFF, 1_023),
        filled(0x00, 1_024),
        ending(b'l', 1_023),
        [vec![b'j'], filled(0xFF, 1_023)].concat(),
    ]
}

fn ranges(keys: &[Key]) -> [Range; 10] {
    [
        included(&keys[0], &keys[0]),
        (Bound::Unbounded, Bound::Excluded(keys[6].clone())),
        excluded(&keys[1], &keys[0]),
        excluded(&keys[2], &keys[3]),
        included(&keys[8], &keys[3]),
        included(&keys[3], &keys[8]),
        (Bound::Included(keys[5].clone()), Bound::Unbounded),
        (Bound::Included(keys[6].clone()), Bound::Unbounded),
        (
            Bound::Excluded(keys[4].clone()),
            Bound::Included(vec![0xFF]),
        ),
        (Bound::Unbounded, Bound::Unbounded),
    ]
}

pub fn long_keys(call: u8, out: &mut Inputs) {
    let all = keys();
    match call {
        COMPARE_KEYS => {
            for a in out.first(&all, 1) {
                for b in out.first(&all, 3) {
                    out.put(&call2(call, a, b));
                }
            }
        }
        CMP_BOUND => {
            for (i, a) in out.first(&all, 1).iter().enumerate() {
                for (j, b) in out.first(&all, 1).iter().enumerate() {
                    let (x, y, z) = (1 + (i + j) as u8 % 2, 1 + j as u8 % 2, i as u8 % 2);
                    out.put(&bound_call(x, y, z, a, b));
                    if !out.small {
                        out.put(&bound_call(y, 3 - x, 1 - z, a, b));
                    }
                }
            }
        }
        FROM_PREFIX => {
            for (room, key) in [(2_052, &all[0]), (2_053, &all[0]), (1_027, &all[3])] {
                out.put(&Input {
                    room,
                    ..call1(call, key)
                });
            }
            for key in out.first(&all, 0) {
                out.put_rooms(&call1(call, key));
            }
        }
        _ => {
            for a in out.first(&ranges(&all), 2) {
                long_range(call, &range_image(a), &all, out);
            }
        }
    }
}

/// The calls that take a range image.
fn long_range(call: u8, a: &[u8], all: &[Key], out: &mut Inputs) {
    match call {
        NON_EMPTY | AS_POINT => out.put(&call1(call, a)),
        INTERSECT | UNION => {
            out.put(&call2(call, a, &range_image(&included(b"a", b"z"))));
            for b in out.first(&ranges(all), 0) {
                out.put(&call2(call, a, &range_image(b)));
            }
        }
        FROM_PREFIX_AND_SUBRANGE => {
            for prefix in out.first(&[&[][..], b"k", &all[5], &all[7]], 0) {
                out.put(&Input {
                    room: MOST_ROOM,
                    ..call2(call, prefix, a)
                });
            }
        }
        CONTAINS => {
            for key in out.first(all, 1) {
                out.put(&call2(call, a, key));
            }
        }
        _ => unreachable!(),
    }
}

/// Buffers of 65,535 bytes, the most that a record's 16 bits can say.
pub fn full_buffers(call: u8, out: &mut Inputs) {
    const MOST: usize = 65_535;
    let good = range_image(&included(b"ab", b"b"));
    let filled = |start: &[u8], byte: u8| {
        let mut buffer = start.to_vec();
        buffer.resize(MOST, byte);
        buffer
    };
    let key = filled(b"", b'k');
    let rest = filled(&good, 0);
    let kind = filled(&[0x30], 0);
    let length = filled(&[0x50, 0, 1], 4);
    match call {
        COMPARE_KEYS => {
            out.put(&call2(call, &key, b"k"));
            out.put(&call2(call, b"k", &key));
        }
        CMP_BOUND => {
            out.put(&bound_call(0, 1, 0, &key, b"k"));
            out.put(&bound_call(1, 3, 1, &key, b""));
            out.put(&bound_call(2, 2, 1, b"k", &key));
        }
        FROM_PREFIX => out.put(&Input {
            room: MOST_ROOM,
            ..call1(call, &key)
        }),
        FROM_PREFIX_AND_SUBRANGE => {
            out.put(&call2(call, &key, &[0xFF]));
            out.put(&call2(call, b"k", &rest));
            out.put(&call2(call, b"k", &length));
        }
        NON_EMPTY | AS_POINT => {
            for a in [&rest, &kind, &length] {
                out.put(&call1(call, a));
            }
        }
        INTERSECT | UNION => {
            for (a, b) in [
                (&rest, &good),
                (&length, &good),
                (&good, &rest),
                (&good, &kind),
                (&rest, &kind),
            ] {
                out.put(&call2(call, a, b));
            }
        }
        CONTAINS => {
            out.put(&call2(call, &rest, b"b"));
            out.put(&call2(call, &length, &key));
            out.put(&call2(call, &good, &key));
            out.put(&call2(call, &range_image(&included(b"b", b"a")), &key));
        }
        _ => unreachable!(),
    }
}
