//! Two faults at once where `stops` has few: of a prefix with its subrange, of a range with a key.
use super::stops::{long, order_images};
use super::{call2, Inputs};
use crate::answers::ranges::{Input, CONTAINS, FROM_PREFIX_AND_SUBRANGE};
use crate::checks::KEY_CEILING;
use crate::inputs::{excluded, from_to, included, range_image};
use crate::{non_empty, Bound, Range};

pub fn together(call: u8, out: &mut Inputs) {
    match call {
        FROM_PREFIX_AND_SUBRANGE => {
            joins_that_fail(out);
            prefixes_and_faults(out);
        }
        CONTAINS => keys_of_no_range(out),
        _ => {}
    }
}

/// Of two keys the ranges that fail, excluded ones first.
fn failing(start: &[u8], end: &[u8]) -> Vec<Range> {
    let mut ranges = vec![
        excluded(start, end),
        from_to(start, end),
        included(start, end),
    ];
    let (start, end) = (start.to_vec(), end.to_vec());
    ranges.push((Bound::Excluded(start), Bound::Included(end)));
    ranges.retain(|range| !non_empty(range));
    ranges
}

/// A subrange that fails, whose longer keys join to 1,024 bytes (4) or to one more (3): those of
/// the start, of the end, of both.
fn joins_that_fail(out: &mut Inputs) {
    let keys: [(&[u8], &[u8]); 4] = [(b"kk", b"k"), (b"l", b"kk"), (b"kl", b"kk"), (b"kk", b"kk")];
    for length in [KEY_CEILING, KEY_CEILING + 1] {
        let prefix = long(length - 2);
        for (start, end) in keys {
            let ranges = failing(start, end);
            for (range, room) in out.first(&ranges, 2).iter().zip([0, 2_053, 0, 2_053]) {
                let image = range_image(range);
                out.put(&Input {
                    room,
                    ..call2(FROM_PREFIX_AND_SUBRANGE, &prefix, &image)
                });
            }
        }
    }
}

/// Good and faulty subranges of a prefix that is too long, and of one that joins with no byte.
fn prefixes_and_faults(out: &mut Inputs) {
    for length in [KEY_CEILING, KEY_CEILING + 1] {
        for image in order_images() {
            out.put(&call2(FROM_PREFIX_AND_SUBRANGE, &long(length), &image));
        }
    }
}

/// Keys of 1,025 bytes with images of all kinds (3 where they are good), and with ranges that fail
/// (3); of 1,024 with these (4).
fn keys_of_no_range(out: &mut Inputs) {
    for image in order_images() {
        out.put(&call2(CONTAINS, &image, &long(KEY_CEILING + 1)));
    }
    for range in [failing(b"a", b"a"), failing(b"b", b"a")].concat() {
        for length in [KEY_CEILING, KEY_CEILING + 1] {
            out.put(&call2(CONTAINS, &range_image(&range), &long(length)));
        }
    }
}
