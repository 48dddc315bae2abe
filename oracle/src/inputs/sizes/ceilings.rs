//! Sizes at the ceilings.
use super::views::MOST;
use super::{at_places, of_run, of_view, Inputs};
use crate::answers::lookups::{value, Value};
use crate::checks::{BUFFER_CEILING, KEY_CEILING};
use crate::inputs::{before, from_to, image, run, view, EVERYTHING};
use crate::View;

pub fn ceilings(out: &mut Inputs) {
    greatest_sum(out);
    full_image(out);
    long_keys(out);
}

fn full(mut view: View) -> View {
    (view.table.index_offset, view.table.index_len) = (MOST - 7, 7);
    view
}

/// 1,024 views of 2^53 bytes each: 2^63. One view more is stop 3, one byte more stop 7.
fn greatest_sum(out: &mut Inputs) {
    for count in [1_023, 1_024, 1_025] {
        let mut views = vec![full(view(1, b"", None, None)); count];
        views[0].visible = Some(EVERYTHING);
        let bytes = image(&[run(4, &views)]);
        let due = match count {
            1_025 => Err(3),
            _ => Ok(Value::Bytes(count as u64 * MOST)),
        };
        assert_eq!(value(&bytes, &of_run(0)), due);
        out.put(&bytes, &[of_run(0), of_run(1)]);
        for place in [0, 1_022, 1_023, 1_024] {
            out.put(&bytes, &of_view(0, place));
        }
        views[count - 1].table.index_len += 1;
        out.put(&image(&[run(4, &views)]), &at_places(0, 0));
    }
}

/// Views with a visible range each, as many as 65,536 bytes can have; and a byte more.
fn full_image(out: &mut Inputs) {
    let shown = view(1, b"\0", Some(b"\xFF"), Some(from_to(b"\0", b"\x20")));
    let length = image(&[run(4, std::slice::from_ref(&shown))]).len() - 7;
    let count = (BUFFER_CEILING - 7) / length;
    let mut views = vec![shown; count];
    let left = BUFFER_CEILING - 7 - count * length;
    views[count - 1].table.first.extend(vec![0; left]);
    for more in 0..2 {
        let key = &mut views[count - 1].table.first;
        key.extend(vec![0; more]);
        let bytes = image(&[run(4, &views)]);
        assert_eq!(bytes.len(), BUFFER_CEILING + more);
        out.put(&bytes, &at_places(0, count as u64 - 1));
    }
}

/// Keys of 1,023 to 1,025 bytes that differ in the last.
fn long_keys(out: &mut Inputs) {
    for length in [KEY_CEILING - 1, KEY_CEILING, KEY_CEILING + 1] {
        let key = |last: u8| [&vec![b'k'; length - 1][..], &[last]].concat();
        let (first, last) = (key(1), key(5));
        for end in [key(2), key(4), last.clone()] {
            let mut shown = view(1, &first, Some(&last), Some(before(&end)));
            shown.table.index_len = 1_000_000;
            out.put(&image(&[run(4, &[shown])]), &at_places(0, 0));
        }
    }
}
