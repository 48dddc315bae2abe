//! Damaged anchors, indexes, ranges and images: one place, in every way.
use super::{anchors_of, end_to_end, index_of, planning, sampling, selecting, Inputs};
use crate::inputs::images::two_views;
use crate::inputs::ranges::damages;
use crate::inputs::{
    image, included, range_image, run, view, write_anchors, write_image, write_index, Field, Mark,
};
use crate::Index;

pub fn damage(out: &mut Inputs) {
    for list in [
        &[][..],
        &[(&b"ab"[..], 7)],
        &[(b"b", 1), (b"", u64::MAX >> 2), (b"a\0", 3)],
    ] {
        let (good, marks) = write_anchors(&anchors_of(list));
        each(&good, &marks, out, |bytes, out| {
            let parts = *out.chance.of(&[0, 1, 2, 3, 64]);
            out.put(&selecting(parts, 0, bytes));
        });
    }
    damaged_samples(out);
    damaged_plans(out);
}

fn damaged_samples(out: &mut Inputs) {
    let range = range_image(&included(b"", b"a\0"));
    let blocks: [&[(u64, &[u8])]; 3] = [&[], &[(5, b"ab")], &[(0, b""), (7, b"a"), (6, b"a\0")]];
    for list in blocks {
        let (good, marks) = write_index(&index_of(list));
        each(&good, &marks, out, |bytes, out| {
            let most = *out.chance.of(&[0, 1, 2, 3, 4_096]);
            out.put(&sampling(most, 9, bytes, &range));
        });
    }
    let index = write_index(&index_of(&[(0, b"a"), (4, b"k")])).0;
    for range in damages(&range_image(&included(b"ab", b"k")), !out.small) {
        out.put(&sampling(2, 9, &index, &range));
    }
}

/// One view with two blocks, and two views with two and one.
fn damaged_plans(out: &mut Inputs) {
    let mut one = view(1, b"a", Some(b"p"), Some(included(b"b", b"n")));
    (one.table.index_offset, one.table.index_len) = (2, 3);
    let indexes = [index_of(&[(0, b"b"), (300, b"m")]), index_of(&[(9, b"k")])];
    let of_one = (vec![run(7, &[one])], &indexes[..1]);
    for (runs, indexes) in [of_one, (two_views(), &indexes[..])] {
        let (good, marks) = write_image(&runs);
        let at_hand = end_to_end(indexes);
        each(&good, &marks, out, |bytes, out| {
            let parts = *out.chance.of(&[0, 1, 2, 3, 64]);
            out.put(&planning(parts, bytes, &at_hand));
        });
        let (buffer, marks) = marked(indexes);
        each(&buffer, &marks, out, |bytes, out| {
            let parts = *out.chance.of(&[0, 1, 2, 3, 64]);
            out.put(&planning(parts, &good, bytes));
        });
        // Too few and too many.
        for count in 0..4 {
            let repeated: Vec<Index> = indexes.iter().cycle().take(count).cloned().collect();
            out.put(&planning(2, &image(&runs), &end_to_end(&repeated)));
        }
    }
}

/// Indexes end to end, and where their fields begin.
pub fn marked(indexes: &[Index]) -> (Vec<u8>, Vec<Mark>) {
    let (mut bytes, mut marks) = (vec![], vec![]);
    for index in indexes {
        let (more, own) = write_index(index);
        marks.extend(own.into_iter().map(|mark| Mark {
            at: mark.at + bytes.len(),
            ..mark
        }));
        bytes.extend(more);
    }
    (bytes, marks)
}

/// Cut off at each length, with bytes added, with each byte changed, with other counts and lengths.
fn each(good: &[u8], marks: &[Mark], out: &mut Inputs, put: impl Fn(&[u8], &mut Inputs)) {
    for length in 0..=good.len() {
        if !out.small || good.len() < 60 || out.chance.percent(30) {
            put(&good[..length], out);
        }
    }
    for more in [&[0][..], &[0xFF], &[0, 0], &[0; 10], good] {
        put(&[good, more].concat(), out);
    }
    for at in 0..good.len() {
        if out.small && good.len() > 40 && out.chance.percent(70) {
            continue;
        }
        let values = [good[at] ^ 1, 0xFF, good[at] ^ 0x40, 0, good[at] ^ 0x80];
        for value in &values[..if out.small { 2 } else { 5 }] {
            let mut bytes = good.to_vec();
            bytes[at] = *value;
            put(&bytes, out);
        }
    }
    for mark in marks {
        each_number(good, mark, out, &put);
    }
}

fn each_number(good: &[u8], mark: &Mark, out: &mut Inputs, put: &impl Fn(&[u8], &mut Inputs)) {
    use Field::{
        AnchorCount, BlockCount, EndLength, FirstLength, KeyLength, LastLength, StartLength,
    };
    let values: &[u16] = match mark.field {
        AnchorCount => &[0, 1, 2, 3, 4, 4_095, 4_096, 4_097, 8_192, 65_535],
        BlockCount => &[0, 1, 2, 3, 4, 4_097, 6_553, 6_554, 65_535],
        FirstLength | LastLength | StartLength | EndLength | KeyLength => {
            &[0, 1, 2, 1_023, 1_024, 1_025, 1_280, 65_535]
        }
        _ => &[],
    };
    for value in values {
        if out.small && out.chance.percent(40) {
            continue;
        }
        let mut bytes = good.to_vec();
        bytes[mark.at..mark.at + 2].copy_from_slice(&value.to_be_bytes());
        put(&bytes, out);
        // The input ends right after the number.
        bytes.truncate(mark.at + 2);
        put(&bytes, out);
    }
}
