//! Damaged images.
use super::Inputs;
use crate::inputs::{from_to, run, until, view, write_image, Chance, Field, Mark};

/// One place of an image damaged, in every way.
pub fn damage(out: &mut Inputs) {
    let small = [
        vec![],
        vec![run(7, &[])],
        vec![run(
            0x0102_0304,
            &[view(1, b"ab", Some(b"p"), Some(from_to(b"k", b"m")))],
        )],
        vec![
            run(
                7,
                &[view(2, b"", None, None), view(3, b"a", None, until(b"aa"))],
            ),
            run(8, &[]),
        ],
    ];
    for (which, runs) in small.iter().enumerate() {
        let (good, marks) = write_image(runs);
        out.put_each(&good);
        for length in 0..good.len() {
            out.put_two(&good[..length]);
        }
        for more in [&[0][..], &[0xFF], &[0x80], &[0, 0], &[0; 6], &good] {
            out.put_two(&[&good[..], more].concat());
        }
        each_byte(&good, which == 3, out);
        for mark in &marks {
            each_field(&good, mark, which == 2, out);
        }
    }
}

/// Other values of each byte; in a small run few, and of a long image not of each byte.
fn each_byte(good: &[u8], long: bool, out: &mut Inputs) {
    for at in 0..good.len() {
        if out.small && long && at % 3 > 0 {
            continue;
        }
        let values = [
            good[at] ^ 1,
            good[at] ^ 0x40,
            0xFF,
            0,
            good[at].wrapping_add(1),
            good[at] ^ 0x80,
        ];
        for value in &values[..if out.small { 2 } else { 6 }] {
            put_changed(good, at, *value, out);
        }
    }
}

fn put_changed(good: &[u8], at: usize, value: u8, out: &mut Inputs) {
    let mut bytes = good.to_vec();
    bytes[at] = value;
    out.put_two(&bytes);
}

/// Bits of the flags, counts and heads; lengths.
fn each_field(good: &[u8], mark: &Mark, every_head: bool, out: &mut Inputs) {
    let at = mark.at;
    match mark.field {
        Field::LastFlag | Field::VisibleFlag => {
            for bit in 0..8 {
                put_changed(good, at, good[at] ^ 1 << bit, out);
            }
        }
        Field::ViewCount => {
            for bit in 0..8 {
                put_changed(good, at, good[at] ^ 1 << bit, out);
                put_changed(good, at + 1, good[at + 1] ^ 1 << bit, out);
            }
        }
        Field::RunCount => {
            for value in [0, 1, 2, 3, 63, 64, 65, 66, 128, 255] {
                put_changed(good, at, value, out);
            }
        }
        Field::Head => each_head(good, at, every_head, out),
        Field::FirstLength | Field::LastLength | Field::StartLength | Field::EndLength => {
            for length in [0, 1, 2, 3, 1_023, 1_024, 1_025, 1_280, 32_768, 65_535u16] {
                let mut bytes = good.to_vec();
                bytes[at..at + 2].copy_from_slice(&length.to_be_bytes());
                out.put_two(&bytes);
                // The input ends right after the length.
                bytes.truncate(at + 2);
                out.put_two(&bytes);
            }
        }
        _ => {}
    }
}

/// Every head, with the two keys there or not.
fn each_head(good: &[u8], at: usize, every: bool, out: &mut Inputs) {
    for head in 0..=255u8 {
        if !out.small || every && matches!(head & 15, 0 | 1 | 8) {
            put_changed(good, at, head, out);
        }
        if head & 15 == 0 && every {
            let keys = [head >> 6 != 0, head >> 4 & 3 != 0];
            let mut bytes = good[..at].to_vec();
            bytes.push(head);
            for (key, is) in [&[0, 1, b'k'][..], &[0, 1, b'm']].iter().zip(keys) {
                bytes.extend(if is { *key } else { &[] });
            }
            out.put_each(&bytes);
        }
    }
}

/// Damages an image at one place.
pub fn harm(bytes: &mut Vec<u8>, marks: &[Mark], chance: &mut Chance) {
    if bytes.is_empty() {
        return;
    }
    let mark = *chance.of(marks);
    let at = mark.at.min(bytes.len() - 1);
    match chance.below(12) {
        0 => bytes.truncate(chance.below(bytes.len())),
        1 => bytes.truncate((at + chance.below(3)).min(bytes.len())),
        2 => {
            let more = 1 + chance.below(8);
            bytes.extend((0..more).map(|_| chance.next() as u8));
        }
        3 => {
            let at = chance.below(bytes.len());
            bytes[at] = chance.next() as u8;
        }
        4 => bytes[at] ^= 1 << chance.below(8),
        5 => {
            let at = chance.below(bytes.len());
            bytes[at] ^= 1 << chance.below(8);
        }
        6 => {
            bytes.remove(at);
        }
        7 => bytes.insert(at, *chance.of(&[0, 0, 1, 0x80, 0xFF])),
        8 => {
            // Two fields' bytes exchanged.
            let other = chance.of(marks).at.min(bytes.len() - 1);
            bytes.swap(at, other);
        }
        _ => harm_number(bytes, marks, chance),
    }
}

/// A flag, head, count or length.
fn harm_number(bytes: &mut [u8], marks: &[Mark], chance: &mut Chance) {
    let numbers: Vec<&Mark> = marks
        .iter()
        .filter(|mark| {
            use Field::*;
            let field = mark.field;
            matches!(field, RunCount | ViewCount | LastFlag | VisibleFlag | Head)
                || matches!(field, FirstLength | LastLength | StartLength | EndLength)
                || matches!(field, BlockCount | AnchorCount | KeyLength)
        })
        .collect();
    let mark = **chance.of(&numbers);
    if mark.at + 2 > bytes.len() {
        return;
    }
    match mark.field {
        Field::RunCount => bytes[0] = *chance.of(&[0, 1, 2, 63, 64, 65, 66, 255]),
        Field::ViewCount => {
            let count = *chance.of(&[0u16, 1, 2, 3, 1_023, 1_024, 1_025, 2_048, 4_095]);
            let padding = *chance.of(&[0, 0, 0, 1, 8, 15]);
            let count = (count << 4 | padding).to_be_bytes();
            bytes[mark.at..mark.at + 2].copy_from_slice(&count);
        }
        Field::BlockCount => {
            let count = u16::from_be_bytes([bytes[mark.at], bytes[mark.at + 1]]);
            let count = *chance.of(&[
                0,
                1,
                count.wrapping_sub(1),
                count.wrapping_add(1),
                6_553,
                u16::MAX,
            ]);
            bytes[mark.at..mark.at + 2].copy_from_slice(&count.to_be_bytes());
        }
        Field::AnchorCount => {
            let count = u16::from_be_bytes([bytes[0], bytes[1]]);
            let more = count.wrapping_add(1);
            let counts = [0, 1, count.wrapping_sub(1), more, 4_096, 4_097, u16::MAX];
            bytes[..2].copy_from_slice(&chance.of(&counts).to_be_bytes());
        }
        Field::LastFlag | Field::VisibleFlag => {
            bytes[mark.at] ^= *chance.of(&[0x80, 0x80, 0x01, 0x40, 0x20]);
        }
        Field::Head => {
            bytes[mark.at] ^= *chance.of(&[0x80, 0x40, 0x20, 0x10, 0xC0, 0x30, 8, 4, 1]);
        }
        _ => {
            let length = *chance.of(&[0u16, 1, 2, 5, 1_023, 1_024, 1_025, 2_000, 65_535]);
            bytes[mark.at..mark.at + 2].copy_from_slice(&length.to_be_bytes());
        }
    }
}
