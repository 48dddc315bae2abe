//! Damaged jobs and images.
use super::faults::sound;
use super::random::random_model;
use super::{two_runs, Inputs};
use crate::answers::commits::Case;
use crate::inputs::images::{cut_after, harm};
use crate::inputs::{before, from_to, part, tables, view, write_image, write_job, Field, Mark};

/// One place of a job damaged, in every way; and a few of its image.
pub fn damage(out: &mut Inputs) {
    let seven = [view(1, b"a", Some(b"z"), Some(from_to(b"b", b"y")))];
    let parts = [
        part(before(b"e"), true, &tables(20, &[(b"a", b"d")])),
        part(from_to(b"e", b"p"), false, &tables(21, &[(b"f", b"k")])),
    ];
    let model = two_runs(&seven, &[], &parts);
    let good = model.case(&mut out.chance, 0);
    out.put_around(&good);
    let mut jobs = damaged_anywhere(&good.job);
    for mark in &write_job(&model.job).1 {
        jobs.extend(damaged_at(&good.job, mark));
    }
    for job in jobs {
        out.put(&Case {
            job,
            ..good.clone()
        });
    }
    damaged_images(&good, out);
}

/// Cut off, with bytes more, and with a bit changed in each byte.
fn damaged_anywhere(good: &[u8]) -> Vec<Vec<u8>> {
    let mut jobs: Vec<Vec<u8>> = (0..good.len())
        .map(|length| good[..length].to_vec())
        .collect();
    for more in [&[0][..], &[0xFF], &[0; 6], good] {
        jobs.push([good, more].concat());
    }
    for at in 0..good.len() {
        for bit in [1, 0x80] {
            jobs.push(changed(good, at, good[at] ^ bit));
        }
    }
    jobs
}

fn changed(good: &[u8], at: usize, value: u8) -> Vec<u8> {
    let mut bytes = good.to_vec();
    bytes[at] = value;
    bytes
}

/// Another number of 16 bits; and the input ends right after it.
fn renumbered(good: &[u8], at: usize, number: u16) -> [Vec<u8>; 2] {
    let mut bytes = good.to_vec();
    bytes[at..at + 2].copy_from_slice(&number.to_be_bytes());
    let cut = bytes[..at + 2].to_vec();
    [bytes, cut]
}

/// Flags, counts, heads and lengths.
fn damaged_at(good: &[u8], mark: &Mark) -> Vec<Vec<u8>> {
    let at = mark.at;
    let mut jobs = vec![];
    match mark.field {
        Field::LastFlag => jobs.extend((0..8).map(|bit| changed(good, at, good[at] ^ 1 << bit))),
        Field::OutputCount => {
            for bit in 0..8 {
                jobs.push(changed(good, at, good[at] ^ 1 << bit));
                jobs.push(changed(good, at + 1, good[at + 1] ^ 1 << bit));
            }
            for count in [1_023, 1_024, 1_025, 2_048, 4_096, 32_767u16] {
                for flag in [0, 0x8000] {
                    jobs.extend(renumbered(good, at, flag | count));
                }
            }
        }
        Field::SourceCount | Field::PartCount => {
            for value in [0, 1, 2, 3, 63, 64, 65, 66, 128, 255] {
                jobs.push(changed(good, at, value));
                jobs.push([&good[..at], &[value]].concat());
            }
        }
        Field::Head => {
            let heads = (0..=255u8).filter(|head| matches!(head & 15, 0 | 1 | 8));
            jobs.extend(heads.map(|head| changed(good, at, head)));
        }
        Field::FirstLength | Field::LastLength | Field::StartLength | Field::EndLength => {
            for length in [0, 2, 1_023, 1_024, 1_025, 32_768, 65_535u16] {
                jobs.extend(renumbered(good, at, length));
            }
        }
        _ => {}
    }
    jobs
}

/// The image: refused before its job is read.
fn damaged_images(good: &Case, out: &mut Inputs) {
    for bad_job in [false, true] {
        let mut case = good.clone();
        if bad_job {
            case.job.truncate(3);
        }
        for length in (0..good.image.len()).step_by(if out.small { 11 } else { 1 }) {
            case.image.truncate(good.image.len() - length);
            out.put(&case);
        }
        for at in (0..good.image.len()).step_by(if out.small { 7 } else { 1 }) {
            case.image.clone_from(&good.image);
            case.image[at] ^= *out.chance.of(&[1, 0x80, 0x40, 0xFF]);
            out.put(&case);
        }
    }
}

/// The job, or the image with a job that is good or cut, ends right after a flag or a head in which
/// padding is set (2), or none (1).
pub fn ends(out: &mut Inputs) {
    let model = sound();
    let good = model.case(&mut out.chance, 0);
    for job in cut_after(&good.job, &write_job(&model.job).1, &[0, 1, 0x40]) {
        out.put(&Case {
            job,
            ..good.clone()
        });
    }
    let images = cut_after(&good.image, &write_image(&model.runs).1, &[1, 0x40]);
    for (place, image) in images.into_iter().enumerate() {
        let mut case = Case {
            image,
            ..good.clone()
        };
        if place % 2 == 1 {
            case.job.truncate(3);
        }
        out.put(&case);
    }
}

/// Copies of random commits with a damaged job or image, or both.
pub fn damaged(count: usize, out: &mut Inputs) {
    for _ in 0..count {
        let chance = &mut out.chance;
        let model = random_model(chance, true, true);
        let mut case = model.case(chance, 6);
        let which = chance.below(8);
        if which < 6 {
            let marks = write_job(&model.job).1;
            let mut jobs = damaged_at(&case.job, chance.of(&marks));
            if jobs.is_empty() || chance.percent(40) {
                jobs = damaged_anywhere(&case.job);
            }
            case.job = jobs.swap_remove(chance.below(jobs.len()));
        }
        if which > 4 {
            let marks = write_image(&model.runs).1;
            harm(&mut case.image, &marks, chance);
        }
        out.put(&case);
    }
}
