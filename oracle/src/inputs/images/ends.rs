//! Inputs that end right after a flag or a head.
use super::faults::two_views;
use super::Inputs;
use crate::inputs::{write_image, Field, Mark};

/// Of each last-key flag, visible flag and head with these bits set, the bytes up to it.
pub fn cut_after(good: &[u8], marks: &[Mark], bits: &[u8]) -> Vec<Vec<u8>> {
    let flags = marks.iter().filter(|mark| {
        use Field::*;
        matches!(mark.field, LastFlag | VisibleFlag | Head)
    });
    let mut cut = vec![];
    for mark in flags {
        for flag in [good[mark.at], good[mark.at] ^ 0x80] {
            let changed = bits.iter().map(|bit| flag | bit);
            cut.extend(changed.map(|flag| [&good[..mark.at], &[flag]].concat()));
        }
    }
    cut
}

/// The input ends after a flag in which padding is set (2), or none (1).
pub fn ends(out: &mut Inputs) {
    let (good, marks) = write_image(&two_views());
    for image in cut_after(&good, &marks, &[0, 1, 8, 0x40]) {
        out.put_each(&image);
    }
}
