//! Damaged copies of good ranges, in every way at one place.
use super::{call1, call2, damages, Inputs};
use crate::answers::ranges::{
    AS_POINT, CONTAINS, FROM_PREFIX_AND_SUBRANGE, INTERSECT, NON_EMPTY, UNION,
};
use crate::inputs::{range_image, Family};

/// Copies of so many good ranges.
pub fn damaged(count: usize, out: &mut Inputs) {
    for _ in 0..count {
        let family = Family::new(&mut out.chance, true);
        let range = family.range(&mut out.chance);
        let other = range_image(&family.range(&mut out.chance));
        let key = family.key(&mut out.chance);
        for image in damages(&range_image(&range), true) {
            out.put(&call1(NON_EMPTY, &image));
            out.put(&call1(AS_POINT, &image));
            out.put(&call2(CONTAINS, &image, &key));
            out.put(&call2(FROM_PREFIX_AND_SUBRANGE, &key, &image));
            for call in [INTERSECT, UNION] {
                out.put(&call2(call, &image, &other));
                out.put(&call2(call, &other, &image));
            }
        }
    }
}
