//! Intervals and ranges.
use super::{subtracting, subtraction, Inputs};
use crate::answers::progress::value;
use crate::checks::{BUFFER_CEILING, KEY_CEILING};
use crate::inputs::ranges::{damages, family_image, family_of};
use crate::inputs::{
    all_ranges, before, excluded, from, from_to, included, range_image, Chance, Family, EVERYTHING,
};
use crate::{kind_of, Bound, Key, Range};

/// The papers' own, and others where a bound of one is a bound of the other.
pub fn subtractions_from_the_papers(out: &mut Inputs) {
    let intervals = [
        from_to(b"c", b"f"),
        from_to(b"c", b"c\0"),
        before(b"f"),
        before(b""),
        from(b"c"),
        from(b""),
        EVERYTHING,
    ];
    let ranges = [
        included(b"a", b"z"),
        included(b"c", b"f"),
        included(b"c", b"c"),
        included(b"f", b"f"),
        from_to(b"c", b"f"),
        from_to(b"a", b"c"),
        from_to(b"f", b"z"),
        excluded(b"c", b"c\0"),
        excluded(b"b", b"b\0"),
        excluded(b"f", b"z"),
        before(b""),
        before(b"c"),
        from(b"f"),
        EVERYTHING,
    ];
    for interval in &intervals {
        for range in &ranges {
            out.put_with_each_room(&subtraction(interval, range));
        }
    }
}

/// Keys k and k00, the empty key, and one above them.
fn few_keys() -> Vec<Key> {
    [&b""[..], b"a", b"a\0", b"b"].map(Vec::from).to_vec()
}

/// Any two ranges over a few keys, of which this is the interval.
fn with_each(interval: &Range, ranges: &[Range], out: &mut Inputs) {
    for range in ranges {
        let case = subtraction(interval, range);
        let mut class: Vec<u8> = [&interval.0, &interval.1, &range.0, &range.1]
            .map(kind_of)
            .to_vec();
        match value(&case) {
            Err(stop) => class.push(stop),
            Ok(left) => class.extend(left.iter().flat_map(|(a, b)| [0, kind_of(a), kind_of(b)])),
        }
        if out.some(2, &class) {
            out.put(&case);
        }
    }
}

pub fn every_subtraction(keys: &[Key], interval: &Range, out: &mut Inputs) {
    with_each(interval, &all_ranges(keys), out);
}

/// In a small run two of each kinds and answer.
pub fn some_subtractions(out: &mut Inputs) {
    let ranges = all_ranges(&few_keys());
    for interval in &ranges {
        with_each(interval, &ranges, out);
    }
}

/// One place of either damaged, in every way.
pub fn damaged_subtractions(out: &mut Inputs) {
    let interval = range_image(&from_to(b"ab", b"b"));
    let range = range_image(&included(b"a", b"bc"));
    for damaged in damages(&interval, !out.small) {
        out.put(&subtracting(&damaged, &range));
    }
    for damaged in damages(&range, !out.small) {
        out.put(&subtracting(&interval, &damaged));
    }
}

/// A range image with each fault that there is: none, 1, 2 (padding and kind), 3 (key and buffer), 4; then
/// one that starts excluded and one that ends included.
fn faulty_images() -> Vec<Vec<u8>> {
    let good = range_image(&from_to(b"c", b"f"));
    let mut padded = good.clone();
    padded[0] |= 1;
    let mut kind = good.clone();
    kind[0] |= 0xC0;
    let long = range_image(&from_to(&[b'c'; KEY_CEILING + 1], b"f"));
    let mut longer = good.clone();
    longer.resize(BUFFER_CEILING + 1, 0);
    vec![
        good.clone(),
        good[..good.len() - 1].to_vec(),
        [&good[..], &[0]].concat(),
        vec![],
        padded,
        kind,
        long,
        longer,
        range_image(&from_to(b"f", b"c")),
        range_image(&(Bound::Excluded(b"c".to_vec()), Bound::Unbounded)),
        range_image(&(Bound::Unbounded, Bound::Included(b"f".to_vec()))),
        range_image(&excluded(b"f", b"c")),
    ]
}

/// Faults of the interval, of the range and of the room at once.
pub fn faults_of_subtractions(out: &mut Inputs) {
    for interval in faulty_images() {
        for range in faulty_images() {
            out.put_with_each_room(&subtracting(&interval, &range));
        }
    }
}

/// Keys of about 1,024 bytes, and buffers of about 65,536.
pub fn long_subtractions(out: &mut Inputs) {
    for length in [KEY_CEILING - 1, KEY_CEILING, KEY_CEILING + 1] {
        let (low, high) = (vec![b'c'; length], vec![b'f'; length]);
        let wide = included(b"a", b"z");
        out.put_with_each_room(&subtraction(&from_to(&low, &high), &wide));
        out.put(&subtraction(&from_to(b"c", b"f"), &included(&low, &high)));
        out.put(&subtraction(&from(&low), &included(&low, &low)));
        let next = [&low[..length - 1], &[b'c' + 1]].concat();
        out.put(&subtraction(&from_to(&low, &next), &excluded(&low, &high)));
    }
    for length in [BUFFER_CEILING - 1, BUFFER_CEILING, BUFFER_CEILING + 1] {
        let good = range_image(&from_to(b"c", b"f"));
        for fill in [0, 0xFF] {
            let mut long = good.clone();
            long.resize(length, fill);
            out.put(&subtracting(&long, &good));
            out.put(&subtracting(&good, &long));
            out.put(&subtracting(&long, &long));
            out.put(&subtracting(&vec![fill; length], &good));
        }
    }
}

/// A range that an interval may be.
fn random_interval(family: &Family, chance: &mut Chance) -> Range {
    let (mut low, mut high) = (family.key(chance), family.key(chance));
    if high < low {
        std::mem::swap(&mut low, &mut high);
    }
    match chance.below(10) {
        0 => EVERYTHING,
        1 | 2 => before(&high),
        3 | 4 => from(&low),
        _ if low == high => from_to(&low, &[&low[..], &[0]].concat()),
        _ => from_to(&low, &high),
    }
}

/// Ranges that share some of the interval's keys, and others of the same family.
pub fn random_subtractions(count: usize, out: &mut Inputs) {
    for _ in 0..count {
        let small = out.small;
        let chance = &mut out.chance;
        let family = match chance.below(30) {
            0 if !small => {
                let length = KEY_CEILING - 4 + chance.below(8);
                family_of(length, chance)
            }
            _ => Family::new(chance, small),
        };
        let interval = match chance.percent(88) {
            true => range_image(&random_interval(&family, chance)),
            false => family_image(&family, chance),
        };
        let range = family_image(&family, chance);
        out.put(&subtracting(&interval, &range));
    }
}
