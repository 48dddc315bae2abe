//! Several faults at once, so that the order of the stops shows.
use super::{end_to_end, index_of, planning, sampling, selecting, Inputs};
use crate::answers::plans::value;
use crate::checks::{read_range, BUFFER_CEILING, KEY_CEILING};
use crate::inputs::images::{faulty, two_views, FAULTS};
use crate::inputs::lookups::order_indexes;
use crate::inputs::ranges::order_images;
use crate::inputs::{anchors, image, range_image, EVERYTHING};
use crate::{Index, Key};

/// Anchors for each of the stops 1, 3 and 7, several at once too.
pub fn faults_of_anchors(out: &mut Inputs) {
    let key = |length: usize| -> Key { vec![b'k'; length] };
    let good = anchors(&[(key(1), 5), (key(2), 5)]);
    let over = anchors(&[(key(2), u64::MAX), (key(1), u64::MAX)]);
    let cut = |bytes: &[u8]| bytes[..bytes.len() - 1].to_vec();
    let long = anchors(&[(key(1), u64::MAX), (key(KEY_CEILING + 1), 1)]);
    let mut many = over.clone();
    many[..2].copy_from_slice(&4_097u16.to_be_bytes());
    let mut full = over.clone();
    full.resize(BUFFER_CEILING + 1, 0);
    let lists = [
        good.clone(),
        over.clone(),
        cut(&good),
        cut(&over),
        [&good[..], b"x"].concat(),
        [&over[..], b"x"].concat(),
        long.clone(),
        long[..16].to_vec(),
        many.clone(),
        many[..2].to_vec(),
        full,
        vec![],
        vec![0x10],
    ];
    for bytes in lists {
        for parts in [0, 1, 2, 64, 65, u64::MAX] {
            out.put_with_each_room(&selecting(parts, 0, &bytes));
        }
    }
}

/// Faults of the setting, of an index, of a range and of the room.
pub fn faults_of_indexes(out: &mut Inputs) {
    for index in order_indexes() {
        let stop = value(&sampling(1, 0, &index, &range_image(&EVERYTHING)));
        let stop = stop.err().unwrap_or(0);
        for range in order_images() {
            let pass = |range| crate::checks::pass(&range);
            let of_range = read_range(&range).and_then(pass).err().unwrap_or(0);
            for most in [0, 2, 4_096, 4_097] {
                let class = [2, stop, of_range, u8::from(most > 4_096)];
                if out.some(4, &class) {
                    out.put_with_each_room(&sampling(most, 4_096, &index, &range));
                }
            }
        }
    }
}

/// The indexes of the two views of `two_views`, with faults for 1, 3, 6, 7 and 15, and without.
fn orders_of_indexes() -> Vec<Vec<u8>> {
    let first = index_of(&[(0, b"b"), (10, b"c"), (20, b"d")]);
    let second = index_of(&[(0, b"h"), (10, b"k"), (20, b"l")]);
    let both = |first: &Index, second: &Index| end_to_end(&[first.clone(), second.clone()]);
    let good = both(&first, &second);
    let descends = index_of(&[(0, b"c"), (5, b"b")]);
    // What is sampled of it comes to 2^63 and more; what is not shown does not count.
    let over = index_of(&[(u64::MAX, b"a"), (0, b"c"), (u64::MAX - 7, b"d"), (0, b"e")]);
    let hidden = index_of(&[(0, b"a"), (u64::MAX, b"c"), (7, b"d")]);
    let long = index_of(&[(0, &[b'd'; KEY_CEILING + 1])]);
    let mut full = good.clone();
    full.resize(BUFFER_CEILING + 1, 0);
    vec![
        good.clone(),
        both(&descends, &second),
        both(&first, &descends),
        both(&over, &second),
        both(&over, &descends),
        both(&hidden, &second),
        // Across two indexes first keys may descend.
        both(&second, &first),
        both(&long, &second),
        both(&first, &long),
        both(&descends, &long),
        good[..good.len() - 1].to_vec(),
        [&good[..], b"x"].concat(),
        [&both(&over, &descends)[..], b"x"].concat(),
        vec![],
        vec![0],
        full,
    ]
}

/// Faults of the setting, of an image, of its indexes and of the room.
pub fn faults_of_images(out: &mut Inputs) {
    let mut images = vec![(0, image(&two_views()))];
    images.extend(FAULTS.map(|(stop, fault)| (stop, faulty([(fault, 0); 2]))));
    images.extend(FAULTS.map(|(stop, fault)| (stop, faulty([(fault, 1); 2]))));
    for (fault, (stop, image)) in images.into_iter().enumerate() {
        // Each fault of the checks 4 to 7 by itself, and of the fields each number.
        let fault = if stop < 4 { 100 + stop } else { fault as u8 };
        for (number, indexes) in orders_of_indexes().into_iter().enumerate() {
            for parts in [1, 2, 65] {
                let class = [3, fault, number as u8, u8::from(parts > 64)];
                if out.some(1, &class) {
                    out.put(&planning(parts, &image, &indexes));
                }
            }
        }
    }
    for indexes in orders_of_indexes() {
        for parts in [0, 1, 2, 3, 64] {
            out.put_with_each_room(&planning(parts, &image(&two_views()), &indexes));
        }
    }
}
