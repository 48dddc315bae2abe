//! Lookups at the ceilings.
use super::{covering, of_key, of_view, of_views, up_to, Inputs};
use crate::answers::lookups::{
    COMPACTED_INTERSECTION, INTERSECTS_RANGE, OVERLAPS_RANGE, TABLES_COVERING,
};
use crate::checks::{BUFFER_CEILING, KEY_CEILING};
use crate::inputs::{
    before, blocks, excluded, from, from_to, image, included, index, range_image, run, until, view,
    write_index, EVERYTHING,
};
use crate::{Bound, Key, Range, View};

pub fn ceilings(out: &mut Inputs) {
    full_indexes(out);
    long_first_keys(out);
    long_asked(out);
    many_views(out);
    full_images(out);
    many_runs(out);
}

/// An index whose equal blocks repeat.
fn repeated(keys: &[Key]) -> Vec<u8> {
    let mut blocks = blocks(keys);
    blocks.iter_mut().for_each(|block| block.offset = 7);
    write_index(&blocks).0
}

/// As many blocks as 65,536 bytes can have: of 10 bytes, all with the empty first key, and the last
/// with four bytes; a byte more; counts that say one more or less; first keys that descend at the end.
fn full_indexes(out: &mut Inputs) {
    let mut keys: Vec<Key> = vec![vec![]; 6_553];
    keys[6_552] = b"zzzz".to_vec();
    let good = repeated(&keys);
    assert_eq!(good.len(), BUFFER_CEILING);
    for key in [&b""[..], b"\0", b"zzzz", b"zzz", b"{"] {
        let asked = of_key(key);
        let some = if out.small { 3 } else { 5 };
        out.put(&good, &asked[..some]);
    }
    for range in [EVERYTHING, included(b"", b""), from(b"a"), before(b"zzzz")] {
        out.put(&good, &[covering(&range_image(&range))]);
    }
    for said in [6_552u16, 6_554, 65_535] {
        let mut bytes = good.clone();
        bytes[..2].copy_from_slice(&said.to_be_bytes());
        out.put(&bytes, &of_key(b"a")[..2]);
    }
    let longer = [&good[..], b"z"].concat();
    out.put(&longer, &of_key(b"a"));
    out.put(&longer, &[covering(&range_image(&EVERYTHING))]);
    keys[6_551] = b"z".to_vec();
    keys[6_552] = vec![];
    let descends = repeated(&keys);
    out.put(&descends, &of_key(b"a"));
    out.put(&descends, &[covering(&range_image(&EVERYTHING))]);
}

/// First keys of 1,023, 1,024 and 1,025 bytes.
fn long_first_keys(out: &mut Inputs) {
    for length in [KEY_CEILING - 1, KEY_CEILING, KEY_CEILING + 1] {
        let long = vec![b'k'; length];
        let bytes = index(&[b"a".to_vec(), long.clone(), long.clone()]);
        let end = KEY_CEILING.min(length);
        for key in [&long[..end], &long[..end - 1], b"l"] {
            out.put(&bytes, &of_key(key)[1..4]);
        }
        let range = range_image(&from_to(b"kk", b"l"));
        out.put(&bytes, &[covering(&range)]);
    }
}

/// Keys and ranges of 1,023, 1,024 and 1,025 bytes that are asked for, and as end bounds.
fn long_asked(out: &mut Inputs) {
    let keys = [&b"a"[..], b"kk", b"l"].map(<[u8]>::to_vec);
    let views = [view(1, b"a", None, None), view(2, b"kk", Some(b"l"), None)];
    let (index, image) = (index(&keys), image(&[run(7, &views)]));
    for length in [KEY_CEILING - 1, KEY_CEILING, KEY_CEILING + 1] {
        let long = vec![b'k'; length];
        let asked = of_key(&long);
        out.put(&index, if out.small { &asked[1..3] } else { &asked });
        let ranges: [Range; 4] = [
            from_to(&long, b"l"),
            (Bound::Unbounded, Bound::Included(long.clone())),
            excluded(&long, &[&long[..], &[0]].concat()),
            included(&long, &long),
        ];
        let some = if out.small { 2 } else { 4 };
        for range in ranges[..some].iter().map(range_image) {
            out.put(&index, &[covering(&range)]);
            let all = of_views(0, 1, &Bound::Unbounded, &range);
            out.put(&image, if out.small { &all[2..4] } else { &all });
        }
        let range = range_image(&included(b"k", b"kkk"));
        for kind in 0..4 {
            out.put(&image, &[up_to(0, 0, (kind, &long), &range)]);
        }
    }
}

/// 1,024 and 1,025 views of 60 bytes, all with the empty first key: the walk goes back over all of
/// them.
fn many_views(out: &mut Inputs) {
    for count in [1_023, 1_024, 1_025] {
        let bytes = image(&[run(4, &vec![view(1, b"", None, None); count])]);
        let ranges = [
            included(b"", b""),
            EVERYTHING,
            before(b""),
            from(b"a"),
            excluded(b"", b"\0"),
        ];
        for range in ranges.map(|range| range_image(&range)) {
            out.put(&bytes, &[of_view(TABLES_COVERING, 0, 0, &range)]);
            out.put(&bytes, &[of_view(OVERLAPS_RANGE, 0, 0, &range)]);
            for place in [0, 1_022, 1_023, 1_024] {
                let asked = of_view(COMPACTED_INTERSECTION, 0, place, &range);
                out.put(&bytes, &[asked]);
            }
        }
        let range = range_image(&EVERYTHING);
        for place in [1_023, 1_024] {
            let all = of_views(0, place, &Bound::Unbounded, &range);
            out.put(&bytes, &all[3..]);
        }
    }
}

/// 65,536 bytes, and one more; the last key stands at their end.
fn full_images(out: &mut Inputs) {
    let mut views: Vec<View> = vec![view(1, b"abcdefghij", None, until(b"klmnopqr")); 809];
    let good = image(&[run(1, &views)]);
    assert_eq!(good.len(), BUFFER_CEILING);
    views[808].table.first.push(b'x');
    let longer = image(&[run(1, &views)]);
    let asked = [
        range_image(&from(b"klm")),
        range_image(&included(b"abcdefghij", b"klmnopqr")),
    ];
    for range in &asked {
        let end = Bound::Included(b"b".to_vec());
        out.put(&good, &of_views(0, 808, &end, range));
        out.put(&good, &of_views(0, 809, &end, range)[2..]);
        out.put(&longer, &of_views(0, 808, &end, range)[..2]);
    }
    let mut padded = good;
    padded[6] |= 1;
    padded.push(0);
    let all = of_views(0, 0, &Bound::Unbounded, &asked[0]);
    assert_eq!(all[4].call, INTERSECTS_RANGE);
    out.put(&padded, &all);
}

/// 64 and 65 runs, the last with a view.
fn many_runs(out: &mut Inputs) {
    for count in [64, 65] {
        let mut runs: Vec<_> = (0..count).map(|id| run(id * 3, &[])).collect();
        runs[count as usize - 1].views = vec![view(1, b"a", Some(b"c"), None)];
        let bytes = image(&runs);
        let range = range_image(&included(b"b", b"d"));
        for place in [0, 62, 63, 64] {
            let all = of_views(place, 0, &Bound::Unbounded, &range);
            out.put(&bytes, &all);
        }
    }
}
