//! Keys, bounds and ranges.
use crate::common::{excluded, included, key_of, lend, range, refused};
use bilqarush::typed::*;
use std::cmp::Ordering;
use std::ops::Bound::{self, Unbounded};

/// Range images that no call takes, with their stops.
fn damaged() -> Vec<(Vec<u8>, u8)> {
    vec![
        (vec![], 1),
        (b"\x40".to_vec(), 1),
        (b"\x40\x00".to_vec(), 1),
        (b"\x40\x00\x02a".to_vec(), 1),
        (b"\x00a".to_vec(), 1),
        (key_of(0, 65_536), 1),
        (b"\x01".to_vec(), 2),
        (b"\xC0\x00\x01a".to_vec(), 2),
        (b"\x30\x00\x01a".to_vec(), 2),
        (b"\x40\x04\x01".to_vec(), 3),
        (key_of(0, 65_537), 3),
    ]
}

/// [a, a)
fn empty() -> Vec<u8> {
    range(included("a"), excluded("a"))
}

fn refuses_damage(call: impl Fn(&[u8]) -> u8) {
    for (image, stop) in damaged() {
        assert_eq!(call(&image), stop, "a range of {} bytes", image.len());
    }
}

#[test]
fn keys_are_ordered() {
    assert_eq!(compare(b"a", b"b"), Ok(Ordering::Less));
    assert_eq!(compare(b"b", b"a"), Ok(Ordering::Greater));
    assert_eq!(compare(b"a", b"a"), Ok(Ordering::Equal));
    assert_eq!(compare(b"", b""), Ok(Ordering::Equal));
    assert_eq!(compare(b"a", b"a\0"), Ok(Ordering::Less));
    assert_eq!(compare(b"\xFF", b"\x01\xFF"), Ok(Ordering::Greater));
    assert_eq!(
        compare(&key_of(7, 1024), &key_of(7, 1024)),
        Ok(Ordering::Equal)
    );
}

#[test]
fn long_keys_are_refused() {
    assert_eq!(refused(compare(&key_of(7, 1025), b"")), 3);
    assert_eq!(refused(compare(b"", &key_of(7, 1025))), 3);
}

fn some_bounds<'a>() -> Vec<Bound<&'a [u8]>> {
    let keys = ["", "a", "a\0", "b"];
    let mut bounds = vec![Unbounded];
    bounds.extend(keys.map(included));
    bounds.extend(keys.map(excluded));
    bounds
}

#[test]
fn bounds_are_ordered() {
    use Bounds::{Ends, Starts};
    let [a, after_a] = [included("a"), excluded("a")];
    assert_eq!(cmp_bound(a, after_a, Starts), Ok(Ordering::Less));
    assert_eq!(cmp_bound(a, after_a, Ends), Ok(Ordering::Greater));
    assert_eq!(cmp_bound(a, excluded("b"), Ends), Ok(Ordering::Less));
    assert_eq!(
        cmp_bound(Unbounded, included(""), Starts),
        Ok(Ordering::Less)
    );
    assert_eq!(cmp_bound(Unbounded, a, Ends), Ok(Ordering::Greater));
    assert_eq!(cmp_bound(Unbounded, Unbounded, Ends), Ok(Ordering::Equal));
}

#[test]
fn exchanged_bounds_negate_the_order() {
    for a in some_bounds() {
        for b in some_bounds() {
            for bounds in [Bounds::Starts, Bounds::Ends] {
                let order = cmp_bound(a, b, bounds).unwrap();
                assert_eq!(cmp_bound(b, a, bounds), Ok(order.reverse()));
                assert_eq!(order == Ordering::Equal, a == b);
            }
        }
    }
}

#[test]
fn bounds_with_long_keys_are_refused() {
    let long = key_of(7, 1025);
    let whole = key_of(7, 1024);
    for bound in [Bound::Included(&long[..]), Bound::Excluded(&long[..])] {
        assert_eq!(refused(cmp_bound(bound, Unbounded, Bounds::Starts)), 3);
        assert_eq!(refused(cmp_bound(Unbounded, bound, Bounds::Ends)), 3);
    }
    let whole = Bound::Included(&whole[..]);
    assert_eq!(cmp_bound(whole, whole, Bounds::Ends), Ok(Ordering::Equal));
}

#[test]
fn range_images() {
    assert_eq!(Range::all().to_bytes().unwrap(), b"\x00");
    assert_eq!(
        Range {
            start: Unbounded,
            end: excluded("")
        }
        .to_bytes()
        .unwrap(),
        b"\x20\x00\x00"
    );
    assert_eq!(
        Range {
            start: excluded("a"),
            end: included("bc")
        }
        .to_bytes()
        .unwrap(),
        b"\x90\x00\x01a\x00\x02bc"
    );
}

#[test]
fn range_images_of_long_keys() {
    let whole = key_of(7, 1024);
    let whole = Bound::Included(&whole[..]);
    let image = Range {
        start: whole,
        end: whole,
    }
    .to_bytes()
    .unwrap();
    assert_eq!(image.len(), RANGE_LEN);
    assert_eq!(
        as_point(RangeBytes(&image)).unwrap(),
        Some(&key_of(7, 1024)[..])
    );
    for length in [1025, 65_535, 65_536, 65_537] {
        let long = key_of(7, length);
        assert_eq!(
            refused(
                Range {
                    start: Bound::Included(&long),
                    end: Unbounded
                }
                .to_bytes()
            ),
            3
        );
        assert_eq!(
            refused(
                Range {
                    start: Unbounded,
                    end: Bound::Excluded(&long)
                }
                .to_bytes()
            ),
            3
        );
    }
}

#[test]
fn non_empty_as_slatedb_has_it() {
    assert_eq!(non_empty(RangeBytes(&empty())), Ok(false));
    assert_eq!(
        non_empty(RangeBytes(&range(included("a"), included("a")))),
        Ok(true)
    );
    assert_eq!(
        non_empty(RangeBytes(&range(excluded("a"), excluded("a\0")))),
        Ok(true)
    );
    assert_eq!(
        non_empty(RangeBytes(&range(Unbounded, excluded("")))),
        Ok(true)
    );
    assert_eq!(
        non_empty(RangeBytes(&range(included("b"), excluded("a")))),
        Ok(false)
    );
    assert_eq!(
        non_empty(RangeBytes(&range(Unbounded, Unbounded))),
        Ok(true)
    );
    refuses_damage(|image| refused(non_empty(RangeBytes(image))));
}

#[test]
fn ranges_hold_keys() {
    let from_a = range(included("a"), excluded("c"));
    assert_eq!(contains(RangeBytes(&from_a), b"a"), Ok(true));
    assert_eq!(contains(RangeBytes(&from_a), b"b\xFF"), Ok(true));
    assert_eq!(contains(RangeBytes(&from_a), b"c"), Ok(false));
    assert_eq!(contains(RangeBytes(&from_a), b""), Ok(false));
    let between = range(excluded("a"), excluded("a\0"));
    assert_eq!(contains(RangeBytes(&between), b"a"), Ok(false));
    assert_eq!(contains(RangeBytes(&between), b"a\0"), Ok(false));
}

#[test]
fn contains_refuses() {
    refuses_damage(|image| refused(contains(RangeBytes(image), b"a")));
    assert_eq!(refused(contains(RangeBytes(&empty()), b"a")), 4);
    // The key's length comes before check 4, and the range's fields before it.
    assert_eq!(refused(contains(RangeBytes(&empty()), &key_of(7, 1025))), 3);
    assert_eq!(refused(contains(RangeBytes(b"\x01"), &key_of(7, 1025))), 2);
}

#[test]
fn points() {
    let point = range(included("abc"), included("abc"));
    let key = as_point(RangeBytes(&point)).unwrap().unwrap();
    assert_eq!(key, b"abc");
    assert_eq!(key.as_ptr(), point[3..].as_ptr());
    let empty_key = range(included(""), included(""));
    assert_eq!(as_point(RangeBytes(&empty_key)), Ok(Some(&b""[..])));
    assert_eq!(
        as_point(RangeBytes(&range(included("a"), included("b")))),
        Ok(None)
    );
    assert_eq!(
        as_point(RangeBytes(&range(excluded("a"), excluded("a\0")))),
        Ok(None)
    );
    assert_eq!(as_point(RangeBytes(&range(Unbounded, Unbounded))), Ok(None));
    refuses_damage(|image| refused(as_point(RangeBytes(image))));
    assert_eq!(refused(as_point(RangeBytes(&empty()))), 4);
}

fn answered<'a>(
    start: Bound<&'a [u8]>,
    end: Bound<&'a [u8]>,
    from: [Side; 2],
) -> Option<Joined<'a>> {
    Some(Joined {
        range: Range { start, end },
        start_from: from[0],
        end_from: from[1],
    })
}

#[test]
fn intersections() {
    use Side::{First, Second};
    let a = range(included("a"), included("m"));
    let b = range(excluded("c"), excluded("z"));
    assert_eq!(
        intersect(RangeBytes(&a), RangeBytes(&b)).unwrap(),
        answered(excluded("c"), included("m"), [Second, First])
    );
    assert_eq!(
        intersect(RangeBytes(&b), RangeBytes(&a)).unwrap(),
        answered(excluded("c"), included("m"), [First, Second])
    );
    let apart = range(included("n"), Unbounded);
    assert_eq!(intersect(RangeBytes(&a), RangeBytes(&apart)), Ok(None));
}

#[test]
fn keys_of_an_intersection_are_parts_of_the_slices() {
    let a = range(included("a"), included("m"));
    let b = range(included("c"), Unbounded);
    let both = intersect(RangeBytes(&a), RangeBytes(&b))
        .unwrap()
        .unwrap()
        .range;
    let Range {
        start: Bound::Included(start),
        end: Bound::Included(end),
    } = both
    else {
        panic!("{both:?}")
    };
    assert_eq!(start.as_ptr(), b[3..].as_ptr());
    assert_eq!(end.as_ptr(), a[6..].as_ptr());
}

#[test]
fn of_equal_bounds_the_seconds_start_and_the_firsts_end() {
    let a = range(included("a"), included("m"));
    let b = a.clone();
    let both = intersect(RangeBytes(&a), RangeBytes(&b)).unwrap();
    assert_eq!(
        both,
        answered(included("a"), included("m"), [Side::Second, Side::First])
    );
    let whole = range(Unbounded, Unbounded);
    assert_eq!(
        intersect(RangeBytes(&whole), RangeBytes(&whole)).unwrap(),
        answered(Unbounded, Unbounded, [Side::Second, Side::First])
    );
}

fn refuses_pairs<'a, T: std::fmt::Debug>(call: impl Fn(Vec<u8>, Vec<u8>) -> Result<T, Stop> + 'a) {
    let good = range(included("a"), included("m"));
    for (image, stop) in damaged() {
        assert_eq!(refused(call(image.clone(), good.clone())), stop);
        assert_eq!(refused(call(good.clone(), image.clone())), stop);
        // The fields of both come before check 4.
        assert_eq!(refused(call(empty(), image)), stop);
    }
    assert_eq!(refused(call(empty(), good.clone())), 4);
    assert_eq!(refused(call(good, empty())), 4);
}

#[test]
fn intersect_and_union_refuse() {
    refuses_pairs(|a, b| intersect(RangeBytes(&a), RangeBytes(&b)).map(|joined| joined.is_some()));
    refuses_pairs(|a, b| union(RangeBytes(&a), RangeBytes(&b)).map(|joined| joined.is_some()));
    // Check 16 comes last.
    refuses_pairs(|a, b| {
        intersect_start_key(RangeBytes(&a), RangeBytes(&b), &mut []).map(|key| key.len())
    });
    refuses_pairs(|a, b| {
        intersect_end_key(RangeBytes(&a), RangeBytes(&b), &mut [0; 9]).map(|key| key.len())
    });
}

#[test]
fn keys_of_an_intersection() {
    let a = range(included("a"), included("lamp"));
    let b = range(excluded("cable"), Unbounded);
    assert_eq!(
        lend(8, |out| intersect_start_key(
            RangeBytes(&a),
            RangeBytes(&b),
            out
        ))
        .unwrap(),
        b"cable"
    );
    assert_eq!(
        lend(4, |out| intersect_end_key(
            RangeBytes(&a),
            RangeBytes(&b),
            out
        ))
        .unwrap(),
        b"lamp"
    );
    assert_eq!(
        lend(4, |out| intersect_start_key(
            RangeBytes(&a),
            RangeBytes(&b),
            out
        )),
        Err(16)
    );
    assert_eq!(
        lend(3, |out| intersect_end_key(
            RangeBytes(&a),
            RangeBytes(&b),
            out
        )),
        Err(16)
    );
}

#[test]
fn no_key_where_there_is_no_bound_with_one() {
    let a = range(included("a"), excluded("c"));
    let apart = range(included("d"), Unbounded);
    let whole = range(Unbounded, Unbounded);
    for (a, b) in [(&a, &apart), (&whole, &whole)] {
        assert_eq!(
            lend(0, |out| intersect_start_key(
                RangeBytes(a),
                RangeBytes(b),
                out
            )),
            Ok(vec![])
        );
        assert_eq!(
            lend(9, |out| intersect_end_key(
                RangeBytes(a),
                RangeBytes(b),
                out
            )),
            Ok(vec![])
        );
    }
}

#[test]
fn unions() {
    use Side::{First, Second};
    let a = range(included("a"), excluded("c"));
    let c = range(included("c"), included("f"));
    assert_eq!(
        union(RangeBytes(&a), RangeBytes(&c)).unwrap(),
        answered(included("a"), included("f"), [First, Second])
    );
    assert_eq!(
        union(RangeBytes(&c), RangeBytes(&a)).unwrap(),
        answered(included("a"), included("f"), [Second, First])
    );
    // Of equal ranges the second's start, and of equal ends the other's.
    assert_eq!(
        union(RangeBytes(&a), RangeBytes(&a)).unwrap(),
        answered(included("a"), excluded("c"), [Second, First])
    );
    let after_c = range(excluded("c"), Unbounded);
    assert_eq!(union(RangeBytes(&a), RangeBytes(&after_c)), Ok(None));
    let point = range(included("a"), included("a"));
    let next = range(included("a\0"), included("b"));
    assert_eq!(union(RangeBytes(&point), RangeBytes(&next)), Ok(None));
}

#[test]
fn prefixes() {
    let written = |prefix: &[u8]| lend(RANGE_LEN, |out| from_prefix(prefix, out)).unwrap();
    assert_eq!(written(b"a\xFF"), b"\x60\x00\x02a\xFF\x00\x01b");
    assert_eq!(written(b"\xFF\xFF"), b"\x40\x00\x02\xFF\xFF");
    assert_eq!(written(b""), b"\x00");
    assert_eq!(written(&key_of(7, 1024)).len(), RANGE_LEN);
}

#[test]
fn from_prefix_refuses() {
    let room = |room: usize| lend(room, |out| from_prefix(b"a", out));
    assert_eq!(room(7).unwrap(), range(included("a"), excluded("b")));
    assert_eq!(room(6), Err(16));
    assert_eq!(lend(0, |out| from_prefix(b"", out)), Err(16));
    let long = key_of(7, 1025);
    assert_eq!(lend(0, |out| from_prefix(&long, out)), Err(3));
}

#[test]
fn subranges() {
    let join = |prefix: &[u8], start, end| {
        let subrange = range(start, end);
        lend(64, |out| {
            from_prefix_and_subrange(prefix, RangeBytes(&subrange), out)
        })
        .unwrap()
    };
    assert_eq!(
        join(b"x", included("a"), excluded("c")),
        range(included("xa"), excluded("xc"))
    );
    assert_eq!(
        join(b"x", excluded("a"), Unbounded),
        range(excluded("xa"), excluded("y"))
    );
    assert_eq!(
        join(b"\xFF", Unbounded, included("a")),
        range(Bound::Included(b"\xFF"), Bound::Included(b"\xFFa"))
    );
    assert_eq!(join(b"", Unbounded, Unbounded), b"\x00");
}

#[test]
fn from_prefix_and_subrange_refuses() {
    let join = |prefix: &[u8], subrange: &[u8], room| {
        lend(room, |out| {
            from_prefix_and_subrange(prefix, RangeBytes(subrange), out)
        })
    };
    refuses_damage(|image| join(b"x", image, 64).unwrap_err());
    let a = range(included("a"), Unbounded);
    assert_eq!(join(&key_of(7, 1025), b"", 64), Err(3));
    assert_eq!(join(&key_of(7, 1024), &a, 64), Err(3));
    assert_eq!(join(b"x", &empty(), 64), Err(4));
    // Given it passes; joined it is [x, x).
    assert_eq!(join(b"x", &range(Unbounded, excluded("")), 64), Err(4));
    assert_eq!(
        join(b"x", &a, 8).unwrap(),
        range(included("xa"), excluded("y"))
    );
    assert_eq!(join(b"x", &a, 7), Err(16));
}
