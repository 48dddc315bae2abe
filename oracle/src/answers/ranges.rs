//! What the range calls answer. Values are the originals', and asserted to be those of
//! document 01 (`paper`).
use super::paper;
use crate::checks::{pass, read_bound, read_key, read_range, Checked, KEY_CEILING};
use crate::{key_of, Bound, Giver, Key, Range, Traced};

pub const COMPARE_KEYS: u8 = 1;
pub const CMP_BOUND: u8 = 2;
pub const NON_EMPTY: u8 = 3;
pub const INTERSECT: u8 = 4;
pub const UNION: u8 = 5;
pub const FROM_PREFIX: u8 = 6;
pub const FROM_PREFIX_AND_SUBRANGE: u8 = 7;
pub const AS_POINT: u8 = 8;
pub const CONTAINS: u8 = 9;

/// The arguments of a call. `x` and `y` are kinds of bounds, `z` is 1 if they are starts, `room`
/// is the length of the lent buffer.
#[derive(Clone, Debug, Default, PartialEq, Eq, Hash)]
pub struct Input {
    pub call: u8,
    pub x: u8,
    pub y: u8,
    pub z: u8,
    pub room: usize,
    pub a: Vec<u8>,
    pub b: Vec<u8>,
}

/// A range, and the argument (1 or 2) that gave each of its bounds.
#[derive(Clone, Debug, PartialEq, Eq)]
pub struct Sided {
    pub range: Range,
    pub start: u8,
    pub end: u8,
}

/// What a call answers where no check stops it.
#[derive(Clone, Debug, PartialEq, Eq)]
pub enum Value {
    /// -1, 0 or 1.
    Order(i32),
    Is(bool),
    Point(Option<Key>),
    Joined(Option<Sided>),
    Range(Range),
}

/// The answer with room enough.
pub fn value(input: &Input) -> Checked<Value> {
    let (a, b) = (input.a.as_slice(), input.b.as_slice());
    match input.call {
        COMPARE_KEYS => Ok(compare_keys(read_key(a)?, read_key(b)?)),
        CMP_BOUND => {
            let (a, b) = (read_bound(input.x, a)?, read_bound(input.y, b)?);
            Ok(cmp_bound(&a, &b, input.z == 1))
        }
        NON_EMPTY => {
            let range = read_range(a)?;
            let is = crate::non_empty(&range);
            assert_eq!(is, paper::passes(&range));
            Ok(Value::Is(is))
        }
        INTERSECT | UNION => {
            let (a, b) = (read_range(a)?, read_range(b)?);
            pass(&a).and(pass(&b))?;
            let joined = if input.call == INTERSECT {
                intersect(&a, &b)
            } else {
                union(&a, &b)
            };
            Ok(Value::Joined(joined))
        }
        FROM_PREFIX => from_prefix(&read_key(a)?),
        FROM_PREFIX_AND_SUBRANGE => {
            let prefix = read_key(a)?;
            prefix_and_subrange(&prefix, &read_range(b)?)
        }
        AS_POINT => as_point(&read_range(a)?),
        CONTAINS => contains(&read_range(a)?, &read_key(b)?),
        call => panic!("no call {call}"),
    }
}

fn compare_keys(a: Key, b: Key) -> Value {
    let paper = paper::cmp_keys(&a, &b);
    let (a, b) = (Bound::Included(a), Bound::Included(b));
    let order = crate::cmp_start(&a, &b);
    assert_eq!(order, crate::cmp_end(&a, &b));
    assert_eq!(order, paper);
    Value::Order(order)
}

fn cmp_bound(a: &Bound, b: &Bound, start: bool) -> Value {
    let order = crate::cmp_bound(a, b, start);
    let other = if start {
        crate::cmp_start(a, b)
    } else {
        crate::cmp_end(a, b)
    };
    assert_eq!(order, other);
    assert_eq!(order, paper::cmp_bound(a, b, start));
    Value::Order(order)
}

/// A range with the side of each bound; `start` and `end` are the sides by the rule in
/// the original, and must agree with the traced ones wherever there is a key to trace.
fn sides(traced: Option<Traced>, plain: Option<Range>, start: u8, end: u8) -> Option<Sided> {
    let Some(traced) = traced else {
        assert_eq!(plain, None);
        return None;
    };
    assert_eq!(plain.as_ref(), Some(&traced.range));
    let agrees = |giver: Option<Giver>, rule: u8| match giver {
        Some(Giver::First) => rule == 1,
        Some(Giver::Second) => rule == 2,
        None => true,
    };
    assert!(agrees(traced.start_from, start) && agrees(traced.end_from, end));
    Some(Sided {
        range: traced.range,
        start,
        end,
    })
}

/// The original takes the `max` of the starts and the `min` of the ends: of equals, max
/// gives its second argument and min its first.
fn intersect(a: &Range, b: &Range) -> Option<Sided> {
    let start = if crate::cmp_start(&a.0, &b.0) > 0 {
        1
    } else {
        2
    };
    let end = if crate::cmp_end(&a.1, &b.1) > 0 { 2 } else { 1 };
    let plain = crate::intersect(a, b);
    assert_eq!(crate::bytes_range_intersect(a, b), Ok(plain.clone()));
    let sided = sides(crate::intersect_traced(a, b), plain, start, end);
    assert_eq!(sided, paper::intersect(a, b));
    sided
}

/// The original puts the two in order, equal ones exchanged; the start is then the
/// first's, the end the `max` of the first's and the second's, of equals the second's.
fn union(a: &Range, b: &Range) -> Option<Sided> {
    let ordered = crate::cmp_range(a, b) < 0;
    let (first, second) = if ordered { (a, b) } else { (b, a) };
    let (first_side, second_side) = if ordered { (1, 2) } else { (2, 1) };
    let end = if crate::cmp_end(&first.1, &second.1) > 0 {
        first_side
    } else {
        second_side
    };
    sides(
        crate::union_traced(a, b),
        crate::union(a, b),
        first_side,
        end,
    )
}

fn from_prefix(prefix: &Key) -> Checked<Value> {
    let range = crate::from_prefix(prefix).unwrap();
    let everything = (Bound::Unbounded, Bound::Unbounded);
    assert_eq!(range, paper::joined(prefix, &everything));
    Ok(Value::Range(range))
}

fn prefix_and_subrange(prefix: &Key, subrange: &Range) -> Checked<Value> {
    let join = |bound: &Bound| key_of(bound).map_or(0, |key| prefix.len() + key.len());
    if join(&subrange.0) > KEY_CEILING || join(&subrange.1) > KEY_CEILING {
        return Err(3);
    }
    pass(subrange)?;
    let joined = paper::joined(prefix, subrange);
    match crate::from_prefix_and_subrange(prefix, subrange) {
        Ok(range) => {
            assert_eq!(range, joined);
            Ok(Value::Range(range))
        }
        // The only panic there is the one of `BytesRange::new`.
        Err(crate::OracleError::Panic { at, .. }) => {
            assert!(at.starts_with("bytes_range.rs:"), "{at}");
            assert!(!paper::passes(&joined));
            Err(4)
        }
        Err(other) => panic!("{other:?}"),
    }
}

fn as_point(range: &Range) -> Checked<Value> {
    pass(range)?;
    let point = crate::as_point(range).unwrap();
    assert_eq!(point.as_ref(), paper::point(range));
    Ok(Value::Point(point))
}

fn contains(range: &Range, key: &Key) -> Checked<Value> {
    pass(range)?;
    let is = crate::contains(range, key);
    assert_eq!(is, paper::holds(range, key));
    Ok(Value::Is(is))
}
