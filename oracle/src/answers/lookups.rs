//! What the lookups answer, and the calls on visible sizes (`sizes`). Values are the originals', and asserted to be those of `plain` and of
//! document 01's rule for equal bounds; with no partitions, where the originals panic, they are
//! document 01's.
use super::images::at;
use super::{paper, plain, sizes};
use crate::checks::{key_places, Checked, Placed, ReadImage, ReadIndex};
use crate::{key_of, Answer, Bound, Key, Range, Run, Source, Sourced, View};

pub const PARTITION_POINT: u8 = 1;
pub const FIRST_INCLUDING: u8 = 2;
pub const FIRST_INCLUDING_OR_AFTER: u8 = 3;
pub const LAST_INCLUDING: u8 = 4;
pub const PARTITIONS_COVERING: u8 = 5;
pub const TABLES_COVERING: u8 = 6;
pub const OVERLAPS_RANGE: u8 = 7;
pub const COMPACTED_INTERSECTION: u8 = 8;
pub const CALCULATE_VIEW_RANGE: u8 = 9;
pub const INTERSECTS_RANGE: u8 = 10;
// 11 is no call: in the records it is a piece of a buffer.
pub const VISIBLE_FRACTION: u8 = 12;
pub const ESTIMATE_VISIBLE_SIZE: u8 = 13;
pub const ESTIMATE_RUN_VISIBLE_SIZE: u8 = 14;

/// What a call asks of an index or an image. What it does not have is 0 or empty.
#[derive(Clone, Debug, Default, PartialEq, Eq, Hash)]
pub struct Asked {
    pub call: u8,
    /// Places.
    pub run: u64,
    pub view: u64,
    /// 1 for the test "at or below"; the kind of an end bound.
    pub number: u8,
    /// The key asked for, or that of an end bound.
    pub key: Key,
    /// A range image.
    pub range: Vec<u8>,
}

impl Asked {
    pub fn is_of_index(&self) -> bool {
        self.call <= PARTITIONS_COVERING
    }

    /// Whether it asks for a visible fraction or size: of a place, and of nothing else.
    pub fn is_of_sizes(&self) -> bool {
        self.call >= VISIBLE_FRACTION
    }
}

/// A bound, the slice that supplies it (1 the image, 2 the range that is asked for), and the place of
/// its key there.
#[derive(Clone, Debug, PartialEq, Eq)]
pub struct Supplied {
    pub bound: Bound,
    pub slice: u8,
    pub place: usize,
}

#[derive(Clone, Debug, PartialEq, Eq)]
pub struct Joint {
    pub start: Supplied,
    pub end: Supplied,
}

/// What a call answers where no check stops it.
#[derive(Clone, Debug, PartialEq, Eq)]
pub enum Value {
    /// A count or a partition.
    Number(usize),
    Found(Option<usize>),
    Places(usize, usize),
    Is(bool),
    Joint(Option<Joint>),
    /// The bits of a part's fraction; none if the table is shown whole.
    Shown(Option<u64>),
    /// A size.
    Bytes(u64),
}

/// A buffer as the calls on it read it.
pub enum Read {
    Index(Checked<ReadIndex>),
    Image(Checked<ReadImage>),
}

impl Read {
    pub fn new(is_index: bool, buffer: &[u8]) -> Read {
        if is_index {
            Read::Index(ReadIndex::read(buffer))
        } else {
            Read::Image(ReadImage::read(buffer))
        }
    }

    pub fn value(&self, asked: &Asked) -> Checked<Value> {
        match self {
            Read::Index(index) => of_index(index.as_ref().map_err(|stop| *stop)?, asked),
            Read::Image(image) => of_image(image.as_ref().map_err(|stop| *stop)?, asked),
        }
    }

    /// The view at the places that are asked for, if there is one.
    pub fn view(&self, asked: &Asked) -> Option<&View> {
        let Read::Image(Ok(image)) = self else {
            return None;
        };
        let run = at(&image.runs, asked.run)?;
        at(&run.views, asked.view).map(|placed| &placed.view)
    }
}

pub fn value(buffer: &[u8], asked: &Asked) -> Checked<Value> {
    Read::new(asked.is_of_index(), buffer).value(asked)
}

/// The original's answer, which must be the plain one, but where the original reads key 0 of no
/// partitions: there it panics.
fn same<T: PartialEq + std::fmt::Debug>(reads_none: bool, original: Answer<T>, plain: T) -> T {
    match original {
        Err(error) if reads_none => assert!(error.is_panic()),
        original => assert_eq!((original.as_ref(), reads_none), (Ok(&plain), false)),
    }
    plain
}

fn of_index(index: &ReadIndex, asked: &Asked) -> Checked<Value> {
    let keys = &index.first_keys;
    if asked.call == PARTITIONS_COVERING {
        let range = index.range(&asked.range)?;
        let original = crate::partitions_covering_range(keys, &range.0, &range.1);
        let is_started = range.0 != Bound::Unbounded && paper::point(&range).is_none();
        let reads_none = keys.is_empty() && is_started;
        let (start, end) = same(reads_none, original, plain::covering(keys, &range));
        assert!(start <= end && end <= keys.len());
        return Ok(Value::Places(start, end));
    }
    let key = index.key(&asked.key)?;
    let first = || plain::first_including(keys, &key);
    Ok(match asked.call {
        PARTITION_POINT => {
            let original = match asked.number {
                0 => crate::partition_point_less(keys, &key),
                _ => crate::partition_point_less_or_equal(keys, &key),
            };
            let plain = plain::partition_point(keys, asked.number != 0, &key);
            Value::Number(same(false, original, plain))
        }
        FIRST_INCLUDING => {
            let original = crate::first_partition_including_key(keys, &key);
            Value::Found(same(keys.is_empty(), original, first()))
        }
        FIRST_INCLUDING_OR_AFTER => {
            let original = crate::first_partition_including_or_after_key(keys, &key);
            Value::Number(same(keys.is_empty(), original, first().unwrap_or(0)))
        }
        LAST_INCLUDING => {
            let original = crate::last_partition_including_key(keys, &key);
            Value::Found(same(false, original, plain::last_including(keys, &key)))
        }
        call => panic!("no call {call} on an index"),
    })
}

fn of_image(image: &ReadImage, asked: &Asked) -> Checked<Value> {
    if asked.is_of_sizes() {
        return sizes::value(image, asked);
    }
    let (end, range) = if asked.call == INTERSECTS_RANGE {
        image.end_and_range(asked.number, &asked.key, &asked.range)?
    } else {
        (Bound::Unbounded, image.range(&asked.range)?)
    };
    let placed = &at(&image.runs, asked.run).ok_or(9)?.views;
    if asked.call == TABLES_COVERING || asked.call == OVERLAPS_RANGE {
        return Ok(of_run(asked, placed, &range));
    }
    let view = at(placed, asked.view).ok_or(9)?;
    let next = placed.get(asked.view as usize + 1);
    Ok(match asked.call {
        COMPACTED_INTERSECTION => {
            let next_view = next.map(|next| &next.view);
            let original = crate::compacted_intersection(&view.view, next_view, &range).unwrap();
            let joint = compacted_intersection(view, next, &asked_joint(&range));
            Value::Joint(traced(original, joint, view, next))
        }
        CALCULATE_VIEW_RANGE => {
            let original = crate::calculate_view_range(&view.view, &range).unwrap();
            let joint = calculate_view_range(view, &asked_joint(&range));
            Value::Joint(traced(original, joint, view, None))
        }
        INTERSECTS_RANGE => {
            let is = crate::intersects_range(&view.view, &end, &range).unwrap();
            let effective = crate::effective_range(&view.view).unwrap();
            assert_eq!(is, plain::intersects(&effective, &end, &range));
            Value::Is(is)
        }
        call => panic!("no call {call} on an image"),
    })
}

fn of_run(asked: &Asked, placed: &[Placed], range: &Range) -> Value {
    let views: Vec<_> = placed.iter().map(|placed| placed.view.clone()).collect();
    let effective = |view| crate::effective_range(view).unwrap();
    let effective: Vec<Range> = views.iter().map(effective).collect();
    let run = Run { id: 0, views };
    if asked.call == TABLES_COVERING {
        let (start, end) = crate::table_idx_covering_range(&run, range).unwrap();
        assert_eq!((start, end), plain::views_covering(&effective, range));
        return Value::Places(start, end);
    }
    let is = crate::overlaps_range(&run, range).unwrap();
    assert_eq!(is, plain::overlaps(&effective, range));
    Value::Is(is)
}

// ---- which slice supplies a bound

fn supplied(bound: Bound, slice: u8, place: usize) -> Supplied {
    let place = key_of(&bound).map_or(0, |_| place);
    Supplied {
        bound,
        slice,
        place,
    }
}

fn joint(range: Range, slice: u8, (start, end): (usize, usize)) -> Joint {
    Joint {
        start: supplied(range.0, slice, start),
        end: supplied(range.1, slice, end),
    }
}

fn range_of(joint: &Joint) -> Range {
    (joint.start.bound.clone(), joint.end.bound.clone())
}

fn asked_joint(range: &Range) -> Joint {
    joint(range.clone(), 2, key_places(range))
}

/// "the greater start and the lesser end; of equal bounds, the second range's start and the first's
/// end"
fn intersect(a: &Joint, b: &Joint) -> Option<Joint> {
    let of = |side: u8, first: &Supplied, second: &Supplied| match side {
        1 => first.clone(),
        _ => second.clone(),
    };
    let sided = paper::intersect(&range_of(a), &range_of(b))?;
    Some(Joint {
        start: of(sided.start, &a.start, &b.start),
        end: of(sided.end, &a.end, &b.end),
    })
}

fn own(placed: &Placed) -> Joint {
    let table = &placed.view.table;
    let last = table.last.clone().map_or(Bound::Unbounded, Bound::Included);
    let range = (Bound::Included(table.first.clone()), last);
    joint(range, 1, (placed.first, placed.last))
}

fn visible(placed: &Placed) -> Option<Joint> {
    let visible = placed.view.visible.clone()?;
    Some(joint(visible, 1, (placed.start, placed.end)))
}

/// Of a view that passes the checks.
fn effective(placed: &Placed) -> Joint {
    let own = own(placed);
    visible(placed).map_or(own.clone(), |visible| intersect(&own, &visible).unwrap())
}

fn compacted_intersection(view: &Placed, next: Option<&Placed>, asked: &Joint) -> Option<Joint> {
    let own = effective(view);
    let Some(next) = next else {
        return intersect(&own, asked);
    };
    let next = effective(next);
    let end = plain::end_before(&range_of(&own), Some(&range_of(&next)));
    let slot = Joint {
        start: own.start,
        end: supplied(end, 1, next.start.place),
    };
    let kept = intersect(&slot, asked)?;
    match visible(view) {
        Some(visible) => intersect(&kept, &visible),
        None => Some(kept),
    }
}

fn calculate_view_range(view: &Placed, asked: &Joint) -> Option<Joint> {
    match visible(view) {
        Some(visible) => intersect(asked, &visible),
        None if view.view.table.last.is_some() => intersect(asked, &own(view)),
        None => Some(asked.clone()),
    }
}

/// The joint by the rule, which must have the original's bounds, and wherever there is a key to trace
/// its sources.
fn traced(
    original: Option<Sourced>,
    joint: Option<Joint>,
    view: &Placed,
    next: Option<&Placed>,
) -> Option<Joint> {
    let (Some(original), Some(joint)) = (&original, &joint) else {
        assert!(original.is_none() && joint.is_none());
        return None;
    };
    assert_eq!(original.range, range_of(joint));
    let (start, end) = (&joint.start, &joint.end);
    let starts = |source| source != Source::AskedEnd && stands_at(source, view, next, start);
    let ends = |source| source != Source::AskedStart && stands_at(source, view, next, end);
    let (start_from, end_from) = (original.start_from, original.end_from);
    assert!(start_from.is_none_or(starts), "{start_from:?}, {start:?}");
    assert!(end_from.is_none_or(ends), "{end_from:?}, {end:?}");
    Some(joint.clone())
}

/// Whether a bound is supplied by this source.
fn stands_at(source: Source, view: &Placed, next: Option<&Placed>, bound: &Supplied) -> bool {
    let next = |place: fn(&Placed) -> usize| next.map_or(0, place);
    let place = match source {
        Source::First => view.first,
        Source::Last => view.last,
        Source::VisibleStart => view.start,
        Source::VisibleEnd => view.end,
        Source::NextFirst => next(|next| next.first),
        Source::NextVisibleStart => next(|next| next.start),
        Source::AskedStart | Source::AskedEnd => return bound.slice == 2,
    };
    (bound.slice, bound.place) == (1, place)
}
