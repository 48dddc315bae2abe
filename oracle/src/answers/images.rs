//! What the calls on images answer.
use crate::checks::{Placed, PlacedRun};
use crate::{key_of, Bound, Giver, Range};
use std::fmt::Write as _;

#[derive(Clone, Copy, Debug, PartialEq, Eq, Hash)]
pub enum Call {
    CheckImage,
    /// Places of a run and of a view in it.
    EffectiveRange(u64, u64),
    /// Length of the lent buffer.
    List(u64),
}

impl Call {
    pub fn number(self) -> u8 {
        match self {
            Call::CheckImage => 1,
            Call::EffectiveRange(..) => 2,
            Call::List(_) => 3,
        }
    }

    pub fn arguments(self) -> (u64, u64) {
        match self {
            Call::CheckImage => (0, 0),
            Call::EffectiveRange(run, view) => (run, view),
            Call::List(room) => (room, 0),
        }
    }
}

/// An effective range, and the places of its keys (0 where it has none). Of equal bounds the
/// giver is the original's, by the memory that it hands back; for an empty key, which lies
/// nowhere, by a run of `intersect` over keys that remember their range.
pub fn effective(placed: &Placed) -> (Range, usize, usize) {
    let traced = crate::effective_range_traced(&placed.view).unwrap();
    assert_eq!(
        Ok(&traced.range),
        crate::effective_range(&placed.view).as_ref()
    );
    let (mut start, mut end) = (Giver::First, Giver::First);
    if let Some(visible) = &placed.view.visible {
        let own = crate::own_range(&placed.view.table).unwrap();
        let again = crate::intersect_traced(&own, visible).unwrap();
        assert_eq!(again.range, traced.range);
        start = again.start_from.unwrap_or(start);
        end = again.end_from.unwrap_or(end);
    }
    assert_eq!(start, traced.start_from.unwrap_or(start));
    assert_eq!(end, traced.end_from.unwrap_or(end));
    let place = |bound: &Bound, giver: Giver, first: usize, second: usize| {
        key_of(bound).map_or(0, |_| match giver {
            Giver::First => first,
            Giver::Second => second,
        })
    };
    let start = place(&traced.range.0, start, placed.first, placed.start);
    let end = place(&traced.range.1, end, placed.last, placed.end);
    (traced.range, start, end)
}

pub fn hexadecimal(bytes: &[u8]) -> String {
    bytes.iter().fold(String::new(), |mut text, byte| {
        write!(text, "{byte:02x}").unwrap();
        text
    })
}

/// The text that `runlist` writes for an image that passes the checks.
pub fn listing(image: &[PlacedRun]) -> Vec<u8> {
    let mut text = String::from("run view table start end\n");
    for run in image {
        for (place, placed) in run.views.iter().enumerate() {
            let table = hexadecimal(&placed.view.table.id);
            let (start, end) = crate::effective_range(&placed.view).unwrap();
            let start = match start {
                Bound::Unbounded => "-".into(),
                Bound::Included(key) => format!("[{}", hexadecimal(&key)),
                Bound::Excluded(key) => format!("({}", hexadecimal(&key)),
            };
            let end = match end {
                Bound::Unbounded => "-".into(),
                Bound::Included(key) => format!("{}]", hexadecimal(&key)),
                Bound::Excluded(key) => format!("{})", hexadecimal(&key)),
            };
            writeln!(text, "{} {place} {table} {start} {end}", run.id).unwrap();
        }
    }
    text.into_bytes()
}

pub fn at<T>(list: &[T], place: u64) -> Option<&T> {
    usize::try_from(place)
        .ok()
        .and_then(|place| list.get(place))
}
