//! The axis: the keys that occur, what they are called, and what of it a range covers.
use bilqarush::typed::Range;
use std::collections::BTreeSet;
use std::ops::{Bound, RangeInclusive};

/// A key with a longer name gets a number on the axis.
const NAME: usize = 7;

pub(super) struct Axis {
    keys: Vec<Vec<u8>>,
    names: Vec<String>,
    legend: Vec<(String, String)>,
}

/// A range, its keys by their places on the axis.
#[derive(Clone, Copy, Debug, PartialEq, Eq)]
pub(super) struct Span {
    pub(super) start: Bound<usize>,
    pub(super) end: Bound<usize>,
}

impl Axis {
    pub(super) fn new(ranges: &[&Range]) -> Axis {
        let bounds = ranges.iter().flat_map(|range| [&range.start, &range.end]);
        let keys: BTreeSet<&Vec<u8>> = bounds.filter_map(key).collect();
        let mut axis = Axis {
            keys: keys.into_iter().cloned().collect(),
            names: Vec::new(),
            legend: Vec::new(),
        };
        for key in &axis.keys {
            let mut name = full_name(key);
            if name.len() > NAME {
                let number = format!("#{}", axis.legend.len() + 1);
                axis.legend.push((number.clone(), name));
                name = number;
            }
            axis.names.push(name);
        }
        axis
    }

    pub(super) fn len(&self) -> usize {
        self.keys.len()
    }

    /// The names on the axis.
    pub(super) fn names(&self) -> &[String] {
        &self.names
    }

    /// The numbers that stand for long names, and these.
    pub(super) fn legend(&self) -> &[(String, String)] {
        &self.legend
    }

    /// The place of a key that occurs.
    pub(super) fn place(&self, key: &[u8]) -> usize {
        self.keys.partition_point(|other| other.as_slice() < key)
    }

    pub(super) fn span(&self, range: &Range) -> Span {
        Span {
            start: range.start.as_ref().map(|key| self.place(key)),
            end: range.end.as_ref().map(|key| self.place(key)),
        }
    }

    /// The stretches of the axis that a span covers. The key of a place is stretch 2 place + 1, and the even ones are the
    /// stretches between keys, before the first and behind the last.
    pub(super) fn stretches(&self, span: Span) -> RangeInclusive<usize> {
        let from = match span.start {
            Bound::Unbounded => 0,
            Bound::Included(place) => 2 * place + 1,
            Bound::Excluded(place) => 2 * place + 2,
        };
        let to = match span.end {
            Bound::Unbounded => 2 * self.len(),
            Bound::Included(place) => 2 * place + 1,
            Bound::Excluded(place) => 2 * place,
        };
        from..=to
    }

    /// Whether some key lies in a stretch: none is below the empty key, and none between k and k followed by 00.
    pub(super) fn holds_keys(&self, stretch: usize) -> bool {
        let place = stretch / 2;
        if stretch % 2 == 1 || place == self.len() {
            return true;
        }
        let key = &self.keys[place];
        match place.checked_sub(1) {
            None => !key.is_empty(),
            Some(before) => key.strip_prefix(self.keys[before].as_slice()) != Some(&[0]),
        }
    }

    /// The stretches from one to another, as a range of keys by their names.
    pub(super) fn words(&self, stretches: RangeInclusive<usize>) -> String {
        let (from, to) = stretches.into_inner();
        let start = match (from / 2, from % 2) {
            (place, 1) => format!("[{}", self.names[place]),
            (0, _) => "-".into(),
            (place, _) => format!("({}", self.names[place - 1]),
        };
        let end = match (to / 2, to % 2) {
            (place, 1) => format!("{}]", self.names[place]),
            (place, _) if place == self.len() => "-".into(),
            (place, _) => format!("{})", self.names[place]),
        };
        format!("{start} {end}")
    }
}

/// A range with the full names of its keys.
pub(super) fn full_words(range: &Range) -> String {
    let start = match &range.start {
        Bound::Unbounded => "-".into(),
        Bound::Included(key) => format!("[{}", full_name(key)),
        Bound::Excluded(key) => format!("({}", full_name(key)),
    };
    let end = match &range.end {
        Bound::Unbounded => "-".into(),
        Bound::Included(key) => format!("{}]", full_name(key)),
        Bound::Excluded(key) => format!("{})", full_name(key)),
    };
    format!("{start} {end}")
}

fn key(bound: &Bound<Vec<u8>>) -> Option<&Vec<u8>> {
    match bound {
        Bound::Unbounded => None,
        Bound::Included(key) | Bound::Excluded(key) => Some(key),
    }
}

/// A key as text, in quotes where it has a space, is empty or could be taken for another form; else in hexadecimal.
fn full_name(key: &[u8]) -> String {
    let printable = |byte: &u8| matches!(byte, b' '..=b'~');
    let text = match std::str::from_utf8(key) {
        Ok(text) if key.iter().all(printable) => text,
        _ => {
            let digits: String = key.iter().map(|byte| format!("{byte:02x}")).collect();
            return format!("0x{digits}");
        }
    };
    let other_form = ["#", "\"", "0x", "-"]
        .iter()
        .any(|first| text.starts_with(first));
    match text.is_empty() || text.contains(' ') || other_form {
        true => format!("\"{text}\""),
        false => text.into(),
    }
}
