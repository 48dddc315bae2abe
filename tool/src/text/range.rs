//! Ranges in the text form: two words, the brackets as a listing has them.
use super::key;
use bilqarush::typed::Range;
use std::ops::Bound;

/// A range as errors name it.
pub const EXPECTED: &str = "a range such as [a c), (a c], [a - or - c)";

/// The range that two words are.
pub fn read(start: &str, end: &str) -> Option<Range> {
    Some(Range {
        start: read_start(start)?,
        end: read_end(end)?,
    })
}

fn read_start(word: &str) -> Option<Bound<Vec<u8>>> {
    match word.split_at_checked(1)? {
        ("-", "") => Some(Bound::Unbounded),
        ("[", word) => key::read(word).map(Bound::Included),
        ("(", word) => key::read(word).map(Bound::Excluded),
        _ => None,
    }
}

/// The end of a range: `-`, or a key and a bracket.
pub fn read_end(word: &str) -> Option<Bound<Vec<u8>>> {
    match word.split_at_checked(word.len().checked_sub(1)?)? {
        ("", "-") => Some(Bound::Unbounded),
        (word, "]") => key::read(word).map(Bound::Included),
        (word, ")") => key::read(word).map(Bound::Excluded),
        _ => None,
    }
}

/// The two words for a range.
pub fn write<K: AsRef<[u8]>>(range: &Range<K>) -> String {
    let range = range.borrowed();
    let start = match range.start {
        Bound::Unbounded => "-".to_string(),
        Bound::Included(key) => format!("[{}", key::write(key)),
        Bound::Excluded(key) => format!("({}", key::write(key)),
    };
    let end = match range.end {
        Bound::Unbounded => "-".to_string(),
        Bound::Included(key) => format!("{}]", key::write(key)),
        Bound::Excluded(key) => format!("{})", key::write(key)),
    };
    format!("{start} {end}")
}
