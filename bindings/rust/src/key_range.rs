//! A range of keys, as a value.
use crate::checks;
use crate::reader::Reader;
use crate::refusal::{Buffer, Refusal};
use crate::writer::Writer;
use crate::Stop;
use alloc::vec::Vec;
use core::fmt;
use core::ops::{Bound, RangeBounds};

/// A range of byte keys. What a call answers has keys that are parts of the slices it was given, `Range<&[u8]>`; a range
/// of its own has `Vec<u8>`.
///
/// It is made from any range of things that are bytes, and printed as a listing has it: keys in lowercase hexadecimal, a
/// square bracket for an included bound, a round one for an excluded one, `-` for none.
///
/// ```
/// use bilqarush::typed::Range;
/// assert_eq!(Range::new("a".."c").to_string(), "[61 63)");
/// assert_eq!(Range::new("lamp/7"..).to_string(), "[6c616d702f37 -");
/// assert_eq!(Range::all().to_string(), "- -");
/// assert_eq!(Range::new("a".."c").to_bytes()?, b"\x60\0\x01a\0\x01c");
/// # Ok::<(), bilqarush::Stop>(())
/// ```
#[derive(Clone, Copy, Debug, PartialEq, Eq, Hash)]
pub struct Range<K = Vec<u8>> {
    /// Where it starts.
    pub start: Bound<K>,
    /// Where it ends.
    pub end: Bound<K>,
}

impl Range {
    /// The range of the same bounds, its keys copied.
    #[must_use]
    pub fn new<Q: AsRef<[u8]>>(bounds: impl RangeBounds<Q>) -> Range {
        Range {
            start: bounds.start_bound().map(|key| key.as_ref().to_vec()),
            end: bounds.end_bound().map(|key| key.as_ref().to_vec()),
        }
    }

    /// The range without bounds, which holds every key.
    #[must_use]
    pub const fn all() -> Range {
        Range {
            start: Bound::Unbounded,
            end: Bound::Unbounded,
        }
    }

    /// The range that bytes are the image of. It is refused just as by [`contains`](crate::typed::contains), with the place.
    ///
    /// # Errors
    /// 3 (length), 1 to 3 in the fields; 4.
    pub fn from_bytes(bytes: &[u8]) -> Result<Range, Refusal> {
        let range = Range::decode(bytes)?;
        checks::of_range(&range)?;
        Ok(range)
    }

    /// The range that bytes are the image of, also if it fails [`non_empty`](crate::typed::non_empty).
    ///
    /// # Errors
    /// 3 (length), 1 to 3 in the fields.
    pub fn decode(bytes: &[u8]) -> Result<Range, Refusal> {
        let mut reader = Reader::new(Buffer::Range, bytes)?;
        let range = reader.range()?;
        reader.end()?;
        Ok(range)
    }
}

impl<K: AsRef<[u8]>> Range<K> {
    /// The same range, its keys borrowed.
    #[must_use]
    pub fn borrowed(&self) -> Range<&[u8]> {
        Range {
            start: self.start.as_ref().map(AsRef::as_ref),
            end: self.end.as_ref().map(AsRef::as_ref),
        }
    }

    /// The same range, its keys copied.
    #[must_use]
    pub fn owned(&self) -> Range {
        let range = self.borrowed();
        Range {
            start: range.start.map(<[u8]>::to_vec),
            end: range.end.map(<[u8]>::to_vec),
        }
    }

    /// Its image, which the calls take as [`RangeBytes`](crate::typed::RangeBytes): a head byte with both kinds, then each key after
    /// its length. Whether the range passes [`non_empty`](crate::typed::non_empty) is not looked at.
    ///
    /// # Errors
    /// 3 if a key is over 1,024 bytes.
    pub fn to_bytes(&self) -> Result<Vec<u8>, Stop> {
        let mut writer = Writer::new();
        writer.range(self.borrowed())?;
        writer.finish()
    }
}

impl<K: AsRef<[u8]>> RangeBounds<[u8]> for Range<K> {
    fn start_bound(&self) -> Bound<&[u8]> {
        self.borrowed().start
    }

    fn end_bound(&self) -> Bound<&[u8]> {
        self.borrowed().end
    }
}

impl<K: AsRef<[u8]>> fmt::Display for Range<K> {
    fn fmt(&self, f: &mut fmt::Formatter) -> fmt::Result {
        let hex = |f: &mut fmt::Formatter, key: &[u8]| {
            key.iter().try_for_each(|byte| write!(f, "{byte:02x}"))
        };
        let range = self.borrowed();
        match range.start {
            Bound::Unbounded => f.write_str("- ")?,
            Bound::Included(key) | Bound::Excluded(key) => {
                let included = range.start == Bound::Included(key);
                f.write_str(if included { "[" } else { "(" })?;
                hex(f, key)?;
                f.write_str(" ")?;
            }
        }
        match range.end {
            Bound::Unbounded => f.write_str("-"),
            Bound::Included(key) | Bound::Excluded(key) => {
                hex(f, key)?;
                let included = range.end == Bound::Included(key);
                f.write_str(if included { "]" } else { ")" })
            }
        }
    }
}
