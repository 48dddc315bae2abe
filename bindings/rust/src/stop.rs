use crate::answer::unfit;
use core::error::Error;
use core::fmt;

/// One row a stop: number, name, sentence. The header and docs/FORMAT.md have the same rows; tests/header.rs holds the three
/// together.
macro_rules! stops {
    ($($number:literal $name:ident $sentence:literal)*) => {
        /// Why a call refused its input: one of the numbers 1 to 16 of docs/FORMAT.md, by its name.
        #[derive(Clone, Copy, Debug, PartialEq, Eq, Hash, PartialOrd, Ord)]
        #[repr(u8)]
        #[non_exhaustive]
        pub enum Stop {
            $(#[doc = concat!("Stop ", $number, ": ", $sentence, ".")] $name = $number,)*
        }

        impl Stop {
            /// All stops, by their numbers.
            pub const ALL: &'static [Stop] = &[$(Stop::$name),*];

            /// Its name, as `InputEnd`.
            #[must_use]
            pub const fn name(self) -> &'static str {
                match self {
                    $(Stop::$name => stringify!($name),)*
                }
            }

            /// What it means, in words.
            #[must_use]
            pub const fn sentence(self) -> &'static str {
                match self {
                    $(Stop::$name => $sentence,)*
                }
            }
        }
    };
}

stops! {
    1 InputEnd "the input ends inside a field, or bytes remain after the last"
    2 PaddingOrKind "a padding bit is set or a kind is 3"
    3 Ceiling "a length, count or setting exceeds its ceiling, or a prefix and suffix join to over 1,024 bytes"
    4 EmptyRange "a range, given (but to non_empty) or joined from a prefix and a subrange, fails non_empty"
    5 TableRange "a last key is below its first key, a visible range starts excluded, or it does not meet its table's own range"
    6 Order "view starts in a run or first keys within one index image descend, or two runs share an id"
    7 Size "anchor bytes total 2^63 or more, or index_offset + index_len exceeds 2^53"
    8 DestinationNotSource "the destination is not a source"
    9 NotInImage "a source, or a run or view called by place, is not in the image"
    10 PlannedRange "a planned range starts excluded or ends included, or a part begins before the previous part's end (unbounded is least as a start, greatest as an end)"
    11 Output "an output lacks a last key, is not wholly inside its planned range, or starts below the last key of its part's previous output"
    12 NotDurable "a destination view of an output table holds some key that lies in no durable interval"
    13 RetainedRange "a retained range misses its table's own range"
    14 IdSupply "the id supply is used up with an id still to draw"
    15 ResultCeiling "a result has over 1,024 views in a run, over 4,096 anchors, or is an image over 65,536 bytes"
    16 OutputBuffer "the output buffer is shorter than the answer"
}

impl Stop {
    /// The stop of a number, if it is 1 to 16.
    #[must_use]
    pub fn from_number(number: u8) -> Option<Stop> {
        let place = usize::from(number).checked_sub(1)?;
        Stop::ALL.get(place).copied()
    }

    /// Its number.
    #[must_use]
    pub const fn number(self) -> u8 {
        self as u8
    }

    /// What a raw call returned: 0, or a stop.
    pub(crate) fn told(number: u8) -> Result<(), Stop> {
        match Stop::from_number(number) {
            Some(stop) => Err(stop),
            None if number == 0 => Ok(()),
            None => unfit("stop", number),
        }
    }
}

impl fmt::Display for Stop {
    fn fmt(&self, f: &mut fmt::Formatter) -> fmt::Result {
        write!(f, "stop {}: {}", self.number(), self.sentence())
    }
}

impl Error for Stop {}
