//! Where a refusal lies.
use crate::Stop;
use core::error::Error;
use core::fmt;

/// A stop, and where in the input it lies.
///
/// The stop is what counts: it is the proved call's. The place is found by a second reading, which is not proved.
#[derive(Clone, Copy, Debug, PartialEq, Eq, Hash)]
pub struct Refusal {
    /// Why the input was refused.
    pub stop: Stop,
    /// Where. The stops 14 to 16, on the id supply, the result and the output buffer, have no place in the input.
    pub place: Option<Place>,
}

/// A place in a buffer.
#[derive(Clone, Copy, Debug, PartialEq, Eq, Hash)]
pub struct Place {
    /// The buffer.
    pub buffer: Buffer,
    /// The run, view, part or other item in it.
    pub item: Item,
    /// The item's field. `docs/FORMAT.md` has the fields of each record.
    pub field: &'static str,
    /// Where the field begins in the buffer, in bytes from 0. A field that shares a byte with the one before it begins in
    /// that byte.
    pub offset: usize,
    /// What is wrong with it.
    pub what: &'static str,
}

/// What a buffer was given as.
#[derive(Clone, Copy, Debug, PartialEq, Eq, Hash)]
#[non_exhaustive]
pub enum Buffer {
    /// An image.
    Image,
    /// A job.
    Job,
    /// An index, or several laid end to end.
    Index,
    /// Anchors.
    Anchors,
    /// A plan.
    Plan,
    /// A range.
    Range,
}

/// An item of a buffer, by its place from 0.
#[derive(Clone, Copy, Debug, PartialEq, Eq, Hash)]
#[non_exhaustive]
pub enum Item {
    /// What stands before the first item or behind the last, or all of it.
    Whole,
    /// A run of an image.
    Run(usize),
    /// A view of a run.
    View {
        /// The run.
        run: usize,
        /// The view in it.
        view: usize,
    },
    /// A source of a job.
    Source(usize),
    /// A part of a job.
    Part(usize),
    /// An output of a part.
    Output {
        /// The part.
        part: usize,
        /// The output in it.
        output: usize,
    },
    /// An index, of those laid end to end.
    Index(usize),
    /// A block of an index.
    Block {
        /// The index.
        index: usize,
        /// The block in it.
        block: usize,
    },
    /// An anchor.
    Anchor(usize),
    /// A range of a plan.
    Range(usize),
}

impl Refusal {
    pub(crate) fn at(stop: Stop, place: Place) -> Refusal {
        Refusal {
            stop,
            place: Some(place),
        }
    }
}

/// The stop in words; then, on a line of its own, where it lies.
impl fmt::Display for Refusal {
    fn fmt(&self, f: &mut fmt::Formatter) -> fmt::Result {
        write!(f, "{}", self.stop)?;
        match self.place {
            Some(place) => write!(f, "\n{place}"),
            None => Ok(()),
        }
    }
}

impl Error for Refusal {}

impl From<Refusal> for Stop {
    fn from(refusal: Refusal) -> Stop {
        refusal.stop
    }
}

/// As `image, run 0, view 1: last key, at byte 129: it is below the first key`. Runs, views and the like are counted from 0.
impl fmt::Display for Place {
    fn fmt(&self, f: &mut fmt::Formatter) -> fmt::Result {
        let Place {
            buffer,
            item,
            field,
            offset,
            what,
        } = self;
        write!(f, "{buffer}{item}: {field}, at byte {offset}: {what}")
    }
}

impl fmt::Display for Buffer {
    fn fmt(&self, f: &mut fmt::Formatter) -> fmt::Result {
        f.write_str(match self {
            Buffer::Image => "image",
            Buffer::Job => "job",
            Buffer::Index => "index",
            Buffer::Anchors => "anchors",
            Buffer::Plan => "plan",
            Buffer::Range => "range",
        })
    }
}

/// As it follows the name of its buffer.
impl fmt::Display for Item {
    fn fmt(&self, f: &mut fmt::Formatter) -> fmt::Result {
        match self {
            Item::Whole => Ok(()),
            Item::Run(run) => write!(f, ", run {run}"),
            Item::View { run, view } => write!(f, ", run {run}, view {view}"),
            Item::Source(source) => write!(f, ", source {source}"),
            Item::Part(part) => write!(f, ", part {part}"),
            Item::Output { part, output } => write!(f, ", part {part}, output {output}"),
            Item::Index(index) => write!(f, " {index}"),
            Item::Block { index, block } => write!(f, " {index}, block {block}"),
            Item::Anchor(anchor) => write!(f, ", anchor {anchor}"),
            Item::Range(range) => write!(f, ", range {range}"),
        }
    }
}
