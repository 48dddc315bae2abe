//! The kinds of input: from text to bytes, back, and what the library says of the bytes.
use crate::text::{read, write, Read, TextError};
use bilqarush::typed::{
    explain, Anchors, AnchorsBytes, Buffer, Image, ImageBytes, Index, IndexBytes, Indexes,
    IndexesBytes, Item, Job, JobBytes, Plan, Range, RangeBytes, Refusal, Stop,
};

/// What bytes are meant to be.
#[derive(Clone, Copy, Debug, PartialEq, Eq)]
pub enum Kind {
    Image,
    Job,
    Index,
    /// Several indexes, laid end to end.
    Indexes,
    Anchors,
    Plan,
    Range,
}

/// Why a text has no bytes.
#[derive(Clone, Debug, PartialEq, Eq)]
pub enum Unmade {
    /// It is no text form.
    Text(TextError),
    /// A ceiling.
    Stop(Stop),
}

impl From<TextError> for Unmade {
    fn from(error: TextError) -> Unmade {
        Unmade::Text(error)
    }
}

impl Kind {
    pub const ALL: [Kind; 7] = [
        Kind::Image,
        Kind::Job,
        Kind::Index,
        Kind::Indexes,
        Kind::Anchors,
        Kind::Plan,
        Kind::Range,
    ];

    pub fn name(self) -> &'static str {
        match self {
            Kind::Image => "image",
            Kind::Job => "job",
            Kind::Index => "index",
            Kind::Indexes => "indexes",
            Kind::Anchors => "anchors",
            Kind::Plan => "plan",
            Kind::Range => "range",
        }
    }

    pub fn named(name: &str) -> Option<Kind> {
        Kind::ALL.into_iter().find(|kind| kind.name() == name)
    }

    /// Whether a refusal's buffer is of this kind.
    pub fn is(self, buffer: Buffer) -> bool {
        match self {
            Kind::Image => buffer == Buffer::Image,
            Kind::Job => buffer == Buffer::Job,
            Kind::Index | Kind::Indexes => buffer == Buffer::Index,
            Kind::Anchors => buffer == Buffer::Anchors,
            Kind::Plan => buffer == Buffer::Plan,
            Kind::Range => buffer == Buffer::Range,
        }
    }

    /// The bytes of a text, and the line of each item.
    pub fn bytes_of(self, text: &[u8]) -> Result<Read<Vec<u8>>, Unmade> {
        match self {
            Kind::Image => laid(read::image(text)?, Image::to_bytes),
            Kind::Job => laid(read::job(text)?, Job::to_bytes),
            Kind::Index => laid(read::index(text)?, Index::to_bytes),
            Kind::Indexes => laid(read::indexes(text)?, Indexes::to_bytes),
            Kind::Anchors => laid(read::anchors(text)?, Anchors::to_bytes),
            Kind::Plan => laid(read::plan(text)?, Plan::to_bytes),
            Kind::Range => laid(read::range(text)?, Range::to_bytes),
        }
    }

    /// The text of bytes, by their layout alone.
    pub fn text_of(self, bytes: &[u8]) -> Result<String, Refusal> {
        Ok(match self {
            Kind::Image => write::image(&Image::decode(bytes)?),
            Kind::Job => write::job(&Job::decode(bytes)?),
            Kind::Index => write::index(&Index::decode(bytes)?),
            Kind::Indexes => write::indexes(&Indexes::decode(bytes)?),
            Kind::Anchors => write::anchors(&Anchors::decode(bytes)?),
            Kind::Plan => write::plan(&Plan::from_bytes(bytes)?),
            Kind::Range => write::range(&Range::decode(bytes)?),
        })
    }

    /// Why the library refuses bytes, if it does. No call takes a plan: its layout is looked at.
    pub fn explain(self, bytes: &[u8]) -> Option<Refusal> {
        match self {
            Kind::Image => explain(ImageBytes(bytes)),
            Kind::Job => explain(JobBytes(bytes)),
            Kind::Index => explain(IndexBytes(bytes)),
            Kind::Indexes => explain(IndexesBytes(bytes)),
            Kind::Anchors => explain(AnchorsBytes(bytes)),
            Kind::Plan => Plan::from_bytes(bytes).err(),
            Kind::Range => explain(RangeBytes(bytes)),
        }
    }
}

fn laid<T>(
    read: Read<T>,
    to_bytes: impl Fn(&T) -> Result<Vec<u8>, Stop>,
) -> Result<Read<Vec<u8>>, Unmade> {
    let Read { value, lines } = read;
    let value = to_bytes(&value).map_err(Unmade::Stop)?;
    Ok(Read { value, lines })
}

/// The line of an item, in the lines of a text.
pub fn line_of(lines: &[(Item, usize)], item: Item) -> Option<usize> {
    lines.iter().find(|line| line.0 == item).map(|line| line.1)
}
