//! What a command reads: files, standard input, and ranges and keys that are arguments.
use crate::failure::{Failure, Report};
use crate::kind::{line_of, Kind, Unmade};
use crate::text::{key, range};
use bilqarush::typed::{Item, Place, Range, Stop};
use std::ffi::OsStr;
use std::fs::File;
use std::io::{self, Read};

/// No input is longer, not even a text with long comments.
const MOST: u64 = 16 << 20;

/// Bytes, with the name that messages have for them.
#[derive(Clone, Debug, PartialEq, Eq)]
pub struct Input {
    pub name: String,
    pub kind: Kind,
    pub bytes: Vec<u8>,
    /// The line of each item, if the input was a text.
    pub lines: Vec<(Item, usize)>,
}

impl Input {
    /// A place in it in words, with the line if it was a text.
    pub fn place(&self, place: &Place) -> String {
        match line_of(&self.lines, place.item) {
            Some(line) => format!("line {line}: {place}"),
            None => place.to_string(),
        }
    }

    /// A range that is an argument.
    pub fn of_range(range: &Range) -> Result<Input, Failure> {
        let name = range::write(range);
        let bytes = range
            .to_bytes()
            .map_err(|stop| refused_alone(&name, stop))?;
        Ok(Input {
            name,
            kind: Kind::Range,
            bytes,
            lines: Vec::new(),
        })
    }
}

fn refused_alone(name: &str, stop: Stop) -> Failure {
    Failure::Refused(Report {
        subject: name.to_string(),
        stop,
        place: None,
    })
}

/// Reads the inputs of one command, of which one may be standard input.
pub struct Inputs {
    text: bool,
    taken: bool,
}

impl Inputs {
    /// `text`: standard input is the text form.
    pub fn new(text: bool) -> Inputs {
        Inputs { text, taken: false }
    }

    /// A file as it is, with its name.
    pub fn raw(&mut self, file: Option<&OsStr>) -> Result<(String, Vec<u8>), Failure> {
        let file = file.filter(|file| *file != "-");
        let name = file.map_or("standard input".into(), OsStr::to_string_lossy);
        let bytes = match file {
            Some(file) => File::open(file).and_then(read_all),
            None if self.taken => {
                let what = "only one input may be standard input";
                return Err(Failure::Usage(what.to_string()));
            }
            None => {
                self.taken = true;
                read_all(io::stdin())
            }
        };
        let bytes = bytes.map_err(|error| Failure::File(format!("{name}: {error}")))?;
        Ok((name.into_owned(), bytes))
    }

    /// Bytes, or a text if the name ends in .txt.
    pub fn read(&mut self, kind: Kind, file: Option<&OsStr>) -> Result<Input, Failure> {
        let text = match file.filter(|file| *file != "-") {
            Some(file) => is_text(file),
            None => self.text,
        };
        match text {
            true => self.text(kind, file),
            false => {
                let (name, bytes) = self.raw(file)?;
                let lines = Vec::new();
                Ok(Input {
                    name,
                    kind,
                    bytes,
                    lines,
                })
            }
        }
    }

    /// A text, whatever its name, made into bytes.
    pub fn text(&mut self, kind: Kind, file: Option<&OsStr>) -> Result<Input, Failure> {
        let (name, text) = self.raw(file)?;
        match kind.bytes_of(&text) {
            Ok(read) => Ok(Input {
                name,
                kind,
                bytes: read.value,
                lines: read.lines,
            }),
            Err(Unmade::Text(error)) => Err(Failure::File(format!("{name}: {error}"))),
            Err(Unmade::Stop(stop)) => Err(refused_alone(&name, stop)),
        }
    }
}

/// Whether a file's name says that it is the text form.
pub fn is_text(file: &OsStr) -> bool {
    file.as_encoded_bytes().ends_with(b".txt")
}

fn read_all(from: impl Read) -> io::Result<Vec<u8>> {
    let mut bytes = Vec::new();
    from.take(MOST + 1).read_to_end(&mut bytes)?;
    match bytes.len() as u64 <= MOST {
        true => Ok(bytes),
        false => Err(io::Error::other("it is over 16 MiB, and no input is")),
    }
}

/// A key that is an argument.
pub fn key(word: &str) -> Result<Vec<u8>, Failure> {
    let key = key::read(word);
    key.ok_or_else(|| Failure::Usage(format!("{} was expected, not {word}", key::EXPECTED)))
}

/// A range that is two words of an argument or of two.
pub fn range(start: &str, end: &str) -> Result<Input, Failure> {
    let range = range::read(start, end).ok_or_else(|| {
        let what = range::EXPECTED;
        Failure::Usage(format!("{what} was expected, not {start} {end}"))
    })?;
    Input::of_range(&range)
}
