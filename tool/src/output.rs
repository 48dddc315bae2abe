//! What a command writes.
use crate::failure::Failure;
use crate::input::is_text;
use crate::kind::Kind;
use crate::text::write;
use bilqarush::typed::Range;
use std::ffi::{OsStr, OsString};
use std::fs::{self, File, OpenOptions};
use std::io::{self, IsTerminal, Write};
use std::path::{Path, PathBuf};

/// The answer of a command.
#[derive(Clone, Debug, Default, PartialEq, Eq)]
pub struct Answer {
    /// For standard output.
    pub out: Vec<u8>,
    /// For standard error.
    pub note: Option<String>,
    /// Whether the answer is that something is refused.
    pub refused: bool,
}

impl Answer {
    pub fn text(text: impl Into<String>) -> Answer {
        Answer {
            out: text.into().into_bytes(),
            ..Answer::default()
        }
    }

    pub fn yes_or_no(is: bool) -> Answer {
        Answer::text(if is { "yes\n" } else { "no\n" })
    }

    /// A line with a range, or with none.
    pub fn range<K: AsRef<[u8]>>(range: Option<&Range<K>>) -> Answer {
        Answer::text(range.map_or("none\n".to_string(), write::range))
    }

    /// A line for each range.
    pub fn ranges(ranges: &[Range]) -> Answer {
        Answer::text(ranges.iter().map(write::range).collect::<String>())
    }

    /// Nothing to print.
    pub fn none() -> Answer {
        Answer::default()
    }
}

/// Writes bytes of a kind to the file that -o names, as text if that is what its name says; else to standard output.
pub fn bytes(kind: Kind, bytes: Vec<u8>, out: Option<&OsStr>) -> Result<Answer, Failure> {
    let Some(file) = out.filter(|out| *out != "-") else {
        return to_standard_output(bytes);
    };
    let written = match is_text(file) {
        false => bytes,
        true => text(kind, &bytes).into_bytes(),
    };
    write_file(Path::new(file), &written).map_err(|error| unwritten(file, error))?;
    Ok(Answer::none())
}

/// Prints the text of bytes of a kind; with -o writes them as [`bytes`] does.
pub fn text_or_bytes(kind: Kind, laid: Vec<u8>, out: Option<&OsStr>) -> Result<Answer, Failure> {
    match out {
        Some(_) => bytes(kind, laid, out),
        None => Ok(Answer::text(text(kind, &laid))),
    }
}

fn text(kind: Kind, bytes: &[u8]) -> String {
    let text = kind.text_of(bytes);
    text.expect("what was just laid out has a text")
}

/// Writes text to the file that -o names, else to standard output.
pub fn printed(text: String, out: Option<&OsStr>) -> Result<Answer, Failure> {
    let Some(file) = out.filter(|out| *out != "-") else {
        return Ok(Answer::text(text));
    };
    write_file(Path::new(file), text.as_bytes()).map_err(|error| unwritten(file, error))?;
    Ok(Answer::none())
}

fn unwritten(file: &OsStr, error: io::Error) -> Failure {
    Failure::File(format!("{}: {error}", file.to_string_lossy()))
}

fn to_standard_output(bytes: Vec<u8>) -> Result<Answer, Failure> {
    if io::stdout().is_terminal() {
        let what = "bytes are not written to a terminal: name a file with -o OUT";
        return Err(Failure::Usage(what.to_string()));
    }
    Ok(Answer {
        out: bytes,
        ..Answer::default()
    })
}

/// Writes a file whole or not at all: to a new file beside it, which then takes its name.
pub fn write_file(path: &Path, bytes: &[u8]) -> io::Result<()> {
    // A link keeps its name, and the file that it names is replaced.
    let path = fs::canonicalize(path).unwrap_or_else(|_| path.to_path_buf());
    let old = fs::metadata(&path).ok();
    if old.as_ref().is_some_and(|old| !old.is_file()) {
        // A device or a pipe can't be replaced.
        return OpenOptions::new().write(true).open(&path)?.write_all(bytes);
    }
    let (beside, mut file) = create_beside(&path)?;
    let written = file.write_all(bytes).and_then(|()| file.sync_all());
    let kept = written.and_then(|()| match &old {
        Some(old) => fs::set_permissions(&beside, old.permissions()),
        None => Ok(()),
    });
    let done = kept.and_then(|()| fs::rename(&beside, &path));
    if done.is_err() {
        // The error to tell is the first one.
        let _ = fs::remove_file(&beside);
    }
    done
}

fn create_beside(path: &Path) -> io::Result<(PathBuf, File)> {
    let name = path.file_name().ok_or(io::ErrorKind::InvalidInput)?;
    let mut beside = OsString::from(".");
    beside.push(name);
    beside.push(format!(".{}.new", std::process::id()));
    let beside = path.with_file_name(beside);
    let file = File::create_new(&beside)?;
    Ok((beside, file))
}
