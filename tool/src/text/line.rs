//! A line of the text form, read word by word.
use super::{id, key, range, words};
use bilqarush::raw::BILQARUSH_MAX_KEY;
use bilqarush::typed::Range;
use std::fmt;

/// A text that is no text form: the line, and what was expected there.
#[derive(Clone, Debug, PartialEq, Eq)]
pub struct TextError {
    /// The line, from 1.
    pub line: usize,
    /// What is wrong with it.
    pub what: String,
}

impl fmt::Display for TextError {
    fn fmt(&self, f: &mut fmt::Formatter) -> fmt::Result {
        write!(f, "line {}: {}", self.line, self.what)
    }
}

impl std::error::Error for TextError {}

/// A line with at least one word.
pub struct Line<'a> {
    pub number: usize,
    words: Vec<&'a str>,
    at: usize,
}

impl<'a> Line<'a> {
    /// The line of some bytes; none if it is blank.
    pub fn new(number: usize, bytes: &'a [u8]) -> Result<Option<Line<'a>>, TextError> {
        match words::split(bytes) {
            Ok(words) if words.is_empty() => Ok(None),
            Ok(words) => Ok(Some(Line {
                number,
                words,
                at: 0,
            })),
            Err(what) => Err(TextError { line: number, what }),
        }
    }

    /// The word that comes next, if there is one.
    pub fn next(&self) -> Option<&'a str> {
        self.words.get(self.at).copied()
    }

    pub fn fail(&self, what: String) -> TextError {
        TextError {
            line: self.number,
            what,
        }
    }

    /// Something else was expected in place of the next word.
    pub fn expected(&self, what: &str) -> TextError {
        self.fail(match self.next() {
            Some(word) => format!("{what} was expected, not {word}"),
            None => format!("{what} was expected, but the line ends"),
        })
    }

    fn take<T>(&mut self, what: &str, read: impl Fn(&str) -> Option<T>) -> Result<T, TextError> {
        let value = self.next().and_then(read);
        let value = value.ok_or_else(|| self.expected(what))?;
        self.at += 1;
        Ok(value)
    }

    /// Whether the next word is this one, which is then taken.
    pub fn accept(&mut self, word: &str) -> bool {
        let is = self.next() == Some(word);
        self.at += usize::from(is);
        is
    }

    pub fn word(&mut self, word: &str) -> Result<(), TextError> {
        match self.accept(word) {
            true => Ok(()),
            false => Err(self.expected(&format!("the word {word}"))),
        }
    }

    /// A number in decimal digits alone.
    pub fn number<T: std::str::FromStr>(&mut self, what: &str) -> Result<T, TextError> {
        let digits = |word: &str| word.bytes().all(|byte| byte.is_ascii_digit());
        self.take(what, |word| {
            digits(word).then(|| word.parse().ok()).flatten()
        })
    }

    pub fn id(&mut self) -> Result<u128, TextError> {
        self.take(id::EXPECTED, id::read)
    }

    pub fn key(&mut self) -> Result<Vec<u8>, TextError> {
        let key = self.take(key::EXPECTED, key::read)?;
        self.short(&key)?;
        Ok(key)
    }

    /// A last key, or `-` for none.
    pub fn last_key(&mut self) -> Result<Option<Vec<u8>>, TextError> {
        match self.accept("-") {
            true => Ok(None),
            false => self.key().map(Some),
        }
    }

    pub fn range(&mut self) -> Result<Range, TextError> {
        let words = (self.next(), self.words.get(self.at + 1));
        let range = match words {
            (Some(start), Some(end)) => range::read(start, end),
            _ => None,
        };
        let range = range.ok_or_else(|| self.expected(range::EXPECTED))?;
        for bound in [&range.start, &range.end] {
            if let std::ops::Bound::Included(key) | std::ops::Bound::Excluded(key) = bound {
                self.short(key)?;
            }
        }
        self.at += 2;
        Ok(range)
    }

    fn short(&self, key: &[u8]) -> Result<(), TextError> {
        match key.len() <= BILQARUSH_MAX_KEY {
            true => Ok(()),
            false => Err(self.fail(format!(
                "a key of at most {BILQARUSH_MAX_KEY} bytes was expected, not one of {}",
                key.len()
            ))),
        }
    }

    /// That the line is no more than its ceiling allows.
    pub fn room(&self, before: usize, most: usize, what: &str) -> Result<(), TextError> {
        match before < most {
            true => Ok(()),
            false => Err(self.fail(format!("at most {most} {what} were expected"))),
        }
    }

    /// That no word is left. `what` could have come too.
    pub fn end(&self, what: &str) -> Result<(), TextError> {
        match self.next() {
            None => Ok(()),
            Some(_) => Err(self.expected(&format!("{what}the end of the line"))),
        }
    }
}
