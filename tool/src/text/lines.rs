//! The lines of a text.
use super::line::{Line, TextError};
use bilqarush::typed::Item;
use std::collections::VecDeque;

/// The lines that are not blank, taken one after the other.
pub struct Lines<'a> {
    lines: VecDeque<Line<'a>>,
    last: usize,
    items: Vec<(Item, usize)>,
}

/// A value that was read from a text, and the line of each of its items.
#[derive(Clone, Debug, PartialEq, Eq)]
pub struct Read<T> {
    pub value: T,
    pub lines: Vec<(Item, usize)>,
}

impl<'a> Lines<'a> {
    pub fn new(text: &'a [u8]) -> Result<Lines<'a>, TextError> {
        let mut lines = VecDeque::new();
        let mut last = 0;
        for (place, bytes) in text.split(|&byte| byte == b'\n').enumerate() {
            last = place + 1;
            lines.extend(Line::new(last, bytes)?);
        }
        Ok(Lines {
            lines,
            last,
            items: Vec::new(),
        })
    }

    /// The next line if it begins with a word, which is then taken from it.
    pub fn take(&mut self, word: &str) -> Option<Line<'a>> {
        match self.lines.front_mut()?.accept(word) {
            true => self.lines.pop_front(),
            false => None,
        }
    }

    /// The next line, which is to begin with a word.
    pub fn expect(&mut self, word: &str) -> Result<Line<'a>, TextError> {
        self.take(word)
            .ok_or_else(|| self.expected(&format!("the word {word}")))
    }

    /// The next line, whatever it begins with.
    pub fn any(&mut self, what: &str) -> Result<Line<'a>, TextError> {
        self.lines.pop_front().ok_or_else(|| self.expected(what))
    }

    fn expected(&self, what: &str) -> TextError {
        match self.lines.front() {
            Some(line) => line.expected(what),
            None => TextError {
                line: self.last,
                what: format!("{what} was expected, but the text ends"),
            },
        }
    }

    /// Notes the line of an item.
    pub fn note(&mut self, item: Item, line: &Line) {
        self.items.push((item, line.number));
    }

    /// The value, if no line is left. `what` could have come too.
    pub fn end<T>(self, value: T, what: &str) -> Result<Read<T>, TextError> {
        match self.lines.is_empty() {
            false => Err(self.expected(&format!("{what} or the end of the text"))),
            true => Ok(Read {
                value,
                lines: self.items,
            }),
        }
    }
}
