//! The arguments of a command: words and options.
use crate::failure::Failure;
use crate::input;
use crate::input::Input;
use crate::text::{range, words};
use std::ffi::{OsStr, OsString};
use std::str::FromStr;

/// An option of a command.
pub struct Opt {
    /// As `--text` or `-o`.
    pub name: &'static str,
    /// What its value is called, if it takes one.
    pub value: Option<&'static str>,
    /// What it does.
    pub about: &'static str,
}

/// The arguments, the options taken out.
#[derive(Debug, Default)]
pub struct Args {
    words: Vec<OsString>,
    options: Vec<(&'static str, OsString)>,
    /// Whether there was --help.
    pub help: bool,
}

fn usage(what: String) -> Failure {
    Failure::Usage(what)
}

/// `-` and a range as `- c)` are words.
fn is_option(text: &str) -> bool {
    let second = text.strip_prefix('-').and_then(|rest| rest.chars().next());
    second.is_some_and(|second| second == '-' || second.is_ascii_alphabetic())
}

impl Args {
    /// Reads the arguments of a command that has these options. `--` ends the options; `-` is a word.
    pub fn read(given: &[OsString], options: &[Opt]) -> Result<Args, Failure> {
        let mut args = Args::default();
        let mut given = given.iter();
        while let Some(word) = given.next() {
            let text = word.to_string_lossy();
            match text.as_ref() {
                "--help" | "-h" => args.help = true,
                "--" => args.words.extend(given.by_ref().cloned()),
                text if is_option(text) => args.option(text, options, &mut given)?,
                _ => args.words.push(word.clone()),
            }
        }
        Ok(args)
    }

    fn option<'a>(
        &mut self,
        text: &str,
        options: &[Opt],
        given: &mut impl Iterator<Item = &'a OsString>,
    ) -> Result<(), Failure> {
        let (name, joined) = match text.split_once('=') {
            Some((name, value)) if name.starts_with("--") => (name, Some(OsString::from(value))),
            _ => (text, None),
        };
        let option = options.iter().find(|option| option.name == name);
        let option = option.ok_or_else(|| usage(format!("there is no option {name}")))?;
        let value = match (option.value, joined) {
            (None, Some(_)) => return Err(usage(format!("{name} takes no value"))),
            (None, None) => OsString::new(),
            (Some(_), Some(value)) => value,
            (Some(what), None) => {
                let value = given.next().cloned();
                value.ok_or_else(|| usage(format!("{name} needs a value, {what}")))?
            }
        };
        if self.value(name).is_some() {
            return Err(usage(format!("{name} is given twice")));
        }
        self.options.push((option.name, value));
        Ok(())
    }

    pub fn words(&self) -> &[OsString] {
        &self.words
    }

    /// The value of an option that was given.
    pub fn value(&self, name: &str) -> Option<&OsStr> {
        let given = self.options.iter().find(|option| option.0 == name);
        given.map(|option| option.1.as_os_str())
    }

    pub fn has(&self, name: &str) -> bool {
        self.value(name).is_some()
    }

    /// The number that an option has, if it was given.
    pub fn number<T: FromStr>(&self, name: &str) -> Result<Option<T>, Failure> {
        self.value(name)
            .map(|value| number(name, value))
            .transpose()
    }

    /// That there are so many words.
    pub fn between(&self, least: usize, most: usize) -> Result<(), Failure> {
        match self.words.len() {
            count if count < least => Err(usage("an argument is missing".to_string())),
            count if count > most => Err(usage(format!(
                "there is an argument too many: {}",
                self.words[most].to_string_lossy()
            ))),
            _ => Ok(()),
        }
    }

    /// The word at a place, if it is there.
    pub fn file(&self, place: usize) -> Option<&OsStr> {
        self.words.get(place).map(OsString::as_os_str)
    }

    /// The word at a place, as text.
    pub fn word(&self, place: usize) -> Result<&str, Failure> {
        let word = self.file(place);
        let word = word.ok_or_else(|| usage("an argument is missing".to_string()))?;
        word.to_str()
            .ok_or_else(|| usage(format!("{} is no text", word.to_string_lossy())))
    }

    /// The number that the word at a place is.
    pub fn place(&self, place: usize, what: &str) -> Result<usize, Failure> {
        number(what, OsStr::new(self.word(place)?))
    }

    /// The words of the text form that stand in the words from a place on.
    pub fn lexed(&self, place: usize) -> Result<Vec<&str>, Failure> {
        let mut lexed = Vec::new();
        for place in place..self.words.len() {
            lexed.extend(words::split(self.word(place)?.as_bytes()).map_err(usage)?);
        }
        Ok(lexed)
    }

    /// The range that the words from a place on are.
    pub fn range(&self, place: usize) -> Result<Input, Failure> {
        match self.lexed(place)?[..] {
            [start, end] => input::range(start, end),
            ref other => Err(usage(format!(
                "{} was expected, not {}",
                range::EXPECTED,
                other.join(" ")
            ))),
        }
    }
}

fn number<T: FromStr>(what: &str, value: &OsStr) -> Result<T, Failure> {
    let digits = |text: &&str| !text.is_empty() && text.bytes().all(|byte| byte.is_ascii_digit());
    let number = value
        .to_str()
        .filter(digits)
        .and_then(|text| text.parse().ok());
    number.ok_or_else(|| {
        let value = value.to_string_lossy();
        usage(format!("{what} is a number from 0 on, not {value}"))
    })
}
