//! What ends a command before it has an answer.
use crate::input::Input;
use bilqarush::typed::{Refusal, Stop};
use std::fmt;

/// Why a command has no answer.
#[derive(Clone, Debug, PartialEq, Eq)]
pub enum Failure {
    /// It was not called as its usage line has it.
    Usage(String),
    /// A file can't be read or written, or a text is no text form.
    File(String),
    /// The library refused the input.
    Refused(Report),
}

/// A refusal in words.
#[derive(Clone, Debug, PartialEq, Eq)]
pub struct Report {
    /// The file or argument that was refused.
    pub subject: String,
    /// Why.
    pub stop: Stop,
    /// Where, if that is known.
    pub place: Option<String>,
}

impl Failure {
    /// The exit status.
    pub fn status(&self) -> u8 {
        match self {
            Failure::Refused(_) => 1,
            Failure::Usage(_) | Failure::File(_) => 2,
        }
    }
}

impl fmt::Display for Failure {
    fn fmt(&self, f: &mut fmt::Formatter) -> fmt::Result {
        match self {
            Failure::Usage(what) | Failure::File(what) => f.write_str(what),
            Failure::Refused(report) => write!(f, "{}: {}", report.subject, report.words()),
        }
    }
}

impl Report {
    /// The report of a refusal whose place stands in one of the inputs.
    pub fn new(refusal: &Refusal, inputs: &[&Input]) -> Report {
        let all = inputs.iter().map(|input| input.name.as_str());
        let all = all.collect::<Vec<_>>().join(", ");
        let at = refusal.place.map(|place| {
            let input = inputs.iter().find(|input| input.kind.is(place.buffer));
            let name = input.map_or(&all, |input| &input.name).clone();
            (
                name,
                input.map_or(place.to_string(), |input| input.place(&place)),
            )
        });
        let (subject, place) = match at {
            Some((subject, place)) => (subject, Some(place)),
            None => (all, None),
        };
        Report {
            subject,
            stop: refusal.stop,
            place,
        }
    }

    /// The stop with its name and its sentence; on a line of its own the place.
    pub fn words(&self) -> String {
        let Report { stop, place, .. } = self;
        let words = format!(
            "stop {} ({}): {}",
            stop.number(),
            stop.name(),
            stop.sentence()
        );
        match place {
            Some(place) => format!("{words}\n{place}"),
            None => words,
        }
    }
}

/// What stop 3 means where a key is an argument and no input is the reason.
pub fn long_key(stop: Stop) -> Option<String> {
    (stop == Stop::Ceiling).then(|| "a key that is an argument has 1,024 bytes at most".to_string())
}

/// The failure of a call on these inputs: with the place, if one of them alone is refused for the same reason; else with
/// `other` as the place.
pub fn refused(stop: Stop, inputs: &[&Input], other: Option<String>) -> Failure {
    let mut alone = inputs
        .iter()
        .filter_map(|input| Some((input, input.kind.explain(&input.bytes)?)));
    let alone = alone.find(|(_, refusal)| refusal.stop == stop);
    Failure::Refused(match alone {
        Some((input, refusal)) => Report::new(&refusal, &[input]),
        None => Report {
            place: other,
            ..Report::new(&Refusal { stop, place: None }, inputs)
        },
    })
}
