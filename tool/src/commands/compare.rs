//! The order of two keys.
use super::Command;
use crate::args::Args;
use crate::failure::{long_key, Failure, Report};
use crate::input;
use crate::output::Answer;
use bilqarush::typed::compare;
use std::cmp::Ordering;

pub const COMMAND: Command = Command {
    name: "compare",
    usage: "KEY KEY",
    line: "whether a key is less, equal or greater than another",
    about: "\
Keys are ordered by the first unequal byte, a proper prefix first. A quoted key stands in quotes for the shell once more;
one that begins with - comes after the argument --.
",
    options: &[],
    example: "  $ bilqarush compare lamp/7 lamp/10\n  greater\n  $ bilqarush compare '\"lamp 7\"' 0x6c61\n  greater\n",
    run,
};

fn run(args: &Args) -> Result<Answer, Failure> {
    let [a, b] = args.lexed(0)?[..] else {
        return Err(Failure::Usage("two keys are needed".to_string()));
    };
    let (first, second) = (input::key(a)?, input::key(b)?);
    let order = compare(&first, &second).map_err(|stop| {
        Failure::Refused(Report {
            subject: "KEY".to_string(),
            stop,
            place: long_key(stop),
        })
    })?;
    Ok(Answer::text(match order {
        Ordering::Less => "less\n",
        Ordering::Equal => "equal\n",
        Ordering::Greater => "greater\n",
    }))
}
