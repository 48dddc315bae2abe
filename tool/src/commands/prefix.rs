//! The range of a prefix.
use super::Command;
use crate::args::Args;
use crate::failure::{long_key, refused, Failure, Report};
use crate::input::{self, Input};
use crate::output::Answer;
use bilqarush::typed::{from_prefix_and_subrange_to_range, from_prefix_to_range, RangeBytes};

pub const COMMAND: Command = Command {
    name: "prefix",
    usage: "KEY [RANGE]",
    line: "the range of the keys that begin with a prefix",
    about: "\
With a RANGE, those alone that go on with a key of it.
",
    options: &[],
    example: "  $ bilqarush prefix lamp/\n  [lamp/ lamp0)\n  $ bilqarush prefix lamp/ '[1 8]'\n  [lamp/1 lamp/8]\n",
    run,
};

fn run(args: &Args) -> Result<Answer, Failure> {
    let (prefix, subrange) = match args.lexed(0)?[..] {
        [prefix] => (input::key(prefix)?, None),
        [prefix, start, end] => (input::key(prefix)?, Some(input::range(start, end)?)),
        _ => {
            let what = "KEY is one word, RANGE two";
            return Err(Failure::Usage(what.to_string()));
        }
    };
    let range = match &subrange {
        None => from_prefix_to_range(&prefix),
        Some(Input { bytes, .. }) => from_prefix_and_subrange_to_range(&prefix, RangeBytes(bytes)),
    };
    let range = range.map_err(|stop| match &subrange {
        Some(subrange) => refused(stop, &[subrange], None),
        None => Failure::Refused(Report {
            subject: "KEY".to_string(),
            stop,
            place: long_key(stop),
        }),
    })?;
    Ok(Answer::range(Some(&range)))
}
