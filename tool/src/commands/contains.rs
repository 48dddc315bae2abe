//! Whether a range holds a key.
use super::Command;
use crate::args::Args;
use crate::failure::{long_key, refused, Failure};
use crate::input;
use crate::output::Answer;
use bilqarush::typed::{contains, RangeBytes};

pub const COMMAND: Command = Command {
    name: "contains",
    usage: "RANGE KEY",
    line: "whether a range holds a key: yes or no",
    about: "\
RANGE is one argument or two.
",
    options: &[],
    example: "  $ bilqarush contains '[a c)' b\n  yes\n  $ bilqarush contains '[a' 'c)' c\n  no\n",
    run,
};

fn run(args: &Args) -> Result<Answer, Failure> {
    let [start, end, key] = args.lexed(0)?[..] else {
        let what = "RANGE is two words, KEY one";
        return Err(Failure::Usage(what.to_string()));
    };
    let range = input::range(start, end)?;
    contains(RangeBytes(&range.bytes), &input::key(key)?)
        .map(Answer::yes_or_no)
        .map_err(|stop| refused(stop, &[&range], long_key(stop)))
}
