//! Whether a range meets a run.
use super::{Command, InRun, TEXT};
use crate::args::Args;
use crate::failure::Failure;
use crate::output::Answer;
use bilqarush::typed::overlaps_range;

pub const COMMAND: Command = Command {
    name: "lookup overlaps",
    usage: "IMAGE RUN RANGE [--text]",
    line: "whether a range meets a run: yes or no",
    about: "\
The run counts from the effective start of its first view to the effective end of its last. RUN is its place, from 0.
",
    options: &[TEXT],
    example: "  $ bilqarush lookup overlaps image.txt 1 '[a b]'\n  no\n",
    run,
};

fn run(args: &Args) -> Result<Answer, Failure> {
    let asked = InRun::read(args)?;
    let (image, range) = asked.bytes();
    let meets = overlaps_range(image, asked.run, range);
    meets
        .map(Answer::yes_or_no)
        .map_err(|stop| asked.refused(stop))
}
