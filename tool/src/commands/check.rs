//! Whether the library takes bytes.
use super::{kind, Command, TEXT};
use crate::args::Args;
use crate::failure::{Failure, Report};
use crate::input::Inputs;
use crate::output::Answer;

pub const COMMAND: Command = Command {
    name: "check",
    usage: "KIND [FILE] [--text]",
    line: "whether the library takes bytes",
    about: "\
Prints ok. If they are refused, why and where stands on standard error, and the exit status is 1. A job is held to the
checks that it alone decides, an index by itself; of a plan the layout is checked, since no call takes one.
",
    options: &[TEXT],
    example: "  $ bilqarush check image image.txt\n  ok\n",
    run,
};

fn run(args: &Args) -> Result<Answer, Failure> {
    args.between(1, 2)?;
    let input = Inputs::new(args.has("--text")).read(kind(args)?, args.file(1))?;
    match input.kind.explain(&input.bytes) {
        None => Ok(Answer::text("ok\n")),
        Some(refusal) => Err(Failure::Refused(Report::new(&refusal, &[&input]))),
    }
}
