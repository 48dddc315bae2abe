//! The bytes of a text.
use super::{kind, Command, OUT};
use crate::args::{Args, Opt};
use crate::failure::{Failure, Report};
use crate::input::Inputs;
use crate::output::{self, Answer};

pub const COMMAND: Command = Command {
    name: "make",
    usage: "KIND [FILE] [-o OUT] [--unchecked]",
    line: "the bytes of a text",
    about: "\
FILE or standard input is the text form, whatever its name. An image, a job, an index, anchors and a range are then held to
the library's own check, and nothing is written if it refuses them. Of several indexes each is held to it. No call takes a
plan, so it is written as it is. Bytes are not written to a terminal.
",
    options: &[
        OUT,
        Opt {
            name: "--unchecked",
            value: None,
            about: "write it even if the library refuses it",
        },
    ],
    example: "  $ bilqarush make image image.txt -o image.bin\n  $ bilqarush check image image.bin\n  ok\n",
    run,
};

fn run(args: &Args) -> Result<Answer, Failure> {
    args.between(1, 2)?;
    let input = Inputs::new(true).text(kind(args)?, args.file(1))?;
    if !args.has("--unchecked") {
        if let Some(refusal) = input.kind.explain(&input.bytes) {
            return Err(Failure::Refused(Report::new(&refusal, &[&input])));
        }
    }
    output::bytes(input.kind, input.bytes, args.value("-o"))
}
