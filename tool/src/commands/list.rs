//! The listing of an image.
use super::{Command, TEXT};
use crate::args::Args;
use crate::failure::{refused, Failure};
use crate::input::Inputs;
use crate::kind::Kind;
use crate::output::Answer;
use bilqarush::typed::{list_to_string, ImageBytes};

pub const COMMAND: Command = Command {
    name: "list",
    usage: "[FILE] [--text]",
    line: "the listing of an image",
    about: "\
A line for each view: its run's id, its place in the run from 0, its table's id and its effective range, with keys in
hexadecimal. The listing is the library's, byte for byte.
",
    options: &[TEXT],
    example: "  $ bilqarush list image.txt\n  run view table start end\n  \
        7 0 00000000000000000000000000000001 [61 7a]\n  9 0 00000000000000000000000000000002 [63 78]\n",
    run,
};

fn run(args: &Args) -> Result<Answer, Failure> {
    args.between(0, 1)?;
    let image = Inputs::new(args.has("--text")).read(Kind::Image, args.file(0))?;
    let listing = list_to_string(ImageBytes(&image.bytes));
    listing
        .map(Answer::text)
        .map_err(|stop| refused(stop, &[&image], None))
}
