//! Ranges from anchors.
use super::plan::{parts, PARTS, TOO_MANY_PARTS};
use super::{Command, OUT, TEXT};
use crate::args::{Args, Opt};
use crate::failure::{refused, Failure};
use crate::input::Inputs;
use crate::kind::Kind;
use crate::output::{self, Answer};
use bilqarush::typed::{select_boundaries_to_plan, AnchorsBytes, Stop};

pub const COMMAND: Command = Command {
    name: "select",
    usage: "ANCHORS --parts N [--least N] [-o OUT] [--text]",
    line: "ranges that carry about equal shares of anchors",
    about: "\
The ranges hold each key exactly once. Prints the text of the plan.
",
    options: &[
        PARTS,
        Opt {
            name: "--least",
            value: Some("N"),
            about: "a range is to carry N bytes at least; 0 if it is not given",
        },
        OUT,
        TEXT,
    ],
    example: "  $ bilqarush select anchors.txt --parts 2\n  plan\n    range - c)\n    range [c -\n",
    run,
};

fn run(args: &Args) -> Result<Answer, Failure> {
    args.between(1, 1)?;
    let parts = parts(args)?;
    let least = args.number("--least")?.unwrap_or(0);
    let anchors = Inputs::new(args.has("--text")).read(Kind::Anchors, args.file(0))?;
    let plan = select_boundaries_to_plan(parts, least, AnchorsBytes(&anchors.bytes));
    let laid = plan.and_then(|plan| plan.to_bytes()).map_err(|stop| {
        let many = (stop == Stop::Ceiling).then(|| TOO_MANY_PARTS.to_string());
        refused(stop, &[&anchors], many)
    })?;
    output::text_or_bytes(Kind::Plan, laid, args.value("-o"))
}
