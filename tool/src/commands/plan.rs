//! The plan of a compaction.
use super::{Command, OUT, TEXT};
use crate::args::{Args, Opt};
use crate::failure::{Failure, Report};
use crate::input::Inputs;
use crate::kind::Kind;
use crate::output::{self, Answer};
use bilqarush::typed::{
    explain_plan, plan_subcompaction_ranges_to_plan, ImageBytes, IndexesBytes, Refusal, Stop,
};

pub const COMMAND: Command = Command {
    name: "plan",
    usage: "IMAGE INDEXES --parts N [-o OUT] [--text]",
    line: "the ranges in which an image is compacted",
    about: "\
INDEXES has one index for each view of the image, in its order, laid end to end: `bilqarush make indexes` lays them. The
ranges hold each key exactly once, and carry about equal shares of the bytes. Prints the text of the plan.
",
    options: &[PARTS, OUT, TEXT],
    example: "  $ bilqarush plan image.txt indexes.txt --parts 2\n  plan\n    range - n)\n    range [n -\n",
    run,
};

pub const PARTS: Opt = Opt {
    name: "--parts",
    value: Some("N"),
    about: "ask for N ranges at most, 0 to 64; 0 acts as 1",
};

/// What stop 3 means if no input is the reason.
pub const TOO_MANY_PARTS: &str = "--parts is at most 64";

/// The number of --parts.
pub fn parts(args: &Args) -> Result<usize, Failure> {
    let parts = args.number("--parts")?;
    parts.ok_or_else(|| Failure::Usage("--parts is needed".to_string()))
}

fn run(args: &Args) -> Result<Answer, Failure> {
    args.between(2, 2)?;
    let parts = parts(args)?;
    let mut inputs = Inputs::new(args.has("--text"));
    let image = inputs.read(Kind::Image, args.file(0))?;
    let indexes = inputs.read(Kind::Indexes, args.file(1))?;
    let (given, with) = (ImageBytes(&image.bytes), IndexesBytes(&indexes.bytes));
    let plan = plan_subcompaction_ranges_to_plan(parts, given, with);
    let laid = plan.and_then(|plan| plan.to_bytes()).map_err(|stop| {
        let refusal = explain_plan(parts, given, with).unwrap_or(Refusal { stop, place: None });
        let mut report = Report::new(&refusal, &[&image, &indexes]);
        if report.place.is_none() && stop == Stop::Ceiling {
            report.place = Some(TOO_MANY_PARTS.to_string());
        }
        Failure::Refused(report)
    })?;
    output::text_or_bytes(Kind::Plan, laid, args.value("-o"))
}
