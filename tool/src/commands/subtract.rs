//! What an interval leaves of a range.
use super::Command;
use crate::args::Args;
use crate::failure::{refused, Failure};
use crate::input;
use crate::output::Answer;
use bilqarush::typed::{subtract_from_to_plan, RangeBytes, Stop};

pub const COMMAND: Command = Command {
    name: "subtract",
    usage: "INTERVAL RANGE",
    line: "what of a range lies outside an interval",
    about: "\
A range a line: none, one or two. INTERVAL is a range that starts included or unbounded and ends excluded or unbounded.
",
    options: &[],
    example: "  $ bilqarush subtract '[c f)' '[a z]'\n  [a c)\n  [f z]\n",
    run,
};

fn run(args: &Args) -> Result<Answer, Failure> {
    let [start, end, from, to] = args.lexed(0)?[..] else {
        let what = "INTERVAL and RANGE are two words each";
        return Err(Failure::Usage(what.to_string()));
    };
    let interval = input::range(start, end)?;
    let range = input::range(from, to)?;
    let left = subtract_from_to_plan(RangeBytes(&interval.bytes), RangeBytes(&range.bytes));
    let left = left.map_err(|stop| match stop {
        Stop::PlannedRange => refused(stop, &[&interval], None),
        _ => refused(stop, &[&interval, &range], None),
    })?;
    Ok(Answer::ranges(&left.ranges))
}
