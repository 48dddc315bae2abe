//! The part of a range that a view is read for.
use super::{Command, InView, TEXT};
use crate::args::Args;
use crate::failure::Failure;
use crate::output::Answer;
use bilqarush::typed::calculate_view_range;

pub const COMMAND: Command = Command {
    name: "lookup reads",
    usage: "IMAGE RUN VIEW RANGE [--text]",
    line: "the part of a range that a view is read for",
    about: "\
What RANGE and the view's visible range share, or none; without a visible range, RANGE and the table's own range; without a
last key either, all of RANGE. RUN and VIEW are places, from 0.
",
    options: &[TEXT],
    example: "  $ bilqarush lookup reads image.txt 1 0 '[a d)'\n  [c d)\n",
    run,
};

fn run(args: &Args) -> Result<Answer, Failure> {
    args.between(4, 5)?;
    let asked = InView::read(args, args.range(3)?)?;
    let (image, range) = asked.in_run.bytes();
    let part = calculate_view_range(image, asked.in_run.run, asked.view, range);
    let part = part.map_err(|stop| asked.refused(stop))?;
    Ok(Answer::range(part.map(|part| part.range).as_ref()))
}
