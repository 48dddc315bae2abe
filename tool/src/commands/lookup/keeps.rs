//! What a view keeps of a range.
use super::{Command, InView, TEXT};
use crate::args::Args;
use crate::failure::Failure;
use crate::output::Answer;
use bilqarush::typed::compacted_intersection;

pub const COMMAND: Command = Command {
    name: "lookup keeps",
    usage: "IMAGE RUN VIEW RANGE [--text]",
    line: "what a view keeps of a range, up to the next view",
    about: "\
Of the last view of a run what its effective range and RANGE share, or none; of another what RANGE has from its effective
start up to the next view's, within its visible range. RUN and VIEW are places, from 0.
",
    options: &[TEXT],
    example: "  $ bilqarush lookup keeps image.txt 1 0 '[m -'\n  [m x]\n",
    run,
};

fn run(args: &Args) -> Result<Answer, Failure> {
    args.between(4, 5)?;
    let asked = InView::read(args, args.range(3)?)?;
    let (image, range) = asked.in_run.bytes();
    let kept = compacted_intersection(image, asked.in_run.run, asked.view, range);
    let kept = kept.map_err(|stop| asked.refused(stop))?;
    Ok(Answer::range(kept.map(|kept| kept.range).as_ref()))
}
