//! Whether a range meets a view that counts up to an end.
use super::{Command, InView, TEXT};
use crate::args::Args;
use crate::failure::Failure;
use crate::input;
use crate::output::Answer;
use crate::text::range;
use bilqarush::typed::intersects_range;

pub const COMMAND: Command = Command {
    name: "lookup meets",
    usage: "IMAGE RUN VIEW END RANGE [--text]",
    line: "whether a range meets a view up to an end: yes or no",
    about: "\
The view counts from its effective start up to END, which stands in place of its own end: a key and a bracket, as c) or c],
or - for no end. RUN and VIEW are places, from 0.
",
    options: &[TEXT],
    example: "  $ bilqarush lookup meets image.txt 1 0 'd)' '[x -'\n  no\n",
    run,
};

fn run(args: &Args) -> Result<Answer, Failure> {
    args.between(5, 6)?;
    let [end, start, to] = args.lexed(3)?[..] else {
        let what = "END is one word, RANGE two";
        return Err(Failure::Usage(what.to_string()));
    };
    let bound = range::read_end(end).ok_or_else(|| {
        let what = "END is a key and a bracket, as c) or c], or -";
        Failure::Usage(format!("{what}, not {end}"))
    })?;
    let asked = InView::read(args, input::range(start, to)?)?;
    let (image, range) = asked.in_run.bytes();
    let bound = bound.as_ref().map(Vec::as_slice);
    let meets = intersects_range(image, asked.in_run.run, asked.view, bound, range);
    meets
        .map(Answer::yes_or_no)
        .map_err(|stop| asked.refused(stop))
}
