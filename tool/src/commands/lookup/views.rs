//! The views of a run that can hold a key of a range.
use super::{Command, InRun, TEXT};
use crate::args::Args;
use crate::failure::Failure;
use crate::output::Answer;
use crate::text::{id, range};
use bilqarush::typed::{
    compacted_effective_range, table_idx_covering_range, Image, ImageBytes, Stop,
};
use std::ops;

pub const COMMAND: Command = Command {
    name: "lookup views",
    usage: "IMAGE RUN RANGE [--text]",
    line: "the views of a run that can hold a key of a range",
    about: "\
First their places in the run, from the first up to, without, the last number; then a line each: the place, the table's id,
the effective range. A view counts up to the next view's start, the last without end. RUN is the run's place, from 0.
",
    options: &[TEXT],
    example: "  $ bilqarush lookup views image.txt 0 '[b c)'\n  views 0..1\n  0 table 1 [a z]\n",
    run,
};

fn run(args: &Args) -> Result<Answer, Failure> {
    let asked = InRun::read(args)?;
    let (image, range) = asked.bytes();
    let views = table_idx_covering_range(image, asked.run, range);
    let text = views.and_then(|views| told(image, asked.run, views));
    text.map(Answer::text).map_err(|stop| asked.refused(stop))
}

fn told(image: ImageBytes, run: usize, views: ops::Range<usize>) -> Result<String, Stop> {
    let mut text = format!("views {}..{}\n", views.start, views.end);
    let runs = Image::decode(image.0)?.runs;
    for place in views {
        let table = id::write(runs[run].views[place].table.id.0);
        let effective = compacted_effective_range(image, run, place)?;
        text += &format!("{place} table {table} {}\n", range::write(&effective));
    }
    Ok(text)
}
