//! Visible sizes.
use super::places::{image_and_places, refused_at};
use super::{Command, TEXT};
use crate::args::Args;
use crate::failure::{refused, Failure};
use crate::input::Input;
use crate::output::Answer;
use bilqarush::typed::{
    estimate_run_visible_size, estimate_visible_size, visible_fraction, Image, ImageBytes, Stop,
    VisibleFraction,
};

pub const COMMAND: Command = Command {
    name: "size",
    usage: "[FILE] [RUN [VIEW]] [--text]",
    line: "the visible size of all runs, of a run or of a view",
    about: "\
Of all runs a line each: the run's place in the image, its id, the size in bytes. Of a view how much of its table it shows
stands behind the size: whole, or part and the fraction. RUN is the run's place in the image and VIEW the view's place in its
run, both from 0. A file whose name is a number is given as ./7.
",
    options: &[TEXT],
    example: "  $ bilqarush size image.txt\n  0 run 7 size 4352\n  1 run 9 size 4352\n  \
        $ bilqarush size image.txt 1 0\n  size 4352 whole\n",
    run,
};

fn run(args: &Args) -> Result<Answer, Failure> {
    args.between(0, 3)?;
    let (image, places) = image_and_places(args)?;
    match places[..] {
        [] => all(&image).map_err(|stop| refused(stop, &[&image], None)),
        [run] => of_run(&image, run).map_err(|stop| refused_at(stop, &[&image], run, None)),
        [run, view, ..] => {
            of_view(&image, run, view).map_err(|stop| refused_at(stop, &[&image], run, Some(view)))
        }
    }
}

fn all(image: &Input) -> Result<Answer, Stop> {
    bilqarush::typed::check_image(ImageBytes(&image.bytes))?;
    let runs = Image::decode(&image.bytes)?.runs;
    let lines = runs.iter().enumerate().map(|(place, run)| {
        let size = estimate_run_visible_size(ImageBytes(&image.bytes), place)?;
        Ok(format!("{place} run {} size {size}\n", run.id))
    });
    Ok(Answer::text(lines.collect::<Result<String, Stop>>()?))
}

fn of_run(image: &Input, run: usize) -> Result<Answer, Stop> {
    let size = estimate_run_visible_size(ImageBytes(&image.bytes), run)?;
    Ok(Answer::text(format!("size {size}\n")))
}

fn of_view(image: &Input, run: usize, view: usize) -> Result<Answer, Stop> {
    let size = estimate_visible_size(ImageBytes(&image.bytes), run, view)?;
    let shown = match visible_fraction(ImageBytes(&image.bytes), run, view)? {
        VisibleFraction::Whole => "whole".to_string(),
        VisibleFraction::Part(fraction) => format!("part {fraction}"),
    };
    Ok(Answer::text(format!("size {size} {shown}\n")))
}
