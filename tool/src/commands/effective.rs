//! The effective range of a view.
use super::places::{image_and_places, refused_at};
use super::{Command, TEXT};
use crate::args::Args;
use crate::failure::Failure;
use crate::output::Answer;
use bilqarush::typed::{compacted_effective_range, ImageBytes};

pub const COMMAND: Command = Command {
    name: "effective",
    usage: "[FILE] RUN VIEW [--text]",
    line: "the effective range of a view",
    about: "\
That is its table's own range, cut by its visible range. RUN is the run's place in the image and VIEW the view's place in its
run, both from 0. A file whose name is a number is given as ./7.
",
    options: &[TEXT],
    example: "  $ bilqarush effective image.txt 1 0\n  [c x]\n",
    run,
};

fn run(args: &Args) -> Result<Answer, Failure> {
    args.between(2, 3)?;
    let (image, places) = image_and_places(args)?;
    let [run, view] = places[..] else {
        return Err(Failure::Usage("RUN and VIEW are needed".to_string()));
    };
    let range = compacted_effective_range(ImageBytes(&image.bytes), run, view);
    let range = range.map_err(|stop| refused_at(stop, &[&image], run, Some(view)))?;
    Ok(Answer::range(Some(&range)))
}
