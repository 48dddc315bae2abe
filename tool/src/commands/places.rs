//! Runs and views of an image, called by their places.
use crate::args::Args;
use crate::failure::{long_key, refused, Failure};
use crate::input::{Input, Inputs};
use crate::kind::Kind;
use bilqarush::typed::{Image, Stop};

/// An image and the places after it. The first word is its file, unless it is a number and there are fewer than three.
pub fn image_and_places(args: &Args) -> Result<(Input, Vec<usize>), Failure> {
    let words = args.words();
    let digits = |word: &str| word.bytes().all(|byte| byte.is_ascii_digit());
    let no_file = words.len() < 3
        && words
            .first()
            .is_none_or(|word| word.to_str().is_some_and(digits));
    let file = match no_file {
        true => None,
        false => args.file(0),
    };
    let first = usize::from(!no_file);
    let names = ["RUN", "VIEW"];
    let places = (first..words.len()).zip(names);
    let places = places.map(|(place, name)| args.place(place, name));
    let places = places.collect::<Result<Vec<_>, _>>()?;
    let image = Inputs::new(args.has("--text")).read(Kind::Image, file)?;
    Ok((image, places))
}

/// The failure of a call on a run or a view of an image.
pub fn refused_at(stop: Stop, inputs: &[&Input], run: usize, view: Option<usize>) -> Failure {
    let other = match stop {
        Stop::NotInImage => missing(inputs[0], run, view),
        _ => long_key(stop),
    };
    refused(stop, inputs, other)
}

/// Which of the places is not in the image.
fn missing(image: &Input, run: usize, view: Option<usize>) -> Option<String> {
    let runs = Image::decode(&image.bytes).ok()?.runs;
    let Some(found) = runs.get(run) else {
        let count = runs.len();
        return Some(format!(
            "there is no run {run}: the image has {count}, counted from 0"
        ));
    };
    let count = found.views.len();
    let view = view.filter(|view| *view >= count)?;
    Some(format!(
        "run {run} has no view {view}: it has {count}, counted from 0"
    ))
}
