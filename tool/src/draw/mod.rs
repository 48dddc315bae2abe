//! A picture of images: a row for each run, a bar for each view, over the keys that occur, in plain text and as SVG.
//!
//! All scenes share one axis. What a bar covers is the effective range that the proved call answers; what is durable of a
//! job is the proved call's answer too. This module only places them, and is not proved: tests hold the bars to `contains`.
use bilqarush::typed::{Image, Job, Stop};

mod axis;
mod facts;
mod missing;
mod names;
mod sheet;
mod svg;
mod text;

#[cfg(test)]
mod tests;

/// An image, as it was at some time.
#[derive(Clone, Copy, Debug)]
pub struct Scene<'a> {
    /// What stands above it.
    pub title: &'a str,
    /// The image.
    pub image: &'a Image,
}

/// Images one below the other, from the first to the last, and a job if there is one.
#[derive(Clone, Debug, Default)]
pub struct Picture<'a> {
    /// The images.
    pub scenes: Vec<Scene<'a>>,
    /// The job, with the last written key of each unfinished part.
    pub job: Option<&'a Job>,
}

/// The picture in ASCII, but for what the titles have.
///
/// # Errors
/// 3 if an image or the job is over a ceiling; for an image the stops of `check_image`, for the job those of
/// `from_compaction`.
pub fn text(picture: &Picture) -> Result<String, Stop> {
    Ok(text::draw(&sheet::Sheet::new(picture)?))
}

/// The picture as SVG, which needs nothing from elsewhere. The same picture gives the same bytes.
///
/// # Errors
/// As [`text`].
pub fn svg(picture: &Picture) -> Result<String, Stop> {
    Ok(svg::draw(&sheet::Sheet::new(picture)?))
}
