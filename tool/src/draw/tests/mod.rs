//! Pictures, held to what they should show.
use super::{svg, text, Picture, Scene};
use bilqarush::typed::{Image, Job, Stop};

mod colours;
mod demo;
mod edges;
mod jobs;
mod random;
mod reading;
mod samples;
mod svgs;

/// The text of one image.
fn drawn(image: &Image) -> String {
    text(&of_image(image)).unwrap()
}

fn of_image(image: &Image) -> Picture<'_> {
    let title = "the image";
    let scenes = vec![Scene { title, image }];
    Picture { scenes, job: None }
}

fn with_job<'a>(images: &[(&'a str, &'a Image)], job: &'a Job) -> Picture<'a> {
    let scenes = images.iter().map(|&(title, image)| Scene { title, image });
    Picture {
        scenes: scenes.collect(),
        job: Some(job),
    }
}

/// The rows of the first block of a text, without its axis.
fn rows(text: &str) -> Vec<&str> {
    let lines: Vec<&str> = text.lines().collect();
    let ticks = lines.iter().position(|line| line.trim().starts_with('|'));
    let rows = &lines[ticks.map_or(2, |line| line + 1)..];
    let end = rows.iter().position(|line| line.is_empty());
    rows[..end.unwrap()].to_vec()
}

fn refused(picture: &Picture) -> Stop {
    let stop = text(picture).unwrap_err();
    assert_eq!(svg(picture).unwrap_err(), stop);
    stop
}
