//! A picture of an image, and of what jobs make of it.
use super::commit::after;
use super::{Command, TEXT};
use crate::args::{Args, Opt};
use crate::draw::{svg, text, Picture, Scene};
use crate::failure::{refused, Failure};
use crate::input::{Input, Inputs};
use crate::kind::Kind;
use crate::output::{self, Answer};
use bilqarush::typed::{Image, Job};

pub const COMMAND: Command = Command {
    name: "draw",
    usage: "IMAGE [JOB..] [--svg] [-o OUT] [--text]",
    line: "a picture of an image, before and after commits",
    about: "\
A row for each run and a bar for each view, over the keys that occur. With a job it shows the image before and after its
commit, the job's parts, what is durable of them, and the last key that each unfinished part wrote. With several jobs, which
are committed one after the other, it shows the image after each. Nothing is committed but for the picture.
",
    options: &[
        Opt {
            name: "--svg",
            value: None,
            about: "draw as SVG, for a browser or a page",
        },
        Opt {
            name: "-o",
            value: Some("OUT"),
            about: "write to the file OUT; - is standard output",
        },
        TEXT,
    ],
    example: "  $ bilqarush draw image.txt | sed -n '3,6p'\n                  a       c       x       z\n                  \
        |       |       |       |\n  run 7           [=1=====================]\n  run 9           .       [=2=====]       .\n",
    run,
};

fn run(args: &Args) -> Result<Answer, Failure> {
    args.between(1, usize::MAX)?;
    let mut inputs = Inputs::new(args.has("--text"));
    let first = inputs.read(Kind::Image, args.file(0))?;
    let jobs = (1..args.words().len()).map(|place| inputs.read(Kind::Job, args.file(place)));
    let jobs = jobs.collect::<Result<Vec<_>, _>>()?;
    let images = each_after(first, &jobs)?;
    let values = images.iter().map(value).collect::<Result<Vec<_>, _>>()?;
    let titles = titles(&images[0], &jobs);
    let scenes = titles.iter().zip(&values);
    // What is durable differs from job to job, and the scenes have one axis.
    let job = match &jobs[..] {
        [job] => Some(Job::decode(&job.bytes).expect("it was committed")),
        _ => None,
    };
    let picture = Picture {
        scenes: scenes
            .map(|(title, image)| Scene { title, image })
            .collect(),
        job: job.as_ref(),
    };
    let drawn = if args.has("--svg") {
        svg(&picture)
    } else {
        text(&picture)
    };
    let drawn = drawn.map_err(|stop| refused(stop, &images.iter().collect::<Vec<_>>(), None))?;
    output::printed(drawn, args.value("-o"))
}

/// The image, and what it is after each job.
fn each_after(first: Input, jobs: &[Input]) -> Result<Vec<Input>, Failure> {
    let mut images = vec![first];
    for job in jobs {
        let image = &images[images.len() - 1];
        images.push(Input {
            name: format!("{} after {}", images[0].name, job.name),
            kind: Kind::Image,
            bytes: after(image, job)?,
            lines: Vec::new(),
        });
    }
    Ok(images)
}

fn value(image: &Input) -> Result<Image, Failure> {
    Image::from_bytes(&image.bytes).map_err(|refusal| refused(refusal.stop, &[image], None))
}

fn titles(image: &Input, jobs: &[Input]) -> Vec<String> {
    let [_] = jobs else {
        let after = jobs.iter().map(|job| format!("after {}", job.name));
        return [image.name.clone()].into_iter().chain(after).collect();
    };
    ["before the commit", "after the commit"]
        .map(String::from)
        .to_vec()
}
