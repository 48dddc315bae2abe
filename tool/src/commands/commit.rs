//! The commit of a job.
use super::{Command, OUT, TEXT};
use crate::args::{Args, Opt};
use crate::failure::{Failure, Report};
use crate::input::{Input, Inputs};
use crate::kind::Kind;
use crate::output::{self, Answer};
use bilqarush::typed::{
    commit_to_vec, explain_commit, list_to_string, ImageBytes, JobBytes, Refusal, Stop, IDS_LEN,
};
use std::ffi::OsStr;
use std::fs::File;
use std::io::Read;

pub const COMMAND: Command = Command {
    name: "commit",
    usage: "IMAGE JOB [-o OUT] [--list] [--ids FILE] [--text]",
    line: "the image after a job, finished or not",
    about: "\
What is durable of the job shows through its output tables in the destination, and no longer through the sources. OUT may be
IMAGE: the new image takes its place at once, or not at all. Without -o the bytes go to standard output, or nowhere if there
is --list. A refused commit writes nothing.

New view ids take random bytes from /dev/urandom, 10,920 of them, which are enough for every image.
",
    options: &[
        OUT,
        Opt {
            name: "--list",
            value: None,
            about: "print the listing of the new image",
        },
        Opt {
            name: "--ids",
            value: Some("FILE"),
            about: "take the bytes of new ids from FILE, for tests: they must be fresh for every commit",
        },
        TEXT,
    ],
    example: "  $ bilqarush commit image.txt completed.txt -o after.bin\n  $ bilqarush list after.bin | tail -n 2\n  \
        7 4 00000000000000000000000000000021 [6d 70]\n  7 5 00000000000000000000000000000022 [71 79]\n",
    run,
};

/// Random bytes for the ids of a commit.
pub fn fresh_ids() -> Result<Vec<u8>, Failure> {
    let mut ids = vec![0; IDS_LEN];
    let read = File::open("/dev/urandom").and_then(|mut from| from.read_exact(&mut ids));
    match read {
        Ok(()) => Ok(ids),
        Err(error) => Err(Failure::File(format!("/dev/urandom: {error}"))),
    }
}

/// What stop 14 means where the supply was enough for every image.
pub fn explain_supply(report: &mut Report) {
    if report.stop == Stop::IdSupply {
        let what = "ids were drawn for 1,092 views, and no image has room for more";
        report.place = Some(what.to_string());
    }
}

fn run(args: &Args) -> Result<Answer, Failure> {
    args.between(2, 2)?;
    let mut inputs = Inputs::new(args.has("--text"));
    let image = inputs.read(Kind::Image, args.file(0))?;
    let job = inputs.read(Kind::Job, args.file(1))?;
    let given = args.value("--ids");
    let ids = match given {
        Some(file) => inputs.raw(Some(file))?.1,
        None => fresh_ids()?,
    };
    let after = commit_to_vec(ImageBytes(&image.bytes), JobBytes(&job.bytes), &ids);
    let after = after.map_err(|stop| refused(stop, &image, &job, &ids, given.is_none()))?;
    written(after, args.has("--list"), args.value("-o"))
}

/// The image after a job, with fresh ids.
pub(super) fn after(image: &Input, job: &Input) -> Result<Vec<u8>, Failure> {
    let ids = fresh_ids()?;
    let after = commit_to_vec(ImageBytes(&image.bytes), JobBytes(&job.bytes), &ids);
    after.map_err(|stop| refused(stop, image, job, &ids, true))
}

/// Writes the new image and prints its listing, as asked for.
fn written(after: Vec<u8>, list: bool, out: Option<&OsStr>) -> Result<Answer, Failure> {
    if list && out.is_some_and(|out| out == "-") {
        let what = "--list prints where -o - would write";
        return Err(Failure::Usage(what.to_string()));
    }
    // Where views overlap, the order of those that a commit wrote can be refused by the next call.
    let note = Kind::Image.explain(&after).map(|refusal| {
        let words = Report::new(&refusal, &[]).words();
        format!("the new image is written, but it is refused in turn: {words}")
    });
    let listing = list.then(|| list_to_string(ImageBytes(&after)).unwrap_or_default());
    let bytes = match list && out.is_none() {
        true => Answer::none(),
        false => output::bytes(Kind::Image, after, out)?,
    };
    let printed = listing.map_or(bytes.out, String::into_bytes);
    Ok(Answer {
        note,
        out: printed,
        refused: false,
    })
}

fn refused(stop: Stop, image: &Input, job: &Input, ids: &[u8], own_ids: bool) -> Failure {
    let refusal = explain_commit(ImageBytes(&image.bytes), JobBytes(&job.bytes), ids);
    let refusal = refusal.unwrap_or(Refusal { stop, place: None });
    let mut report = Report::new(&refusal, &[image, job]);
    if own_ids {
        explain_supply(&mut report);
    }
    Failure::Refused(report)
}
