//! Why the library refuses bytes, and where.
use super::{commit, kind, Command, TEXT};
use crate::args::Args;
use crate::failure::{Failure, Report};
use crate::input::Inputs;
use crate::kind::Kind;
use crate::output::Answer;
use bilqarush::typed::{explain_commit, ImageBytes, JobBytes};

pub const COMMAND: Command = Command {
    name: "explain",
    usage: "KIND [FILE] [--text] | commit IMAGE JOB [--text]",
    line: "why the library refuses bytes or a commit, and where",
    about: "\
Prints accepted; or the stop with its name and its sentence, then the place: run, view or part, field and byte, and the line
if the input is a text. The stop is that of the proved call; the place is found by a second reading that is not proved.
Runs, views, parts and the like are counted from 0. The exit status is 1 if it is refused.
",
    options: &[TEXT],
    example: "  $ bilqarush explain commit image.txt half_way.txt\n  accepted\n",
    run,
};

fn run(args: &Args) -> Result<Answer, Failure> {
    let mut inputs = Inputs::new(args.has("--text"));
    if args.word(0)? == "commit" {
        args.between(3, 3)?;
        let image = inputs.read(Kind::Image, args.file(1))?;
        let job = inputs.read(Kind::Job, args.file(2))?;
        let ids = commit::fresh_ids()?;
        let refusal = explain_commit(ImageBytes(&image.bytes), JobBytes(&job.bytes), &ids);
        return Ok(told(refusal.map(|refusal| {
            let mut report = Report::new(&refusal, &[&image, &job]);
            commit::explain_supply(&mut report);
            report
        })));
    }
    args.between(1, 2)?;
    let input = inputs.read(kind(args)?, args.file(1))?;
    let refusal = input.kind.explain(&input.bytes);
    Ok(told(
        refusal.map(|refusal| Report::new(&refusal, &[&input])),
    ))
}

fn told(report: Option<Report>) -> Answer {
    match report {
        None => Answer::text("accepted\n"),
        Some(report) => Answer {
            refused: true,
            ..Answer::text(report.words() + "\n")
        },
    }
}
