//! What of a job is durable.
use super::{Command, TEXT};
use crate::args::Args;
use crate::failure::{refused, Failure};
use crate::input::Inputs;
use crate::kind::Kind;
use crate::output::Answer;
use bilqarush::typed::{from_compaction_to_plan, JobBytes};

pub const COMMAND: Command = Command {
    name: "durable",
    usage: "[JOB] [--text]",
    line: "the durable intervals of a job",
    about: "\
A range a line, in the order of the parts: of a completed part its planned range; of an unfinished one its planned range up
to, without, the last key of its last output, and none if it has no output or that key is its start. They are what a commit
takes out of the sources.
",
    options: &[TEXT],
    example: "  $ bilqarush durable half_way.txt\n  - h)\n  [m p)\n",
    run,
};

fn run(args: &Args) -> Result<Answer, Failure> {
    args.between(0, 1)?;
    let job = Inputs::new(args.has("--text")).read(Kind::Job, args.file(0))?;
    let durable = from_compaction_to_plan(JobBytes(&job.bytes));
    let durable = durable.map_err(|stop| refused(stop, &[&job], None))?;
    Ok(Answer::ranges(&durable.ranges))
}
