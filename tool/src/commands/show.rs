//! The text of bytes.
use super::{kind, Command, TEXT};
use crate::args::Args;
use crate::failure::{Failure, Report};
use crate::input::Inputs;
use crate::output::Answer;

pub const COMMAND: Command = Command {
    name: "show",
    usage: "KIND [FILE] [--text]",
    line: "the text of bytes",
    about: "\
Only the layout is looked at, so that what the library refuses can be looked at too; a note on standard error says so then.
The numbers of a table are left out if all three are 0.
",
    options: &[TEXT],
    example: "  $ bilqarush make job half_way.txt | bilqarush show job | head -n 2\n  \
        job destination 7 sources 7 9\n  part - m) unfinished\n",
    run,
};

fn run(args: &Args) -> Result<Answer, Failure> {
    args.between(1, 2)?;
    let input = Inputs::new(args.has("--text")).read(kind(args)?, args.file(1))?;
    let told = |refusal| Report::new(&refusal, &[&input]);
    let text = input.kind.text_of(&input.bytes);
    let text = text.map_err(|refusal| Failure::Refused(told(refusal)))?;
    let note = input.kind.explain(&input.bytes).map(|refusal| {
        let refused = Failure::Refused(told(refusal));
        format!("{refused}\nit is shown all the same")
    });
    Ok(Answer {
        note,
        ..Answer::text(text)
    })
}
