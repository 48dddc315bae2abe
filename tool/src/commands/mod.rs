//! The commands.
use crate::args::{Args, Opt};
use crate::failure::Failure;
use crate::kind::Kind;
use crate::output::Answer;
use std::ffi::OsString;

mod check;
mod commit;
mod compare;
mod contains;
mod draw;
mod durable;
mod effective;
mod explain;
mod help;
mod list;
mod lookup;
mod make;
mod places;
mod plan;
mod prefix;
mod sample;
mod select;
mod show;
mod size;
mod subtract;

/// A command, with all that its --help says.
pub struct Command {
    /// One word, or two where it is one of a group.
    pub name: &'static str,
    /// What follows the name in the usage line.
    pub usage: &'static str,
    /// What it does, in a line.
    pub line: &'static str,
    /// What more there is to say.
    pub about: &'static str,
    /// Its options but --help.
    pub options: &'static [Opt],
    /// A line after `$ `, and what it prints in the folder demo.
    pub example: &'static str,
    /// What it does.
    pub run: fn(&Args) -> Result<Answer, Failure>,
}

/// All commands, in the order in which they are listed.
pub const ALL: &[Command] = &[
    make::COMMAND,
    show::COMMAND,
    check::COMMAND,
    explain::COMMAND,
    list::COMMAND,
    commit::COMMAND,
    draw::COMMAND,
    durable::COMMAND,
    subtract::COMMAND,
    effective::COMMAND,
    size::COMMAND,
    lookup::views::COMMAND,
    lookup::overlaps::COMMAND,
    lookup::keeps::COMMAND,
    lookup::reads::COMMAND,
    lookup::meets::COMMAND,
    lookup::key::COMMAND,
    lookup::blocks::COMMAND,
    plan::COMMAND,
    sample::COMMAND,
    select::COMMAND,
    compare::COMMAND,
    contains::COMMAND,
    prefix::COMMAND,
];

const TEXT: Opt = Opt {
    name: "--text",
    value: None,
    about: "standard input is the text form",
};

const OUT: Opt = Opt {
    name: "-o",
    value: Some("OUT"),
    about: "write to the file OUT: bytes, or the text form if its name ends in .txt; - is standard output",
};

/// Runs what the arguments say.
pub fn run(given: &[OsString]) -> Result<Answer, Failure> {
    match named(given) {
        Some((command, rest)) => run_one(command, rest),
        None => help::without_command(given),
    }
}

/// The command that the first words name, and the words after them.
fn named(given: &[OsString]) -> Option<(&'static Command, &[OsString])> {
    ALL.iter().find_map(|command| {
        let mut name = command.name.split(' ');
        let count = name.clone().count();
        let fits =
            given.len() >= count && name.by_ref().zip(given).all(|(name, word)| word == name);
        fits.then(|| (command, &given[count..]))
    })
}

fn run_one(command: &Command, rest: &[OsString]) -> Result<Answer, Failure> {
    let args = Args::read(rest, command.options);
    let answer = args.and_then(|args| match args.help {
        true => Ok(Answer::text(help::of(command))),
        false => (command.run)(&args),
    });
    answer.map_err(|failure| match failure {
        Failure::Usage(what) => Failure::Usage(format!("{what}\n{}", help::usage(command))),
        other => other,
    })
}

/// The kind that the first word is.
fn kind(args: &Args) -> Result<Kind, Failure> {
    let word = args.word(0)?;
    Kind::named(word).ok_or_else(|| {
        let names = Kind::ALL.map(Kind::name).join(", ");
        Failure::Usage(format!("KIND is one of {names}, not {word}"))
    })
}
