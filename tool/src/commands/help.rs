//! What --help says.
use super::{Command, ALL};
use crate::failure::Failure;
use crate::output::Answer;
use crate::text::FORM;
use std::ffi::OsString;

/// Help fits a terminal of so many columns.
const WIDTH: usize = 80;

const STATUS: &str = "\
exit status:
  0  done
  1  refused by a check: its stop in words, and where it lies if that is known
  2  bad usage, a file that can't be read or written, or a text that is no text
     form
";

const FILES: &str = "\
FILE and the like hold bytes, or the text form if the name ends in .txt; - is
standard input, and so is no FILE.
KIND is image, job, index, indexes, anchors, plan or range.
`bilqarush COMMAND --help` tells more of a command, `bilqarush help text` the
text form.
";

pub fn usage(command: &Command) -> String {
    format!("usage: bilqarush {} {}", command.name, command.usage)
}

/// The help of a command.
pub fn of(command: &Command) -> String {
    let options = command.options.iter().map(|option| {
        let name = match option.value {
            Some(value) => format!("{} {value}", option.name),
            None => option.name.to_string(),
        };
        filled(option.about, &format!("  {name:<14} "))
    });
    let about = command.about.split("\n\n");
    let about: Vec<_> = about.map(|paragraph| filled(paragraph, "")).collect();
    format!(
        "{}\n\n{}.\n\n{}\noptions:\n{}  --help         print this\n\n{STATUS}\nexample:\n{}",
        usage(command),
        capital(command.line),
        about.join("\n"),
        options.collect::<String>(),
        command.example
    )
}

/// A paragraph in lines of the width, the first after `head`, the others indented as far.
fn filled(paragraph: &str, head: &str) -> String {
    let mut text = head.to_string();
    let mut column = head.len();
    for word in paragraph.split_whitespace() {
        if column > head.len() && column + 1 + word.len() > WIDTH {
            text += &format!("\n{:1$}", "", head.len());
            column = head.len();
        }
        if column > head.len() {
            text += " ";
            column += 1;
        }
        text += word;
        column += word.len();
    }
    text + "\n"
}

fn capital(line: &str) -> String {
    line[..1].to_uppercase() + &line[1..]
}

/// All commands whose name begins with some text, with a line each.
fn all(begin: &str) -> String {
    let commands = ALL.iter().filter(|command| command.name.starts_with(begin));
    let lines = commands.map(|command| format!("  {:<17} {}\n", command.name, command.line));
    format!(
        "usage: bilqarush COMMAND [ARGUMENT..]\n\n{}\n{FILES}",
        lines.collect::<String>()
    )
}

/// The answer if the first words name no command.
pub fn without_command(given: &[OsString]) -> Result<Answer, Failure> {
    let words = given.iter().map(|word| word.to_string_lossy());
    let words: Vec<_> = words.collect();
    let words: Vec<&str> = words.iter().map(AsRef::as_ref).collect();
    match words[..] {
        [] => Err(Failure::Usage(format!(
            "a command is missing\n{}",
            all("").trim_end()
        ))),
        ["--version" | "-V"] => Ok(Answer::text(concat!(
            "bilqarush ",
            env!("CARGO_PKG_VERSION"),
            "\n"
        ))),
        ["help" | "--help" | "-h"] => Ok(Answer::text(all(""))),
        ["help", "text"] => Ok(Answer::text(FORM)),
        ["help", ref name @ ..] | [ref name @ .., "--help" | "-h"] => of_name(&name.join(" ")),
        _ => Err(unknown(words[0])),
    }
}

/// The help of a command, or the list of a group of commands.
fn of_name(name: &str) -> Result<Answer, Failure> {
    if let Some(command) = ALL.iter().find(|command| command.name == name) {
        return Ok(Answer::text(of(command)));
    }
    let group = format!("{name} ");
    match ALL.iter().any(|command| command.name.starts_with(&group)) {
        true => Ok(Answer::text(all(&group))),
        false => Err(unknown(name)),
    }
}

fn unknown(name: &str) -> Failure {
    let group = format!("{name} ");
    let of_group = ALL
        .iter()
        .filter_map(|command| command.name.strip_prefix(&group));
    let of_group: Vec<_> = of_group.collect();
    Failure::Usage(match of_group[..] {
        [] => format!("there is no command {name}: `bilqarush --help` lists all"),
        _ => format!("{name} needs one of {} after it", of_group.join(", ")),
    })
}
