//! What --help says, and that its examples are true.
mod common;

use bilqarush_tool::commands::ALL;
use bilqarush_tool::kind::Kind;
use bilqarush_tool::text::FORM;
use common::{Done, Folder};
use std::env;
use std::path::Path;
use std::process::Command;

#[test]
fn of_every_command() {
    let folder = Folder::new();
    for command in ALL {
        let words: Vec<&str> = command.name.split(' ').collect();
        let help = folder.run(&[&words[..], &["--help"]].concat());
        let text = help.out().to_string();
        help.prints(&text);
        let usage = format!("usage: bilqarush {} {}\n", command.name, command.usage);
        assert!(text.starts_with(&usage), "{text}");
        for part in [
            "\noptions:\n",
            "--help ",
            "\nexit status:\n",
            "\nexample:\n  $ bilqarush ",
        ] {
            assert!(text.contains(part), "{part} is not in {text}");
        }
        for option in command.options {
            assert!(text.contains(&format!("  {}", option.name)), "{text}");
            assert!(command.usage.contains(option.name), "{}", command.name);
        }
        folder.run(&[&["help"], &words[..]].concat()).prints(&text);
    }
}

/// Help fits a terminal of 80 columns.
#[test]
fn lines_are_short() {
    let folder = Folder::new();
    let mut texts = vec![FORM.to_string(), folder.run(&["--help"]).out().to_string()];
    for command in ALL {
        let help =
            folder.run(&[&["help"], &command.name.split(' ').collect::<Vec<_>>()[..]].concat());
        texts.push(help.out().to_string());
    }
    for line in texts.iter().flat_map(|text| text.lines()) {
        assert!(line.len() <= 80 && line.trim_end() == line, "{line}");
    }
}

#[test]
fn of_all_commands() {
    let folder = Folder::new();
    let all = folder.run(&["--help"]);
    for command in ALL {
        let line = format!("  {:<17} {}\n", command.name, command.line);
        assert!(all.out().contains(&line), "{line}");
    }
    folder.run(&["help"]).prints(all.out());
    folder.run(&["help", "text"]).prints(FORM);
    let group = folder.run(&["lookup", "--help"]);
    assert_eq!(group.out().matches("  lookup ").count(), 7);
    folder.run(&["help", "lookup"]).prints(group.out());
    let version = concat!("bilqarush ", env!("CARGO_PKG_VERSION"), "\n");
    folder.run(&["--version"]).prints(version);
}

/// A command line of a shell, with the tool in its path.
fn shell(folder: &Folder, line: &str) -> Done {
    let tool = Path::new(env!("CARGO_BIN_EXE_bilqarush"));
    let mut path = tool.parent().unwrap().as_os_str().to_os_string();
    path.push(":");
    path.push(env::var_os("PATH").unwrap());
    let mut shell = Command::new("sh");
    let shell = shell.args(["-c", line]).env("PATH", path);
    Done(shell.current_dir(&folder.0).output().unwrap())
}

#[test]
fn examples_are_true() {
    for command in ALL {
        let folder = Folder::new();
        let mut printed = String::new();
        for line in command.example.lines() {
            let line = line.strip_prefix("  ").unwrap();
            if let Some(line) = line.strip_prefix("$ ") {
                let done = shell(&folder, line);
                assert_eq!((done.err(), done.status()), ("", 0), "{line}");
                printed += &format!("$ {line}\n{}", done.out());
            }
        }
        let example = command.example.replace("\n  ", "\n");
        assert_eq!(printed, example.trim_start_matches(' '), "{}", command.name);
    }
}

/// Each block of `help text` that begins with the name of a kind is a text of it.
#[test]
fn the_text_form_reads_its_own_examples() {
    let mut read = Vec::new();
    for block in FORM.split("\n\n").filter(|block| block.starts_with("    ")) {
        let head = block.split_whitespace().next().unwrap();
        if let Some(kind) =
            Kind::named(head).filter(|_| block.contains('\n') && !block.contains("RANGE"))
        {
            let bytes = kind.bytes_of(block.as_bytes()).unwrap().value;
            assert_eq!(kind.explain(&bytes), None, "{block}");
            read.push(head);
        }
    }
    assert_eq!(read, ["image", "job", "index", "anchors", "plan"]);
}
