//! The transcripts in docs/GUIDE.md and README.md, run again: what a page shows is what the tool prints today.
//!
//! A block of ```console has commands, each on a line after `$ ` that goes on in lines after `> `, and what each prints. The
//! guide's run one after the other in a folder that is empty at first, the README's in this repository. With
//! BILQARUSH_WRITE_PAGES=1 in the environment the pages are written anew instead.
mod common;

use std::path::{Path, PathBuf};
use std::process::Command;
use std::{env, fs};

fn root() -> PathBuf {
    Path::new(env!("CARGO_MANIFEST_DIR")).join("..")
}

/// What a command prints, both ways, in the order in which it comes.
fn printed(command: &str, folder: &Path) -> String {
    let tool = Path::new(env!("CARGO_BIN_EXE_bilqarush"));
    let path = format!(
        "{}:{}",
        tool.parent().unwrap().display(),
        env::var("PATH").unwrap()
    );
    let done = Command::new("sh")
        .args(["-c", &format!("exec 2>&1\n{command}")])
        .current_dir(folder)
        .env("PATH", path)
        .output()
        .unwrap();
    String::from_utf8(done.stdout).unwrap()
}

/// A block's lines with what its commands print today.
fn block(lines: &[&str], folder: &Path) -> String {
    let mut now = String::new();
    let mut rest = lines;
    while let Some((first, after)) = rest.split_first() {
        rest = after;
        let Some(begin) = first.strip_prefix("$ ") else {
            continue; // what a command printed when the page was written
        };
        let more = rest
            .iter()
            .take_while(|line| line.starts_with("> "))
            .count();
        let (going_on, after) = rest.split_at(more);
        rest = after;
        let mut command = begin.to_string();
        now += &format!("{first}\n");
        for line in going_on {
            command += &format!("\n{}", &line[2..]);
            now += &format!("{line}\n");
        }
        now += &printed(&command, folder);
    }
    now
}

/// A page as it would be written today.
fn today(page: &str, folder: &Path) -> String {
    let mut now = String::new();
    let lines: Vec<_> = page.lines().collect();
    let mut rest = &lines[..];
    while let Some((line, after)) = rest.split_first() {
        now += &format!("{line}\n");
        rest = after;
        if *line == "```console" {
            let length = rest
                .iter()
                .position(|line| *line == "```")
                .expect("a block ends");
            let (inside, after) = rest.split_at(length);
            now += &block(inside, folder);
            rest = after;
        }
    }
    now
}

fn hold(path: &str, folder: &Path, blocks: usize) {
    let file = root().join(path);
    let page = fs::read_to_string(&file).unwrap();
    assert_eq!(page.matches("```console\n").count(), blocks, "{path}");
    let now = today(&page, folder);
    if env::var_os("BILQARUSH_WRITE_PAGES").is_some() {
        fs::write(&file, now).unwrap();
        return;
    }
    for (number, (was, is)) in (1..).zip(page.lines().zip(now.lines())) {
        assert_eq!(was, is, "{path}, line {number}");
    }
    assert_eq!(page, now, "{path}");
}

#[test]
fn guide() {
    let folder = common::Folder::empty();
    hold("docs/GUIDE.md", &folder.0, 9);
}

#[test]
fn drawing() {
    let folder = common::Folder::new();
    let now = printed("bilqarush draw --svg image.txt half_way.txt", &folder.0);
    let file = root().join("docs/demo.svg");
    match env::var_os("BILQARUSH_WRITE_PAGES") {
        Some(_) => fs::write(&file, now).unwrap(),
        None => assert!(
            fs::read_to_string(&file).unwrap() == now,
            "docs/demo.svg is not what the tool draws"
        ),
    }
}

#[test]
fn readme() {
    hold("README.md", &root(), 2);
}
