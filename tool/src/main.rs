//! The command `bilqarush`.
use bilqarush_tool::commands;
use bilqarush_tool::output::Answer;
use std::ffi::OsString;
use std::io::{self, Write};
use std::process::ExitCode;

fn main() -> ExitCode {
    let given: Vec<OsString> = std::env::args_os().skip(1).collect();
    let status = match commands::run(&given) {
        Ok(answer) => print(&answer),
        Err(failure) => {
            tell(&failure.to_string());
            failure.status()
        }
    };
    ExitCode::from(status)
}

fn print(answer: &Answer) -> u8 {
    if let Some(note) = &answer.note {
        tell(note);
    }
    let mut out = io::stdout().lock();
    match out.write_all(&answer.out).and_then(|()| out.flush()) {
        // A reader that has seen enough, as `head`, is no error.
        Err(error) if error.kind() != io::ErrorKind::BrokenPipe => {
            tell(&format!("standard output: {error}"));
            2
        }
        _ => u8::from(answer.refused),
    }
}

/// To standard error. If that is closed there is nobody to tell.
fn tell(what: &str) {
    let _ = writeln!(io::stderr(), "bilqarush: {what}");
}
