//! The tool as a process, folders for its files, and random values.
#![allow(dead_code)]
pub mod random;

use bilqarush::Stop;
use std::io::Write;
use std::path::{Path, PathBuf};
use std::process::{Command, Output, Stdio};
use std::sync::atomic::{AtomicUsize, Ordering};
use std::{env, fs, process};

/// A folder of its own, which goes when the test ends.
pub struct Folder(pub PathBuf);

impl Folder {
    /// With a copy of the folder demo in it.
    pub fn new() -> Folder {
        let folder = Folder::empty();
        for file in fs::read_dir(demo()).unwrap() {
            let file = file.unwrap();
            fs::copy(file.path(), folder.0.join(file.file_name())).unwrap();
        }
        folder
    }

    /// With nothing in it.
    pub fn empty() -> Folder {
        static COUNT: AtomicUsize = AtomicUsize::new(0);
        let count = COUNT.fetch_add(1, Ordering::Relaxed);
        let name = format!("bilqarush-tool-{}-{count}", process::id());
        let folder = Folder(env::temp_dir().join(name));
        fs::create_dir(&folder.0).unwrap();
        folder
    }

    pub fn put(&self, name: &str, bytes: impl AsRef<[u8]>) {
        fs::write(self.0.join(name), bytes).unwrap();
    }

    pub fn get(&self, name: &str) -> Vec<u8> {
        fs::read(self.0.join(name)).unwrap()
    }

    /// The names of its files.
    pub fn names(&self) -> Vec<String> {
        let files = fs::read_dir(&self.0).unwrap();
        let names = files.map(|file| file.unwrap().file_name().into_string().unwrap());
        let mut names: Vec<_> = names.collect();
        names.sort();
        names
    }

    /// Runs the tool in the folder.
    pub fn run(&self, args: &[&str]) -> Done {
        self.run_on(args, b"")
    }

    /// Runs the tool in the folder, with some standard input.
    pub fn run_on(&self, args: &[&str], input: &[u8]) -> Done {
        let mut child = Command::new(env!("CARGO_BIN_EXE_bilqarush"))
            .args(args)
            .current_dir(&self.0)
            .stdin(Stdio::piped())
            .stdout(Stdio::piped())
            .stderr(Stdio::piped())
            .spawn()
            .unwrap();
        // A command that ends before it has read all is no error here.
        let _ = child.stdin.take().unwrap().write_all(input);
        Done(child.wait_with_output().unwrap())
    }
}

impl Drop for Folder {
    fn drop(&mut self) {
        let _ = fs::remove_dir_all(&self.0);
    }
}

/// A command that has ended.
pub struct Done(pub Output);

impl Done {
    pub fn out(&self) -> &str {
        std::str::from_utf8(&self.0.stdout).unwrap()
    }

    pub fn err(&self) -> &str {
        std::str::from_utf8(&self.0.stderr).unwrap()
    }

    pub fn status(&self) -> i32 {
        self.0.status.code().unwrap()
    }

    /// That it printed this, and nothing on standard error.
    #[track_caller]
    pub fn prints(&self, out: &str) {
        assert_eq!((self.out(), self.err(), self.status()), (out, "", 0));
    }

    /// That it printed this on standard error alone, with this status.
    #[track_caller]
    pub fn fails(&self, status: i32, err: &str) {
        assert_eq!((self.out(), self.err(), self.status()), ("", err, status));
    }
}

/// The folder demo.
pub fn demo() -> PathBuf {
    Path::new(env!("CARGO_MANIFEST_DIR")).join("demo")
}

/// The words for a stop of a file, and those after them.
pub fn words(subject: &str, stop: Stop, place: &str) -> String {
    let (number, name, sentence) = (stop.number(), stop.name(), stop.sentence());
    format!("bilqarush: {subject}: stop {number} ({name}): {sentence}\n{place}")
}
