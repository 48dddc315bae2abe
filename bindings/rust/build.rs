//! Finds libbilqarush_c.a, and has `bindings/archive` make it if the repository has none yet: some minutes where the crates below
//! it are proved.
//!
//! Cargo shows nothing of a build script before it ends, so what is waited for is said on the terminal, if there is one.
use std::env;
use std::fs::{self, OpenOptions};
use std::io::{BufRead, BufReader, Write};
use std::os::unix::process::parent_id;
use std::path::{Path, PathBuf};
use std::process::{exit, Command, ExitStatus, Stdio};
use std::time::{Instant, SystemTime};

const ARCHIVE: &str = "libbilqarush_c.a";

fn main() {
    println!("cargo::rerun-if-env-changed=BILQARUSH_LIB_DIR");
    let dir = match env::var_os("BILQARUSH_LIB_DIR") {
        Some(dir) => given(Path::new(&dir)),
        None => of_repository(),
    };
    // The archive becomes part of this crate, so a new one must build the crate anew. One that is not there counts as changed:
    // a build after a check that went on without it runs this script again.
    println!("cargo::rerun-if-changed={}", dir.join(ARCHIVE).display());
    println!("cargo::rustc-link-search=native={}", dir.display());
    println!("cargo::rustc-link-lib=static=bilqarush_c");
}

/// The folder that the user named. It counts from this crate's folder unless it is absolute. The archive there is the user's
/// own, of whatever sources, so it is not compared with those here.
fn given(dir: &Path) -> PathBuf {
    match dir.canonicalize() {
        Ok(dir) if dir.join(ARCHIVE).is_file() => dir,
        _ => fail(&format!(
            "BILQARUSH_LIB_DIR is {}, and there is no {ARCHIVE} there",
            dir.display()
        )),
    }
}

/// target/staticlib of the repository that this crate stands in. A build script runs in its crate's folder.
fn of_repository() -> PathBuf {
    let root = Path::new("../..").canonicalize().unwrap();
    let dir = root.join("target/staticlib");
    let archive = dir.join(ARCHIVE);
    // The comparison below is made anew when a source changes. What rt makes, in out/ of each crate, is no source.
    for source in source_folders(&root) {
        println!("cargo::rerun-if-changed={}", source.display());
    }
    if !archive.is_file() {
        if links_nothing() {
            warn(&format!(
                "there is no target/staticlib/{ARCHIVE}, and this goes on without: what links makes it, in some minutes"
            ));
            return dir;
        }
        make(&root);
    }
    if let Some(source) = newer(&root, &archive) {
        warn(&format!(
            "target/staticlib/{ARCHIVE} is older than {}: bindings/archive makes it anew",
            source.display()
        ));
    }
    dir
}

/// Whether cargo was asked for something that links nothing, so that nothing is to be proved for it. A build script is not told
/// what was asked: this reads the words that the process above it, cargo, was started with. (`cargo clippy` starts `cargo
/// check`.)
fn links_nothing() -> bool {
    let words = fs::read(format!("/proc/{}/cmdline", parent_id())).unwrap_or_default();
    let mut words = words
        .split(|byte| *byte == 0)
        .skip(1)
        .map(String::from_utf8_lossy);
    while let Some(word) = words.next() {
        match &*word {
            // These have their value in the next word.
            "--color" | "--config" | "-C" | "-Z" => drop(words.next()),
            option if option.starts_with(['-', '+']) => {}
            "check" | "c" | "clippy" | "doc" | "d" | "rustdoc" | "fix" => return true,
            _ => return false,
        }
    }
    false
}

fn make(root: &Path) {
    let began = Instant::now();
    match run_archive(root) {
        Ok(status) if status.success() => warn(&format!(
            "target/staticlib/{ARCHIVE} was missing; making it took {} s, waits included",
            began.elapsed().as_secs()
        )),
        Ok(status) => fail(&format!(
            "bindings/archive in {} ended with {status}; where the Rattle toolchain is not, set BILQARUSH_LIB_DIR to a folder \
             that has {ARCHIVE}",
            root.display()
        )),
        Err(error) => fail(&format!(
            "{ARCHIVE} is not in target/staticlib of {}, and bindings/archive there can't be run ({error}): set \
             BILQARUSH_LIB_DIR to a folder that has {ARCHIVE}",
            root.display()
        )),
    }
}

/// Runs bindings/archive, keeps what it writes for cargo, and repeats on the terminal what is for people: why it builds, what it
/// waits for and how long.
fn run_archive(root: &Path) -> std::io::Result<ExitStatus> {
    let mut archive = Command::new(root.join("bindings/archive"))
        .stdout(Stdio::null())
        .stderr(Stdio::piped())
        .spawn()?;
    let lines = BufReader::new(archive.stderr.take().unwrap()).split(b'\n');
    for line in lines {
        let line = line?;
        let line = String::from_utf8_lossy(&line);
        eprintln!("{line}");
        if line.starts_with("bindings/archive: ") || line.starts_with(".ci/locked: ") {
            tell(&line);
        }
    }
    archive.wait()
}

/// crates.txt, the folder of the crates, and in each of them the folders of its sources.
fn source_folders(root: &Path) -> Vec<PathBuf> {
    let mut folders = vec![root.join("crates.txt")];
    for entry in fs::read_dir(root.join("crates")).into_iter().flatten() {
        let Ok(entry) = entry else { continue };
        let parts = ["src", "specs", "proofs"].map(|part| entry.path().join(part));
        folders.extend(parts.into_iter().filter(|part| part.is_dir()));
    }
    folders.sort();
    folders
}

/// The first source, in the order of names, that is newer than the archive.
fn newer(root: &Path, archive: &Path) -> Option<PathBuf> {
    let made = modified(archive)?;
    let mut rest = source_folders(root);
    rest.reverse();
    while let Some(path) = rest.pop() {
        if path.is_dir() {
            let mut inside: Vec<_> = fs::read_dir(&path)
                .ok()?
                .map(|entry| entry.map(|entry| entry.path()))
                .collect::<Result<_, _>>()
                .ok()?;
            inside.sort();
            rest.extend(inside.into_iter().rev());
        } else if is_source(&path) && modified(&path)? > made {
            return Some(path.strip_prefix(root).unwrap().to_path_buf());
        }
    }
    None
}

fn is_source(path: &Path) -> bool {
    path.ends_with("crates.txt")
        || path
            .extension()
            .is_some_and(|extension| extension == "rt" || extension == "antt")
}

fn modified(path: &Path) -> Option<SystemTime> {
    path.metadata().ok()?.modified().ok()
}

/// A line on the terminal, in place of cargo's progress, which cargo draws again below it.
fn tell(text: &str) {
    if let Ok(mut terminal) = OpenOptions::new().write(true).open("/dev/tty") {
        let _ = writeln!(terminal, "\r\x1b[K{text}");
    }
}

fn warn(text: &str) {
    println!("cargo::warning={text}");
}

fn fail(why: &str) -> ! {
    eprintln!("bilqarush: {why}");
    exit(1)
}
