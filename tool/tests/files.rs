//! Where a command reads and writes: files, standard input and output, a terminal.
mod common;

use common::{Done, Folder};
use std::ffi::{c_char, c_int, CStr};
use std::fs::{self, File, OpenOptions};
use std::io::Write;
use std::os::unix::fs::{symlink, PermissionsExt};
use std::process::{Command, Stdio};

#[test]
fn a_file_is_replaced_whole() {
    let folder = Folder::new();
    let before = folder.names();
    let path = folder.0.join("image.txt");
    fs::set_permissions(&path, fs::Permissions::from_mode(0o640)).unwrap();
    symlink("image.txt", folder.0.join("link.txt")).unwrap();
    let commit = ["commit", "link.txt", "half_way.txt", "-o", "link.txt"];
    folder.run(&commit).prints("");
    let mode = fs::metadata(&path).unwrap().permissions().mode();
    assert_eq!(mode & 0o777, 0o640);
    assert_eq!(
        fs::read_link(folder.0.join("link.txt")).unwrap().to_str(),
        Some("image.txt")
    );
    assert_eq!(
        folder
            .get("image.txt")
            .iter()
            .filter(|&&byte| byte == b'\n')
            .count(),
        10
    );
    assert_eq!(folder.names().len(), before.len() + 1);
}

#[test]
fn a_refused_commit_writes_nothing() {
    let folder = Folder::new();
    folder.put("out.bin", "as it was");
    folder.put("no.txt", "job destination 7 sources\n");
    let before = folder.names();
    let commit = folder.run(&["commit", "image.txt", "no.txt", "-o", "out.bin"]);
    assert_eq!(commit.status(), 1);
    assert_eq!(folder.get("out.bin"), b"as it was");
    assert_eq!(folder.names(), before);
}

#[test]
fn files_that_are_not_there() {
    let folder = Folder::new();
    let missing = "No such file or directory (os error 2)";
    folder
        .run(&["list", "none.bin"])
        .fails(2, &format!("bilqarush: none.bin: {missing}\n"));
    folder
        .run(&["list", "none.txt"])
        .fails(2, &format!("bilqarush: none.txt: {missing}\n"));
    let make = ["make", "image", "image.txt", "-o", "none/out.bin"];
    folder
        .run(&make)
        .fails(2, &format!("bilqarush: none/out.bin: {missing}\n"));
    let ids = [
        "commit",
        "image.txt",
        "half_way.txt",
        "--list",
        "--ids",
        "none",
    ];
    folder
        .run(&ids)
        .fails(2, &format!("bilqarush: none: {missing}\n"));
    let folder_read = folder.run(&["list", "."]);
    assert_eq!((folder_read.out(), folder_read.status()), ("", 2));
}

/// A pipe in place of a file is written to, and stays a pipe.
#[test]
fn a_pipe_is_not_replaced() {
    let folder = Folder::new();
    let pipe = folder.0.join("pipe");
    assert!(Command::new("mkfifo")
        .arg(&pipe)
        .status()
        .unwrap()
        .success());
    let reader = std::thread::spawn({
        let pipe = pipe.clone();
        move || fs::read(pipe).unwrap()
    });
    folder
        .run(&["make", "image", "image.txt", "-o", "pipe"])
        .prints("");
    // First: the reader of a pipe that was replaced would wait without end.
    assert!(!fs::metadata(&pipe).unwrap().is_file());
    assert_eq!(reader.join().unwrap().len(), 141);
}

#[test]
fn one_standard_input() {
    let folder = Folder::new();
    let usage = "usage: bilqarush commit IMAGE JOB [-o OUT] [--list] [--ids FILE] [--text]\n";
    let message = format!("bilqarush: only one input may be standard input\n{usage}");
    folder.run(&["commit", "-", "-"]).fails(2, &message);
    folder
        .run(&["commit", "-", "half_way.txt", "--ids", "-"])
        .fails(2, &message);
    let message = format!("bilqarush: --list prints where -o - would write\n{usage}");
    folder
        .run(&["commit", "image.txt", "half_way.txt", "--list", "-o", "-"])
        .fails(2, &message);
    let job = folder.get("half_way.txt");
    let after = folder.run_on(&["commit", "image.txt", "-", "--text"], &job);
    let listed = folder.run_on(&["list"], &after.0.stdout);
    assert_eq!(listed.out().lines().count(), 8);
}

/// The same supply gives the same image; random ones do not.
#[test]
fn ids() {
    let folder = Folder::new();
    folder.put(
        "ids",
        b"0123456789abcdefghijABCDEFGHIJklmnopqrstKLMNOPQRSTuvwxyzUVWX",
    );
    let given = || {
        folder
            .run(&["commit", "image.txt", "half_way.txt", "--ids", "ids"])
            .0
            .stdout
    };
    let random = || {
        folder
            .run(&["commit", "image.txt", "half_way.txt"])
            .0
            .stdout
    };
    assert_eq!(given(), given());
    assert_ne!(random(), random());
    assert_eq!(random().len(), given().len());
    let shown = folder.run_on(&["show", "image"], &given());
    assert!(shown
        .out()
        .contains("view 00000000000030313233343536373839 table 12 f h "));
}

/// A name that begins with `-` or is a number.
#[test]
fn odd_names() {
    let folder = Folder::new();
    folder.put("7", [0]);
    folder.put("-o", [0]);
    folder.run(&["size", "./7"]).prints("");
    folder
        .run(&["list", "--", "-o"])
        .prints("run view table start end\n");
}

/// Whoever reads may stop early.
#[test]
fn a_broken_pipe_is_quiet() {
    let mut child = Command::new(env!("CARGO_BIN_EXE_bilqarush"))
        .arg("list")
        .stdin(Stdio::piped())
        .stdout(Stdio::piped())
        .stderr(Stdio::piped())
        .spawn()
        .unwrap();
    drop(child.stdout.take());
    child.stdin.take().unwrap().write_all(&[0]).unwrap();
    Done(child.wait_with_output().unwrap()).prints("");
}

/// A full disk is not.
#[test]
fn a_full_disk_is_told() {
    let full = OpenOptions::new().write(true).open("/dev/full").unwrap();
    let tool = Command::new(env!("CARGO_BIN_EXE_bilqarush"))
        .args(["compare", "a", "b"])
        .stdout(full)
        .output()
        .unwrap();
    let message = "bilqarush: standard output: No space left on device (os error 28)\n";
    Done(tool).fails(2, message);
}

extern "C" {
    fn posix_openpt(flags: c_int) -> c_int;
    fn grantpt(fd: c_int) -> c_int;
    fn unlockpt(fd: c_int) -> c_int;
    fn ptsname_r(fd: c_int, name: *mut c_char, room: usize) -> c_int;
}

/// A terminal of its own: the side that a user sees, and the side that a command writes to.
fn terminal() -> (File, File) {
    use std::os::fd::FromRawFd;
    const READ_AND_WRITE: c_int = 2;
    let mut name = [0; 64];
    // SAFETY: the file is opened here and handed on, and the name has the room that is told.
    let (user, path) = unsafe {
        let fd = posix_openpt(READ_AND_WRITE);
        assert!(fd >= 0 && grantpt(fd) == 0 && unlockpt(fd) == 0);
        assert_eq!(ptsname_r(fd, name.as_mut_ptr(), name.len()), 0);
        (File::from_raw_fd(fd), CStr::from_ptr(name.as_ptr()))
    };
    let command = OpenOptions::new().write(true).open(path.to_str().unwrap());
    (user, command.unwrap())
}

#[test]
fn bytes_are_not_written_to_a_terminal() {
    let folder = Folder::new();
    for args in [
        &["make", "image", "image.txt"][..],
        &["commit", "image.txt", "half_way.txt"],
        &["select", "anchors.txt", "--parts", "2", "-o", "-"],
    ] {
        let (user, command) = terminal();
        let tool = Command::new(env!("CARGO_BIN_EXE_bilqarush"))
            .args(args)
            .current_dir(&folder.0)
            .stdout(command)
            .output()
            .unwrap();
        let message = "bilqarush: bytes are not written to a terminal: name a file with -o OUT\n";
        assert!(String::from_utf8(tool.stderr).unwrap().starts_with(message));
        assert_eq!(tool.status.code(), Some(2));
        drop(user);
    }
}
