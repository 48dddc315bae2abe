//! What is refused: the words on standard error, and the exit status.
mod common;

use bilqarush::Stop;
use common::{words, Folder};

/// The last key of its only view is below the first, on line 4.
const BELOW: &str = "image\nrun 7\n# a comment\n  view 1 table 1 m a\n";
const BELOW_PLACE: &str = "image, run 0, view 0: last key, at byte 67: it is below the first key\n";

#[test]
fn the_words() {
    let folder = Folder::new();
    folder.put("below.txt", "image\nrun 7\n  view 1 table 1 m a\n");
    assert_eq!(
        folder.run(&["check", "image", "below.txt"]).err(),
        "bilqarush: below.txt: stop 5 (TableRange): a last key is below its first key, a visible range starts excluded, or \
         it does not meet its table's own range\n\
         line 3: image, run 0, view 0: last key, at byte 67: it is below the first key\n"
    );
}

#[test]
fn of_a_text_with_the_line() {
    let folder = Folder::new();
    folder.put("below.txt", BELOW);
    let told = words(
        "below.txt",
        Stop::TableRange,
        &format!("line 4: {BELOW_PLACE}"),
    );
    let commands: &[&[&str]] = &[
        &["make", "image", "below.txt", "-o", "below.bin"],
        &["check", "image", "below.txt"],
        &["list", "below.txt"],
        &["effective", "below.txt", "0", "0"],
        &["size", "below.txt"],
        &["size", "below.txt", "0"],
        &["lookup", "views", "below.txt", "0", "- -"],
        &["lookup", "keeps", "below.txt", "0", "0", "- -"],
        &["plan", "below.txt", "index.txt", "--parts", "2"],
        &["commit", "below.txt", "half_way.txt", "-o", "below.bin"],
    ];
    for command in commands {
        folder.run(command).fails(1, &told);
    }
    assert!(!folder.names().contains(&"below.bin".to_string()));
}

#[test]
fn of_bytes_and_unchecked() {
    let folder = Folder::new();
    folder.put("below.txt", BELOW);
    folder
        .run(&[
            "make",
            "image",
            "below.txt",
            "--unchecked",
            "-o",
            "below.bin",
        ])
        .prints("");
    let told = words("below.bin", Stop::TableRange, BELOW_PLACE);
    folder.run(&["check", "image", "below.bin"]).fails(1, &told);
    let shown = folder.run(&["show", "image", "below.bin"]);
    assert_eq!(shown.out(), "image\nrun 7\n  view 1 table 1 m a\n");
    assert_eq!(
        (shown.err(), shown.status()),
        (&*(told + "it is shown all the same\n"), 0)
    );
    let piped = folder.run_on(&["list"], &folder.get("below.bin"));
    piped.fails(1, &words("standard input", Stop::TableRange, BELOW_PLACE));
}

#[test]
fn explained() {
    let folder = Folder::new();
    folder.put("below.txt", BELOW);
    let told = words("x", Stop::TableRange, &format!("line 4: {BELOW_PLACE}"));
    let told = told.strip_prefix("bilqarush: x: ").unwrap();
    for args in [
        &["explain", "image", "below.txt"][..],
        &["explain", "commit", "below.txt", "half_way.txt"],
    ] {
        let explained = folder.run(args);
        assert_eq!(
            (explained.out(), explained.err(), explained.status()),
            (told, "", 1)
        );
    }
}

/// Stop 12: the image already shows a table of the job where nothing is durable.
#[test]
fn of_a_commit() {
    let folder = Folder::new();
    folder.put("lies.txt", "image\nrun 7\nview 1 table 11 a e\nrun 9\n");
    folder.put(
        "job.txt",
        "job destination 7 sources 7 9\npart - - unfinished\noutput 11 a c\n",
    );
    let place = "line 3: image, run 0, view 0: view, at byte 7: its table is an output, and it shows a key that is in no \
        durable interval\n";
    let told = words("lies.txt", Stop::NotDurable, place);
    folder
        .run(&["commit", "lies.txt", "job.txt", "-o", "out.bin"])
        .fails(1, &told);
    folder.put(
        "elsewhere.txt",
        "# a job\n\njob destination 7 sources 7 8\n",
    );
    let place = "line 3: job, source 1: source id, at byte 9: no run of the image has it\n";
    let told = words("elsewhere.txt", Stop::NotInImage, place);
    folder
        .run(&["commit", "image.txt", "elsewhere.txt", "--list"])
        .fails(1, &told);
    folder.put("ids", b"0123456789");
    let told = words("image.txt, half_way.txt", Stop::IdSupply, "");
    folder
        .run(&["commit", "image.txt", "half_way.txt", "--ids", "ids"])
        .fails(1, &told);
    assert!(!folder.names().contains(&"out.bin".to_string()));
}

/// A commit that would need over 1,092 ids has no room for them either.
#[test]
fn of_a_commit_that_is_too_large() {
    let folder = Folder::new();
    let views = (0..600).map(|id| format!("view {id:x} table 1 a -\n"));
    folder.put(
        "many.txt",
        format!("image\nrun 7\n{}", views.collect::<String>()),
    );
    folder.put(
        "job.txt",
        "job destination 7 sources 7\npart [b c) completed\n",
    );
    let place = "ids were drawn for 1,092 views, and no image has room for more\n";
    let told = words("many.txt, job.txt", Stop::IdSupply, place);
    folder
        .run(&["commit", "many.txt", "job.txt", "--list"])
        .fails(1, &told);
    folder.put(
        "ids",
        (0..20_000u32)
            .flat_map(u32::to_be_bytes)
            .collect::<Vec<_>>(),
    );
    let told = words("many.txt, job.txt", Stop::ResultCeiling, "");
    folder
        .run(&["commit", "many.txt", "job.txt", "--ids", "ids"])
        .fails(1, &told);
}

/// Views that overlap can descend after a commit: the image is written, and the next call refuses it.
#[test]
fn of_what_a_commit_wrote() {
    let folder = Folder::new();
    folder.put(
        "image.txt",
        "image\nrun 7\nrun 9\nview 1 table 1 a -\nview 2 table 2 b -\n",
    );
    folder.put(
        "job.txt",
        "job destination 7 sources 7 9\npart [c d) completed\n",
    );
    let done = folder.run(&[
        "commit",
        "image.txt",
        "job.txt",
        "-o",
        "after.bin",
        "--list",
    ]);
    assert_eq!((done.out(), done.status()), ("", 0));
    assert!(done.err().starts_with(
        "bilqarush: the new image is written, but it is refused in turn: stop 6 (Order)"
    ));
    assert_eq!(folder.run(&["check", "image", "after.bin"]).status(), 1);
    assert_eq!(
        folder
            .run(&["show", "image", "after.bin"])
            .out()
            .lines()
            .count(),
        7
    );
}
