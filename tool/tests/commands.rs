//! Each command as a process: what it prints, beyond the example of its --help.
mod common;

use common::Folder;

/// Two views in run 7, of which the second has no last key; run 9 without views.
const IMAGE: &str = "image\nrun 7\n  view 1 table 1 a c index 3 2\n  view 2 table 01ARZ3NDEKTSV4RRFFQ69G5FAV d -\nrun 9\n";

fn folder() -> Folder {
    let folder = Folder::new();
    folder.put("two.txt", IMAGE);
    folder.put(
        "part.txt",
        "image\nrun 1\nview 1 table 1 0x00 0x80 index 3 2 visible [0x00 0x40)\n",
    );
    folder
}

#[test]
fn make_and_show() {
    let folder = folder();
    let made = folder.run(&["make", "image", "two.txt"]);
    assert_eq!((made.err(), made.status()), ("", 0));
    let shown = "image\nrun 7\n  view 1 table 1 a c index 3 2 filter 0\n  \
        view 2 table 01563e3ab5d3d6764c61efb99302bd5b d -\nrun 9\n";
    folder
        .run_on(&["show", "image"], &made.0.stdout)
        .prints(shown);
    folder
        .run_on(&["show", "image", "-"], &made.0.stdout)
        .prints(shown);
    folder.run(&["show", "image", "two.txt"]).prints(shown);
    folder
        .run_on(&["show", "image", "--text"], IMAGE.as_bytes())
        .prints(shown);
    let again = folder.run_on(&["make", "image"], shown.as_bytes());
    assert_eq!(again.0.stdout, made.0.stdout);
}

#[test]
fn make_of_every_kind() {
    let folder = folder();
    let files = [
        ("image", "image.txt", 141),
        ("job", "half_way.txt", 167),
        ("index", "index.txt", 46),
        ("indexes", "indexes.txt", 92),
        ("anchors", "anchors.txt", 46),
    ];
    for (kind, file, length) in files {
        let made = folder.run(&["make", kind, file]);
        assert_eq!((made.0.stdout.len(), made.err()), (length, ""), "{kind}");
    }
    let plan = folder.run_on(&["make", "plan"], b"plan\nrange - c)\nrange [c -\n");
    assert_eq!(plan.0.stdout, b"\x02\x20\0\x01c\x40\0\x01c");
    let range = folder.run_on(&["make", "range"], b"[a c)\n");
    assert_eq!(range.0.stdout, b"\x60\0\x01a\0\x01c");
    folder
        .run_on(&["show", "plan"], &plan.0.stdout)
        .prints("plan\n  range - c)\n  range [c -\n");
    folder
        .run_on(&["show", "range"], &range.0.stdout)
        .prints("[a c)\n");
}

#[test]
fn check_and_explain_accept() {
    let folder = folder();
    for (kind, file) in [
        ("image", "two.txt"),
        ("job", "further.txt"),
        ("index", "index.txt"),
        ("indexes", "indexes.txt"),
        ("anchors", "anchors.txt"),
    ] {
        folder.run(&["check", kind, file]).prints("ok\n");
        folder.run(&["explain", kind, file]).prints("accepted\n");
    }
    folder.run_on(&["check", "plan"], &[0]).prints("ok\n");
    folder
        .run_on(&["explain", "range"], &[0])
        .prints("accepted\n");
    folder
        .run(&["explain", "commit", "image.txt", "completed.txt"])
        .prints("accepted\n");
}

#[test]
fn list_of_standard_input() {
    let folder = folder();
    folder
        .run_on(&["list"], &[0])
        .prints("run view table start end\n");
    folder.run_on(&["list", "--text"], IMAGE.as_bytes()).prints(
        "run view table start end\n7 0 00000000000000000000000000000001 [61 63]\n\
         7 1 01563e3ab5d3d6764c61efb99302bd5b [64 -\n",
    );
}

#[test]
fn effective_and_size() {
    let folder = folder();
    let two = IMAGE.as_bytes();
    folder
        .run(&["effective", "two.txt", "0", "1"])
        .prints("[d -\n");
    folder
        .run_on(&["effective", "0", "0", "--text"], two)
        .prints("[a c]\n");
    folder
        .run_on(&["effective", "-", "0", "0", "--text"], two)
        .prints("[a c]\n");
    folder
        .run(&["effective", "part.txt", "0", "0"])
        .prints("[0x00 @)\n");
    folder
        .run(&["size", "two.txt"])
        .prints("0 run 7 size 5\n1 run 9 size 0\n");
    folder
        .run_on(&["size", "--text"], two)
        .prints("0 run 7 size 5\n1 run 9 size 0\n");
    folder
        .run_on(&["size", "0", "--text"], two)
        .prints("size 5\n");
    folder.run(&["size", "two.txt", "1"]).prints("size 0\n");
    folder
        .run_on(&["size", "0", "1", "--text"], two)
        .prints("size 0 whole\n");
    folder
        .run(&["size", "part.txt", "0", "0"])
        .prints("size 3 part 0.5\n");
}

#[test]
fn lookups_in_an_image() {
    let folder = folder();
    folder
        .run(&["lookup", "views", "two.txt", "0", "[cc", "d]"])
        .prints("views 0..2\n0 table 1 [a c]\n1 table 01563e3ab5d3d6764c61efb99302bd5b [d -\n");
    folder
        .run(&["lookup", "views", "two.txt", "1", "- -"])
        .prints("views 0..0\n");
    folder
        .run(&["lookup", "overlaps", "two.txt", "0", "[x -"])
        .prints("yes\n");
    folder
        .run(&["lookup", "overlaps", "two.txt", "1", "-", "-"])
        .prints("no\n");
    folder
        .run(&["lookup", "keeps", "two.txt", "0", "0", "[b -"])
        .prints("[b d)\n");
    folder
        .run(&["lookup", "keeps", "two.txt", "0", "1", "- b)"])
        .prints("none\n");
    folder
        .run(&["lookup", "reads", "two.txt", "0", "0", "[b -"])
        .prints("[b c]\n");
    folder
        .run(&["lookup", "reads", "two.txt", "0", "0", "(c", "-"])
        .prints("none\n");
    folder
        .run(&["lookup", "meets", "two.txt", "0", "0", "-", "[x -"])
        .prints("yes\n");
    folder.run(&["lookup", "meets", "two.txt", "0", "0", "d) [x -"]).fails(2, "bilqarush: an argument is missing\nusage: bilqarush lookup meets IMAGE RUN VIEW END RANGE [--text]\n");
    folder
        .run(&["lookup", "meets", "two.txt", "0", "0", "d)", "[x", "-"])
        .prints("no\n");
}

#[test]
fn lookups_in_an_index() {
    let folder = folder();
    folder.run(&["lookup", "key", "index.txt", "A"]).prints(
        "first_partition_including_key none\nfirst_partition_including_or_after_key 0\n\
         last_partition_including_key none\npartition_point_below 0\npartition_point_at_or_below 0\n",
    );
    folder
        .run(&["lookup", "blocks", "index.txt", "[b b]"])
        .prints("blocks 0..3\n0 block 0 a\n1 block 10 b\n2 block 20 b\n");
    folder
        .run(&["lookup", "blocks", "index.txt", "[A A]"])
        .prints("blocks 0..0\n");
}

#[test]
fn plans() {
    let folder = folder();
    let text = "plan\n  range - n)\n  range [n -\n";
    folder
        .run(&[
            "plan",
            "image.txt",
            "indexes.txt",
            "--parts=2",
            "-o",
            "plan.bin",
        ])
        .prints("");
    folder.run(&["show", "plan", "plan.bin"]).prints(text);
    folder
        .run(&[
            "plan",
            "image.txt",
            "indexes.txt",
            "--parts",
            "2",
            "-o",
            "plan.txt",
        ])
        .prints("");
    assert_eq!(folder.get("plan.txt"), text.as_bytes());
    folder
        .run(&["plan", "image.txt", "indexes.txt", "--parts", "0"])
        .prints("plan\n  range - -\n");
    folder
        .run(&["select", "anchors.txt", "--parts", "4", "--least", "40"])
        .prints("plan\n  range - -\n");
    folder
        .run(&["sample", "index.txt", "--data-end", "100", "[b", "-"])
        .prints("anchors\n  anchor b 10\n  anchor b 10\n  anchor d 70\n");
}

#[test]
fn anchors_through_a_pipe() {
    let folder = folder();
    let anchors = folder.run(&["sample", "index.txt", "--data-end", "100", "-o", "-"]);
    folder
        .run_on(&["select", "-", "--parts", "2"], &anchors.0.stdout)
        .prints("plan\n  range - -\n");
}

#[test]
fn progress() {
    let folder = folder();
    folder
        .run(&["durable", "completed.txt"])
        .prints("- m)\n[m -\n");
    folder
        .run_on(
            &["durable", "--text"],
            b"job destination 7 sources 7\npart [c - unfinished\noutput 1 c c\n",
        )
        .prints("");
    folder
        .run(&["subtract", "[c", "f)", "[c", "f]"])
        .prints("[f f]\n");
    folder.run(&["subtract", "- -", "[c f]"]).prints("");
}

#[test]
fn keys_and_ranges() {
    let folder = folder();
    folder.run(&["compare", "a", "a"]).prints("equal\n");
    folder.run(&["compare", "\"\"", "0x00"]).prints("less\n");
    folder
        .run(&["compare", "--", "-a", "--"])
        .prints("greater\n");
    folder
        .run(&["contains", "(\"lamp 1\" \"lamp 8\"]", "\"lamp 8\""])
        .prints("yes\n");
    folder.run(&["contains", "- c)", "c"]).prints("no\n");
    folder.run(&["contains", "-", "c)", "b"]).prints("yes\n");
    folder.run(&["prefix", "0x61ff"]).prints("[0x61ff b)\n");
    folder.run(&["prefix", "0xffff"]).prints("[0xffff -\n");
    folder.run(&["prefix", "\"\""]).prints("- -\n");
    folder.run(&["prefix", "a", "-", "c)"]).prints("[a ac)\n");
}
