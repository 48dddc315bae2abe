//! What is refused of places, ranges, keys and settings that are arguments, and of indexes and anchors.
mod common;

use bilqarush::Stop;
use common::{words, Folder};

/// Each line is a command, with `|` between its arguments.
#[track_caller]
fn all_refused(folder: &Folder, commands: &str, told: &str) {
    for command in commands.trim().lines() {
        let args: Vec<_> = command.trim().split('|').collect();
        folder.run(&args).fails(1, told);
    }
}

#[test]
fn places() {
    let folder = Folder::new();
    let run = "there is no run 4: the image has 2, counted from 0\n";
    let view = "run 1 has no view 3: it has 1, counted from 0\n";
    let none = |place| words("image.txt", Stop::NotInImage, place);
    all_refused(
        &folder,
        "effective|image.txt|4|0\nsize|image.txt|4",
        &none(run),
    );
    all_refused(
        &folder,
        "effective|image.txt|1|3\nsize|image.txt|1|3",
        &none(view),
    );
    let none = |place| words("image.txt, [a b)", Stop::NotInImage, place);
    all_refused(
        &folder,
        "lookup|views|image.txt|4|[a b)\nlookup|overlaps|image.txt|4|[a b)",
        &none(run),
    );
    all_refused(
        &folder,
        "lookup|keeps|image.txt|1|3|[a b)\nlookup|reads|image.txt|1|3|[a b)\nlookup|meets|image.txt|1|3|-|[a b)",
        &none(view),
    );
}

#[test]
fn ranges() {
    let folder = Folder::new();
    let place = "range: bounds, at byte 0: it fails non_empty\n";
    all_refused(
        &folder,
        "contains|[c a)|b
        subtract|[c a)|- -
        subtract|- -|[c a)
        lookup|views|image.txt|0|[c a)
        lookup|meets|image.txt|0|0|-|[c a)
        lookup|blocks|index.txt|[c a)
        sample|index.txt|[c a)|--data-end|1
        prefix|p|[c a)",
        &words("[c a)", Stop::EmptyRange, place),
    );
    let told = words("(a c)", Stop::PlannedRange, "");
    all_refused(&folder, "subtract|(a c)|- -", &told);
}

#[test]
fn keys() {
    let folder = Folder::new();
    let long = "k".repeat(1025);
    let place = "a key that is an argument has 1,024 bytes at most\n";
    let refused = |command: &str, subject: &str, place: &str| {
        let told = words(subject, Stop::Ceiling, place);
        all_refused(&folder, &format!("{command}|{long}"), &told);
    };
    refused("compare|a", "KEY", place);
    refused("prefix", "KEY", place);
    refused("contains|- -", "- -", place);
    refused("lookup|key|index.txt", "index.txt", place);
    let range = format!("[{long} -");
    let told = words(&range, Stop::Ceiling, "");
    folder.run(&["contains", &range, "a"]).fails(1, &told);
}

#[test]
fn settings() {
    let folder = Folder::new();
    let over = |subject, place| words(subject, Stop::Ceiling, place);
    let parts = "--parts is at most 64\n";
    all_refused(
        &folder,
        "select|anchors.txt|--parts|65",
        &over("anchors.txt", parts),
    );
    let told = over("image.txt, indexes.txt", parts);
    all_refused(&folder, "plan|image.txt|indexes.txt|--parts|65", &told);
    let told = over("index.txt", "--most is at most 4096\n");
    all_refused(&folder, "sample|index.txt|--data-end|1|--most|4097", &told);
}

#[test]
fn indexes() {
    let folder = Folder::new();
    folder.put(
        "down.txt",
        "index\nblock 0 a\nindex\nblock 0 c\nblock 1 b\n",
    );
    let place =
        "line 5: index 1, block 1: first key, at byte 34: it is below that of the block before\n";
    let told = words("down.txt", Stop::Order, place);
    all_refused(
        &folder,
        "make|indexes|down.txt\nplan|image.txt|down.txt|--parts|2",
        &told,
    );
    let unchecked = [
        "make",
        "indexes",
        "down.txt",
        "--unchecked",
        "-o",
        "down.bin",
    ];
    folder.run(&unchecked).prints("");
    let shown = folder.run(&["show", "indexes", "down.bin"]);
    let text = "index\n  block 0 a\nindex\n  block 0 c\n  block 1 b\n";
    assert_eq!((shown.out(), shown.status()), (text, 0));
    let place = "index 1: block count, at byte 46: the input ends inside it\n";
    let told = words("index.txt", Stop::InputEnd, place);
    all_refused(&folder, "plan|image.txt|index.txt|--parts|2", &told);
}

#[test]
fn anchors_and_plans() {
    let folder = Folder::new();
    folder.put(
        "sum.txt",
        "anchors\nanchor a 1\nanchor b 9223372036854775807\n",
    );
    let place = "line 3: anchors, anchor 1: bytes, at byte 16: with it the total reaches 2^63\n";
    let told = words("sum.txt", Stop::Size, place);
    all_refused(
        &folder,
        "select|sum.txt|--parts|2\nmake|anchors|sum.txt",
        &told,
    );
    let place = "plan: range count, at byte 0: the input ends inside it\n";
    let told = words("standard input", Stop::InputEnd, place);
    all_refused(&folder, "check|plan\nshow|plan", &told);
}
