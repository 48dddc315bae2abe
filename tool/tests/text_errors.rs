//! Texts that are no text form: the line, and what was expected there.
mod common;

use bilqarush_tool::kind::{Kind, Unmade};
use bilqarush_tool::text::write;
use common::random::Random;
use common::Folder;

/// What stands for longer words in the rows below.
const SHORT: &[(&str, &str)] = &[
    ("<key>", "a key (bare, \"quoted\" or 0x..) was expected"),
    (
        "<id>",
        "an id (1 to 16 or 32 hexadecimal digits, or a ULID of 26 characters) was expected",
    ),
    (
        "<range>",
        "a range such as [a c), (a c], [a - or - c) was expected",
    ),
    (
        "<number>",
        "a number (0 to 18446744073709551615) was expected",
    ),
    ("<run>", "a run id (0 to 4294967295) was expected"),
    ("<end>", "the end of the line was expected"),
    ("<or end>", "or the end of the text was expected"),
];

#[track_caller]
fn fails(kind: Kind, text: &str, message: &str) {
    match kind.bytes_of(text.as_bytes()) {
        Err(Unmade::Text(error)) => assert_eq!(error.to_string(), message, "{text}"),
        other => panic!("{other:?} of {text}"),
    }
}

/// Rows of a kind, a text with `/` for a new line, and the message.
#[track_caller]
fn all_fail(rows: &str) {
    for row in rows.trim().lines() {
        let fields: Vec<_> = row.trim().split(" | ").collect();
        let [kind, text, message] = fields[..] else {
            panic!("{row}");
        };
        let message = SHORT
            .iter()
            .fold(message.to_string(), |message, (short, long)| {
                message.replace(short, long)
            });
        fails(
            Kind::named(kind).unwrap(),
            &text.replace('/', "\n"),
            &message,
        );
    }
}

#[test]
fn heads() {
    fails(
        Kind::Image,
        "",
        "line 1: the word image was expected, but the text ends",
    );
    all_fail(
        "
        image | /# nothing/ | line 3: the word image was expected, but the text ends
        image | /job | line 2: the word image was expected, not job
        image | image of | line 1: <end>, not of
        image | image/view 1 | line 2: a line with run <or end>, not view
        image | image/run 1/runs | line 3: a line with view or run <or end>, not runs
        job | job | line 1: the word destination was expected, but the line ends
        job | job destination 7 8 | line 1: the word sources was expected, not 8
        job | job destination 7 sources/output | line 2: a line with part <or end>, not output
        index | index/index | line 2: a line with block <or end>, not index
        indexes | block 1 a | line 1: a line with index <or end>, not block
        range | -  -/- - | line 2: a comment <or end>, not -
        range | # | line 1: <range>, but the text ends
        ",
    );
}

#[test]
fn numbers_and_ids() {
    all_fail(
        "
        image | image/run x | line 2: <run>, not x
        image | image/run -1 | line 2: <run>, not -1
        image | image/run +1 | line 2: <run>, not +1
        image | image/run 4294967296 | line 2: <run>, not 4294967296
        image | image/run 0x7 | line 2: <run>, not 0x7
        image | image/run | line 2: <run>, but the line ends
        image | image/run 1 2 | line 2: <end>, not 2
        job | job destination 7 sources 7 x | line 1: <run>, not x
        index | index/block 18446744073709551616 a | line 2: <number>, not 18446744073709551616
        image | image/run 1/view g | line 3: <id>, not g
        image | image/run 1/view 0x1 | line 3: <id>, not 0x1
        image | image/run 1/view - | line 3: <id>, not -
        image | image/run 1/view 11111111111111111 | line 3: <id>, not 11111111111111111
        image | image/run 1/view 81ARZ3NDEKTSV4RRFFQ69G5FAV | line 3: <id>, not 81ARZ3NDEKTSV4RRFFQ69G5FAV
        image | image/run 1/view 01ARZ3NDEKTSV4RRFFQ69G5FAU | line 3: <id>, not 01ARZ3NDEKTSV4RRFFQ69G5FAU
        ",
    );
}

#[test]
fn keys() {
    for word in [
        "-", "0x6", "0xgg", "a,b", "a\"b\"", "\"a\\b\"", "\"\"\"\"", "[a",
    ] {
        let message = format!("line 2: {}, not {word}", SHORT[0].1);
        fails(
            Kind::Anchors,
            &format!("anchors\nanchor {word} 1"),
            &message,
        );
    }
    all_fail(
        "
        anchors | anchors/anchor # a 1 | line 2: <key>, but the line ends
        anchors | anchors/anchor \"a 1 | line 2: a \" was expected that ends the quoted key
        anchors | anchors/anchor é 1 | line 2: printable ASCII was expected, not \"é\": other bytes of a key are written \
            as 0x and hexadecimal digits
        ",
    );
    let long = "k".repeat(1025);
    let message = "line 2: a key of at most 1024 bytes was expected, not one of 1025";
    fails(Kind::Anchors, &format!("anchors\nanchor {long} 1"), message);
    fails(Kind::Plan, &format!("plan\nrange - {long})"), message);
}

#[test]
fn ranges() {
    let words = [
        "a c", "[a c", "a c)", "[- c)", "- ]", "[a]", "[a c)d", "[] -", "( -", "[a",
    ];
    for range in words {
        let first = range.split(' ').next().unwrap();
        let message = format!("line 2: {}, not {first}", SHORT[2].1);
        fails(Kind::Plan, &format!("plan\nrange {range}"), &message);
    }
    all_fail("plan | plan/range - - -) | line 2: <end>, not -)");
}

#[test]
fn lines_with_several_fields() {
    let order = "index, filter and visible in this order, or <end>";
    let rows = "
        image | image/run 1/view 1 1 a z | line 3: the word table was expected, not 1
        image | image/run 1/view 1 table 1 a | line 3: <key>, but the line ends
        image | image/run 1/view 1 table 1 a z x | line 3: <order>, not x
        image | image/run 1/view 1 table 1 a z filter 1 index 1 2 | line 3: <order>, not index
        image | image/run 1/view 1 table 1 a z index 1 | line 3: <number>, but the line ends
        image | image/run 1/view 1 table 1 a z visible | line 3: <range>, but the line ends
        image | image/run 1/view 1 table 1 a z visible - - - | line 3: <end>, not -
        job | job destination 7 sources/part - - done | line 2: completed or unfinished was expected, not done
        job | job destination 7 sources/part - - completed/output 1 a z visible - - | line 3: index and filter in this \
            order, or <end>, not visible
        ";
    all_fail(&rows.replace("<order>", order));
}

/// A kind, the text before the lines of which there are too many, such a line, how many may be, and their name.
const CEILINGS: &str = "
    image | image | run 1 | 64 | runs
    image | image/run 1 | view 1 table 1 a - | 1024 | views of a run
    job | job destination 1 sources | part - - completed | 64 | parts
    job | job destination 1 sources/part - - completed | output 1 a z | 1024 | outputs of a part
    index | index | block 1 a | 65535 | blocks
    anchors | anchors | anchor a 1 | 4096 | anchors
    plan | plan | range - - | 64 | ranges
";

#[test]
fn ceilings() {
    for row in CEILINGS.trim().lines() {
        let fields: Vec<_> = row.trim().split(" | ").collect();
        let [kind, head, line, most, what] = fields[..] else {
            panic!("{row}");
        };
        let lines = format!("{line}\n").repeat(most.parse::<usize>().unwrap() + 1);
        let text = format!("{}\n{lines}", head.replace('/', "\n"));
        let last = text.lines().count();
        let message = format!("line {last}: at most {most} {what} were expected");
        fails(Kind::named(kind).unwrap(), &text, &message);
    }
    let sources = format!("job destination 1 sources{}", " 1".repeat(65));
    let message = "line 1: at most 64 sources were expected";
    fails(Kind::Job, &sources, message);
}

#[test]
fn as_a_process() {
    let folder = Folder::new();
    folder.put("bad.txt", "image\n  run x\n");
    let message = "bilqarush: bad.txt: line 2: a run id (0 to 4294967295) was expected, not x\n";
    folder.run(&["make", "image", "bad.txt"]).fails(2, message);
    folder.run(&["list", "bad.txt"]).fails(2, message);
    folder
        .run(&["commit", "bad.txt", "half_way.txt"])
        .fails(2, message);
    let message = message.replace("bad.txt", "standard input");
    let check = folder.run_on(&["check", "image", "--text"], b"image\nrun x");
    check.fails(2, &message);
}

/// Damaged texts are read or refused, and never end the tool in another way.
#[test]
fn damaged_texts() {
    const PIECES: &[&str] = &[
        "",
        " ",
        "\n",
        "\"",
        "#",
        "-",
        "0x",
        "[",
        ")",
        "view",
        "run 1\n",
        "é",
        "\0",
        "99999999999999999999",
    ];
    for seed in 1..=4_000 {
        let mut random = Random::new(seed);
        let mut text = write::image(&random.image()).into_bytes();
        text.extend(write::job(&random.job()).into_bytes());
        let from = random.below(text.len());
        let to = from + random.below(text.len() - from).min(8);
        let piece = PIECES[random.below(PIECES.len())];
        text.splice(from..to, piece.bytes());
        for kind in Kind::ALL {
            let _ = kind.bytes_of(&text);
        }
    }
}
