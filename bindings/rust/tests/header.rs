//! The header says the same as `raw`, `Stop` and docs/FORMAT.md: nothing else compares them.
use bilqarush::Stop;
use std::fs;

fn repository(path: &str) -> String {
    let path = format!("{}/../../{path}", env!("CARGO_MANIFEST_DIR"));
    fs::read_to_string(&path).unwrap_or_else(|error| panic!("{path}: {error}"))
}

/// Text in which each stretch of white space is one space.
fn spaced(text: &str) -> String {
    text.split_whitespace().collect::<Vec<_>>().join(" ")
}

/// Names and parameters of the declarations that begin with some words.
fn declarations<'a>(text: &'a str, begin: &'a str) -> impl Iterator<Item = (&'a str, &'a str)> {
    let pieces = text.split(begin).skip(1);
    pieces.map(|piece| {
        let (name, rest) = piece.split_once('(').unwrap();
        (name, rest.split_once(')').unwrap().0)
    })
}

/// A parameter of C as Rust declares it.
fn in_rust(parameter: &str) -> String {
    let (kind, name) = parameter.rsplit_once([' ', '*']).unwrap();
    let pointer = parameter.contains('*');
    let (constant, kind) = match kind.trim_end_matches([' ', '*']).strip_prefix("const ") {
        Some(kind) => (true, kind),
        None => (false, kind.trim_end_matches([' ', '*'])),
    };
    let kind = match kind {
        "uint8_t" => "u8",
        "int8_t" => "i8",
        "size_t" => "usize",
        "uint64_t" => "u64",
        "double" => "f64",
        "bool" => "bool",
        other => panic!("a parameter of type {other}"),
    };
    match (pointer, constant) {
        (false, _) => format!("{name}: {kind}"),
        (true, true) => format!("{name}: *const {kind}"),
        (true, false) => format!("{name}: *mut {kind}"),
    }
}

#[test]
fn the_same_functions() {
    let header = spaced(&repository("include/bilqarush.h"));
    let raw = spaced(&repository("bindings/rust/src/raw.rs"));
    let in_header = declarations(&header, "uint8_t bilqarush_").map(|(name, parameters)| {
        let parameters: Vec<_> = parameters.split(", ").map(in_rust).collect();
        (name.to_string(), parameters.join(", "))
    });
    let in_raw = declarations(&raw, "pub fn bilqarush_").map(|(name, parameters)| {
        let parameters = parameters.trim().trim_end_matches(',');
        (name.to_string(), parameters.to_string())
    });
    let in_header: Vec<_> = in_header.collect();
    assert_eq!(in_header.len(), 33);
    assert_eq!(in_header, in_raw.collect::<Vec<_>>());
    assert_eq!(raw.matches(") -> u8;").count(), 33);
}

/// What the header defines, name and value.
fn defined(header: &str) -> impl Iterator<Item = (&str, &str)> {
    header.lines().filter_map(|line| {
        let mut words = line.strip_prefix("#define ")?.split_whitespace();
        Some((words.next()?, words.next()?))
    })
}

fn is_version(name: &str) -> bool {
    name.starts_with("BILQARUSH_VERSION")
}

#[test]
fn the_same_constants() {
    let header = repository("include/bilqarush.h");
    let raw = repository("bindings/rust/src/raw.rs");
    let in_header = defined(&header).filter(|(name, _)| !is_version(name));
    let in_raw = raw.lines().filter_map(|line| {
        let (name, rest) = line.strip_prefix("pub const ")?.split_once(": ")?;
        Some((name, rest.split_once(" = ")?.1.trim_end_matches(';')))
    });
    let in_header: Vec<_> = in_header.collect();
    assert_eq!(in_header.len(), 25);
    let is_added = |name: &str| name == "BILQARUSH_IDS_LEN";
    assert_eq!(in_header.iter().filter(|(name, _)| !is_added(name)).count(), 24);
    assert_eq!(in_header, in_raw.collect::<Vec<_>>());
}

#[test]
fn the_same_version() {
    let header = repository("include/bilqarush.h");
    let in_header: Vec<_> = defined(&header)
        .filter(|(name, _)| is_version(name))
        .collect();
    let whole = format!("{:?}", env!("CARGO_PKG_VERSION"));
    assert_eq!(
        in_header,
        [
            ("BILQARUSH_VERSION", whole.as_str()),
            ("BILQARUSH_VERSION_MAJOR", env!("CARGO_PKG_VERSION_MAJOR")),
            ("BILQARUSH_VERSION_MINOR", env!("CARGO_PKG_VERSION_MINOR")),
            ("BILQARUSH_VERSION_PATCH", env!("CARGO_PKG_VERSION_PATCH")),
        ]
    );
}

#[test]
fn the_same_words_for_stops() {
    let header = spaced(&repository("include/bilqarush.h").replace("\n *", "\n"));
    for number in 1..=16 {
        let stop = Stop::from_number(number).unwrap().to_string();
        let (_, words) = stop.split_once(": ").unwrap();
        let (first, rest) = words.split_at(1);
        let line = format!("{number} {}{rest}.", first.to_uppercase());
        assert!(header.contains(&line), "{line}");
    }
}

/// A stop's name in C: `BILQARUSH_STOP_INPUT_END` of `InputEnd`.
fn name_in_c(stop: &Stop) -> String {
    let mut name = String::from("BILQARUSH_STOP");
    for letter in stop.name().chars() {
        if letter.is_uppercase() {
            name.push('_');
        }
        name.extend(letter.to_uppercase());
    }
    name
}

/// A stop's sentence with its capital and its full stop.
fn sentence(stop: &Stop) -> String {
    let (first, rest) = stop.sentence().split_at(1);
    format!("{}{rest}.", first.to_uppercase())
}

/// What stands in a text between two others.
fn between<'a>(text: &'a str, begin: &str, end: &str) -> &'a str {
    let (_, rest) = text.split_once(begin).expect(begin);
    rest.split_once(end).expect(end).0
}

#[test]
fn the_same_names_of_stops() {
    let header = repository("include/bilqarush.h");
    let in_header: Vec<_> = between(&header, "\nenum {\n", "\n};").lines().collect();
    let in_rust = Stop::ALL
        .iter()
        .map(|stop| format!("    {} = {}", name_in_c(stop), stop.number()));
    assert_eq!(
        in_header.join("\n"),
        in_rust.collect::<Vec<_>>().join(",\n")
    );
}

#[test]
fn the_same_texts_of_stops() {
    let header = repository("include/bilqarush.h");
    let function = between(
        &header,
        "bilqarush_stop_text(uint8_t stop) {",
        "    default:",
    );
    let in_header = function.split("    case ").skip(2).map(|piece| {
        let (name, rest) = piece.split_once(':').unwrap();
        // A long literal is written in several pieces, every other one between quotation marks.
        let words: String = rest.split('"').skip(1).step_by(2).collect();
        (name.to_string(), words)
    });
    let in_rust = Stop::ALL
        .iter()
        .map(|stop| (name_in_c(stop), stop.sentence().to_string()));
    assert_eq!(in_header.collect::<Vec<_>>(), in_rust.collect::<Vec<_>>());
}

#[test]
fn the_same_list_of_stops() {
    let header = repository("include/bilqarush.h").replace("\n *", "\n");
    let listed = between(
        &header,
        "The stops, after document 01:",
        "The stops of a call are listed",
    );
    let in_rust = Stop::ALL.iter().map(|stop| {
        let never = match stop {
            Stop::RetainedRange => " (Proved never to hold, so no call returns it.)",
            _ => "",
        };
        format!("{} {}{never}", stop.number(), sentence(stop))
    });
    assert_eq!(spaced(listed), in_rust.collect::<Vec<_>>().join(" "));
}

#[test]
fn the_same_stops_in_the_format() {
    let format = repository("docs/FORMAT.md");
    let row = |stop: &Stop| {
        format!(
            "| {} | `{}` | {} |\n",
            stop.number(),
            stop.name(),
            sentence(stop)
        )
    };
    let rows: Vec<_> = Stop::ALL.iter().map(row).collect();
    for row in &rows {
        assert!(format.contains(row), "docs/FORMAT.md has no row {row}");
    }
    let (before, after) = format.split_once(&rows.concat()).expect("rows in order");
    let head = before.lines().last().unwrap();
    assert!(
        head.chars().all(|c| "|-: ".contains(c)),
        "before them: {head}"
    );
    assert!(!after.starts_with('|'), "a row after the last stop's");
}
