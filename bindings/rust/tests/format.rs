//! docs/FORMAT.md is true: its worked examples are given to the proved calls, and its tables of ceilings, lengths and stops are
//! held to the header and to the lists that are proved.
use std::collections::{BTreeMap, BTreeSet};
use std::fs;

fn repository(path: &str) -> String {
    let path = format!("{}/../../{path}", env!("CARGO_MANIFEST_DIR"));
    fs::read_to_string(&path).unwrap_or_else(|error| panic!("{path}: {error}"))
}

fn page() -> String {
    repository("docs/FORMAT.md")
}

/// The lines of the one block of this kind and name.
fn block(kind: &str, name: &str) -> Vec<String> {
    let page = page();
    let fence = format!("```{kind} {name}");
    let mut found = page.split("\n").skip_while(|line| **line != fence);
    assert!(found.next().is_some(), "no block {fence}");
    let lines = found.clone().take_while(|line| *line != "```");
    assert!(!found.any(|line| line == fence), "two blocks {fence}");
    lines.map(str::to_string).collect()
}

/// The bytes of an example: in each line the offset, the bytes and the field.
fn bytes(name: &str) -> Vec<u8> {
    let mut bytes = vec![];
    for line in block("hex", name) {
        let (offset, rest) = line.split_once(": ").unwrap();
        let (row, field) = rest.split_once(" # ").unwrap();
        assert_eq!(offset.trim().parse(), Ok(bytes.len()), "{name}: {line}");
        assert!(!field.is_empty(), "{name}: {line}");
        let row = row.split_whitespace();
        bytes.extend(row.map(|byte| {
            assert_eq!(byte.len(), 2, "{name}: {line}");
            u8::from_str_radix(byte, 16).unwrap()
        }));
    }
    bytes
}

fn text(name: &str) -> Vec<u8> {
    let lines = block("text", name).into_iter();
    lines
        .flat_map(|line| line.into_bytes().into_iter().chain([b'\n']))
        .collect()
}

/// The bytes with another one at a place.
fn changed(bytes: &[u8], place: usize, byte: u8) -> Vec<u8> {
    let mut bytes = bytes.to_vec();
    assert_ne!(bytes[place], byte);
    bytes[place] = byte;
    bytes
}

// ---- the worked examples

#[test]
fn a_range() {
    let (range, other) = (bytes("range"), bytes("other-range"));
    assert_eq!(calls::contains(&range, b"a"), Ok(true));
    assert_eq!(calls::contains(&range, b"l\xff"), Ok(true));
    assert_eq!(calls::contains(&range, b"m"), Ok(false));
    assert_eq!(calls::intersect(&range, &other), Ok(bytes("intersection")));
}

#[test]
fn an_image() {
    let image = bytes("image");
    assert!(page().contains(&format!("accepts these {} bytes", image.len())));
    assert_eq!(calls::check_image(&image), Ok(()));
    assert_eq!(calls::list(&image), Ok(text("listing")));
    let range = calls::compacted_effective_range(&image, 0, 0);
    assert_eq!(range, Ok(bytes("effective-range")));
    assert_eq!(calls::check_image(&image[..image.len() - 1]), Err(1));
    assert_eq!(calls::check_image(&[&image[..], &[0]].concat()), Err(1));
}

#[test]
fn a_change_in_an_image() {
    let (image, page) = (bytes("image"), page());
    let changes: Vec<_> = page
        .lines()
        .filter_map(|line| line.strip_prefix("| byte "))
        .collect();
    assert_eq!(changes.len(), 6);
    for change in changes {
        let (place, rest) = change.split_once(" is `").unwrap();
        let (byte, rest) = rest.split_once('`').unwrap();
        let stop = rest.trim_end_matches(" |").rsplit(' ').next().unwrap();
        let byte = u8::from_str_radix(byte, 16).unwrap();
        let image = changed(&image, place.parse().unwrap(), byte);
        assert_eq!(
            calls::check_image(&image),
            Err(stop.parse().unwrap()),
            "{change}"
        );
    }
}

#[test]
fn a_job() {
    let (image, job, ids) = (bytes("image"), bytes("job"), bytes("ids"));
    assert_eq!(calls::from_compaction(&job), Ok(bytes("durable")));
    let committed = calls::commit(&image, &job, &ids).unwrap();
    assert_eq!(committed, bytes("committed-image"));
    assert_eq!(calls::list(&committed), Ok(text("committed")));
    assert_eq!(calls::commit(&image, &job, &ids[..ids.len() - 1]), Err(14));
}

#[test]
fn an_index() {
    let index = bytes("index");
    assert_eq!(calls::partition_point(&index, false, b"c"), Ok(1));
    assert_eq!(calls::partition_point(&index, true, b"c"), Ok(2));
    let descending = changed(&index, 34, 0x62);
    assert_eq!(calls::partition_point(&descending, false, b"c"), Err(6));
}

#[test]
fn anchors() {
    let anchors = bytes("anchors");
    let sampled = calls::sample_anchors(4096, 10000, &bytes("index"), &[0]);
    assert_eq!(sampled.as_ref(), Ok(&anchors));
    assert_eq!(calls::select_boundaries(2, 0, &anchors), Ok(bytes("plan")));
}

#[test]
fn indexes_of_a_plan() {
    let plan = calls::plan_subcompaction_ranges(2, &bytes("image"), &bytes("indexes"));
    assert_eq!(plan, Ok(bytes("planned")));
}

/// The nine heads of a range, and no other byte, are taken.
#[test]
fn heads_of_a_range() {
    let page = page();
    let kinds = ["unbounded", "included", "excluded"];
    let mut heads = BTreeSet::new();
    for line in page.lines().filter(|line| line.starts_with("| `")) {
        let cells: Vec<_> = line.split('|').map(str::trim).collect();
        let Some(start) = kinds.iter().position(|kind| *kind == cells[2]) else {
            continue;
        };
        let end = kinds.iter().position(|kind| *kind == cells[3]).unwrap();
        let head = u8::from_str_radix(cells[1].trim_matches('`'), 16).unwrap();
        assert_eq!(usize::from(head), start * 64 + end * 16, "{line}");
        let keys = ["none", "end", "start", "start, end"];
        let follow = usize::from(start > 0) * 2 + usize::from(end > 0);
        assert_eq!(cells[4], keys[follow], "{line}");
        heads.insert(head);
    }
    assert_eq!(heads.len(), 9);
    for head in 0..=255 {
        let bounded = [head >> 6, head >> 4 & 3]
            .iter()
            .filter(|kind| **kind > 0)
            .count();
        let range = [vec![head], [0, 1, b'k'].repeat(bounded)].concat();
        let taken = calls::contains(&range, b"k").err() != Some(2);
        assert_eq!(taken, heads.contains(&head), "{head:02x}");
    }
}

// ---- the tables

/// Each name of the header that has a number in a row of the page has that number.
#[test]
fn ceilings_and_lengths() {
    let header = repository("include/bilqarush.h");
    let defined: BTreeMap<_, _> = header
        .lines()
        .filter_map(|line| {
            let mut words = line.strip_prefix("#define ")?.split_whitespace();
            Some((words.next()?, words.next()?.parse::<usize>().ok()?))
        })
        .collect();
    let page = page();
    let mut seen = BTreeSet::new();
    for line in page.lines().filter(|line| line.contains("`BILQARUSH_")) {
        let (before, name) = line.split_once("`BILQARUSH_").unwrap();
        let name = format!("BILQARUSH_{}", name.split_once('`').unwrap().0);
        let number = before
            .rsplit([' ', '|'])
            .find(|word| !word.is_empty())
            .unwrap();
        assert_eq!(defined.get(&*name), number.parse().ok().as_ref(), "{line}");
        seen.insert(name);
    }
    let ceilings = defined
        .keys()
        .filter(|name| name.contains("_MAX_") || name.ends_with("_LEN"));
    let ceilings: Vec<_> = ceilings.copied().collect();
    assert_eq!(ceilings.len(), 20);
    for name in ceilings {
        assert!(seen.contains(name), "no row has {name}");
    }
}

/// The stops of each call are those of the proved lists, and 16 for each call that has `out`.
#[test]
fn stops_of_each_call() {
    let proved = repository("crates/stop_lists/specs/Stops.antt");
    let lists: BTreeMap<_, BTreeSet<u8>> = proved
        .lines()
        .filter_map(|line| {
            let (name, list) = line.split_once(" = ")?;
            let numbers = list.strip_suffix(" ∷ []")?.split(" ∷ ");
            Some((
                name,
                numbers.map(|number| number.parse().unwrap()).collect(),
            ))
        })
        .collect();
    let fields = proved.split("pub record OfEachCall").nth(1).unwrap();
    let fields = fields
        .split("\n--")
        .next()
        .unwrap()
        .split("\n  pub ")
        .skip(1);
    let mut expected: BTreeMap<String, BTreeSet<u8>> = fields
        .map(|field| {
            let name = field.split_once(" :").unwrap().0.to_string();
            let list = field.split_once("Says _ ").unwrap().1;
            (name, lists[list.split_once(' ').unwrap().0].clone())
        })
        .collect();
    let header = repository("include/bilqarush.h");
    let declared = header.split("\nuint8_t bilqarush_").skip(1);
    let declared: Vec<_> = declared
        .map(|text| text.split_once(");").unwrap().0)
        .collect();
    assert_eq!(declared.len(), 33);
    for call in declared {
        let (name, parameters) = call.split_once('(').unwrap();
        let stops = expected
            .get_mut(name)
            .unwrap_or_else(|| panic!("no list of {name}"));
        if parameters.contains("*out,") {
            stops.insert(16);
        }
    }
    let page = page();
    let table = page.split("| calls | stops |").nth(1).unwrap();
    let rows = table
        .lines()
        .skip(2)
        .take_while(|line| line.starts_with('|'));
    let mut said = BTreeMap::new();
    for row in rows {
        let cells: Vec<_> = row.split('|').map(str::trim).collect();
        let stops: BTreeSet<u8> = cells[2]
            .split(", ")
            .map(|stop| stop.parse().unwrap())
            .collect();
        for call in cells[1].split(", ") {
            said.insert(call.trim_matches('`').to_string(), stops.clone());
        }
    }
    assert_eq!(said, expected);
}

/// The calls, as the C interface has them: an answer, or the number of the stop.
mod calls {
    use bilqarush::raw;

    fn told<T>(stop: u8, answer: T) -> Result<T, u8> {
        if stop == 0 {
            Ok(answer)
        } else {
            Err(stop)
        }
    }

    /// Lends a long buffer to a call, and answers what it wrote.
    fn written(call: impl FnOnce(*mut u8, usize, *mut usize) -> u8) -> Result<Vec<u8>, u8> {
        let mut out = vec![0; raw::BILQARUSH_LISTING_LEN];
        let mut length = 0;
        let stop = call(out.as_mut_ptr(), out.len(), &mut length);
        out.truncate(length);
        told(stop, out)
    }

    // SAFETY, of each call: the slices are lent whole, and what is written is borrowed alone.

    pub fn contains(range: &[u8], key: &[u8]) -> Result<bool, u8> {
        let mut is = false;
        let (r, r_len, k, k_len) = (range.as_ptr(), range.len(), key.as_ptr(), key.len());
        let stop = unsafe { raw::bilqarush_contains(r, r_len, k, k_len, &mut is) };
        told(stop, is)
    }

    pub fn intersect(a: &[u8], b: &[u8]) -> Result<Vec<u8>, u8> {
        written(|out, room, length| unsafe {
            raw::bilqarush_intersect(a.as_ptr(), a.len(), b.as_ptr(), b.len(), out, room, length)
        })
    }

    pub fn check_image(image: &[u8]) -> Result<(), u8> {
        let stop = unsafe { raw::bilqarush_check_image(image.as_ptr(), image.len()) };
        told(stop, ())
    }

    pub fn list(image: &[u8]) -> Result<Vec<u8>, u8> {
        written(|out, room, length| unsafe {
            raw::bilqarush_list(image.as_ptr(), image.len(), out, room, length)
        })
    }

    pub fn compacted_effective_range(image: &[u8], run: usize, view: usize) -> Result<Vec<u8>, u8> {
        let (i, i_len) = (image.as_ptr(), image.len());
        written(|out, room, length| unsafe {
            raw::bilqarush_compacted_effective_range(i, i_len, run, view, out, room, length)
        })
    }

    pub fn from_compaction(job: &[u8]) -> Result<Vec<u8>, u8> {
        written(|out, room, length| unsafe {
            raw::bilqarush_from_compaction(job.as_ptr(), job.len(), out, room, length)
        })
    }

    pub fn commit(image: &[u8], job: &[u8], ids: &[u8]) -> Result<Vec<u8>, u8> {
        let (i, i_len, j, j_len) = (image.as_ptr(), image.len(), job.as_ptr(), job.len());
        let (s, s_len) = (ids.as_ptr(), ids.len());
        written(|out, room, length| unsafe {
            raw::bilqarush_commit(i, i_len, j, j_len, s, s_len, out, room, length)
        })
    }

    pub fn partition_point(index: &[u8], at_or_below: bool, key: &[u8]) -> Result<usize, u8> {
        let mut count = 0;
        let (i, i_len, k, k_len) = (index.as_ptr(), index.len(), key.as_ptr(), key.len());
        let stop =
            unsafe { raw::bilqarush_partition_point(i, i_len, at_or_below, k, k_len, &mut count) };
        told(stop, count)
    }

    pub fn sample_anchors(
        most: usize,
        data_end: u64,
        index: &[u8],
        range: &[u8],
    ) -> Result<Vec<u8>, u8> {
        let (i, i_len, r, r_len) = (index.as_ptr(), index.len(), range.as_ptr(), range.len());
        written(|out, room, length| unsafe {
            raw::bilqarush_sample_anchors(most, data_end, i, i_len, r, r_len, out, room, length)
        })
    }

    pub fn select_boundaries(parts: usize, least: u64, anchors: &[u8]) -> Result<Vec<u8>, u8> {
        let (a, a_len) = (anchors.as_ptr(), anchors.len());
        written(|out, room, length| unsafe {
            raw::bilqarush_select_boundaries(parts, least, a, a_len, out, room, length)
        })
    }

    pub fn plan_subcompaction_ranges(
        parts: usize,
        image: &[u8],
        indexes: &[u8],
    ) -> Result<Vec<u8>, u8> {
        let (i, i_len, x, x_len) = (image.as_ptr(), image.len(), indexes.as_ptr(), indexes.len());
        written(|out, room, length| unsafe {
            raw::bilqarush_plan_subcompaction_ranges(parts, i, i_len, x, x_len, out, room, length)
        })
    }
}
