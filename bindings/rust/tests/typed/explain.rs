//! Where a refusal lies: for each stop some inputs, with the place in words.
use bilqarush::typed::*;
use std::ops::Bound;

/// The place of a refusal in words, after its number.
fn words(refusal: Option<Refusal>) -> String {
    let Refusal { stop, place } = refusal.expect("it is refused");
    match place {
        Some(place) => format!("{} {place}", stop.number()),
        None => stop.number().to_string(),
    }
}

fn of_image(bytes: &[u8]) -> String {
    words(explain(ImageBytes(bytes)))
}

fn of_job(bytes: &[u8]) -> String {
    words(explain(JobBytes(bytes)))
}

fn table(id: u128, first: &str, last: &str) -> Table {
    Table::new(TableId(id), first).with_last_key(last)
}

fn view(id: u128, first: &str, last: &str) -> View {
    View::new(ViewId(id), table(id, first, last))
}

fn one_run(views: impl IntoIterator<Item = View>) -> Vec<u8> {
    Image::new([Run::new(7, views)]).to_bytes().unwrap()
}

/// Run 7 with views from a to c and from d to f, of 64 bytes each from byte 7 on.
fn two_views() -> Vec<u8> {
    one_run([view(1, "a", "c"), view(2, "d", "f")])
}

fn with(mut bytes: Vec<u8>, at: usize, byte: u8) -> Vec<u8> {
    bytes[at] = byte;
    bytes
}

#[test]
fn what_is_accepted_has_no_refusal() {
    assert_eq!(explain(ImageBytes(&two_views())), None);
    assert_eq!(
        explain(JobBytes(&Job::new(7, [7]).to_bytes().unwrap())),
        None
    );
    assert_eq!(explain(IndexBytes(&[0, 0])), None);
    assert_eq!(explain(AnchorsBytes(&[0, 0])), None);
    assert_eq!(explain(RangeBytes(&[0])), None);
}

#[test]
fn layout_of_an_image() {
    assert_eq!(
        of_image(&[]),
        "1 image: run count, at byte 0: the input ends inside it"
    );
    assert_eq!(
        of_image(&[65]),
        "3 image: run count, at byte 0: it is over its ceiling"
    );
    assert_eq!(
        of_image(&[0, 0]),
        "1 image: end, at byte 1: bytes remain after the last field"
    );
    assert_eq!(
        of_image(&[1, 0, 0, 0]),
        "1 image, run 0: run id, at byte 1: the input ends inside it"
    );
    assert_eq!(
        of_image(&[1, 0, 0, 0, 7, 0x40, 0x11]),
        "3 image, run 0: view count, at byte 5: it is over its ceiling"
    );
    assert_eq!(
        of_image(&[1, 0, 0, 0, 7, 0, 1]),
        "2 image, run 0: padding, at byte 6: a bit of it is set"
    );
    assert_eq!(
        of_image(&vec![0; 65537]),
        "3 image: length, at byte 0: it is over 65,536 bytes"
    );
}

/// Each front of an image ends inside the field that begins at the place, or before the next.
#[test]
fn fronts_of_an_image() {
    let image = two_views();
    let mut before = 0;
    for length in 0..image.len() {
        let refusal = explain(ImageBytes(&image[..length])).unwrap();
        assert_eq!(refusal.stop, Stop::InputEnd);
        let offset = refusal.place.unwrap().offset;
        assert!(before <= offset && offset <= length);
        before = offset;
    }
    assert_eq!(
        of_image(&image[..80]),
        "1 image, run 0, view 1: view id, at byte 71: the input ends inside it"
    );
    assert_eq!(
        of_image(&image[..131]),
        "1 image, run 0, view 1: last key length, at byte 132: the input ends inside it"
            .replace("132", "131")
    );
}

#[test]
fn fields_of_a_view() {
    // Of view 1 the table begins at 87, its flag is at 127, its keys at 128 and 131, and its visible flag at 134.
    let image = two_views();
    assert_eq!(
        of_image(&with(image.clone(), 127, 0x81)),
        "2 image, run 0, view 1: padding, at byte 127: a bit of it is set"
    );
    assert_eq!(
        of_image(&with(image.clone(), 128, 4)),
        "3 image, run 0, view 1: first key length, at byte 128: it is over its ceiling"
    );
    assert_eq!(
        of_image(&with(image.clone(), 132, 9)),
        "1 image, run 0, view 1: last key, at byte 133: the input ends inside it"
    );
    assert_eq!(
        of_image(&with(image.clone(), 134, 0x80)),
        "1 image, run 0, view 1: start kind, at byte 135: the input ends inside it"
    );
    assert_eq!(
        of_image(&[&with(image.clone(), 134, 0x80)[..], &[0x70]].concat()),
        "2 image, run 0, view 1: end kind, at byte 135: it is 3"
    );
}

#[test]
fn checks_of_an_image() {
    let visible = |range| one_run([view(1, "a", "c"), view(2, "d", "f").with_visible(range)]);
    assert_eq!(
        of_image(&visible(Range::new("e".."e"))),
        "4 image, run 0, view 1: visible range, at byte 135: it fails non_empty"
    );
    let excluded = Range {
        start: Bound::Excluded("e"),
        end: Bound::Unbounded,
    };
    assert_eq!(
        of_image(&visible(excluded.owned())),
        "5 image, run 0, view 1: visible range, at byte 135: it starts excluded"
    );
    assert_eq!(
        of_image(&visible(Range::new("g"..))),
        "5 image, run 0, view 1: visible range, at byte 135: it does not meet its table's own range"
    );
    assert_eq!(
        of_image(&one_run([view(1, "a", "c"), view(2, "f", "d")])),
        "5 image, run 0, view 1: last key, at byte 131: it is below the first key"
    );
    assert_eq!(
        of_image(&one_run([view(2, "d", "f"), view(1, "a", "c")])),
        "6 image, run 0, view 1: effective start, at byte 71: it is below that of the view before"
    );
    let twice = Image::new([Run::new(7, [view(1, "a", "c")]), Run::new(7, [])]);
    assert_eq!(
        of_image(&twice.to_bytes().unwrap()),
        "6 image, run 1: run id, at byte 71: an earlier run has the same id"
    );
    let large = table(2, "d", "f").with_index(1 << 53, 1);
    assert_eq!(
        of_image(&one_run([view(1, "a", "c"), View::new(ViewId(2), large)])),
        "7 image, run 0, view 1: index_offset, at byte 103: index_offset + index_len exceeds 2^53"
    );
}

/// A job from run 7 to itself with one part, whose range begins at byte 10.
fn one_part(range: Range, outputs: &[Table]) -> Vec<u8> {
    let part = Part {
        outputs: outputs.to_vec(),
        ..Part::new(range)
    };
    Job::new(7, [7]).with_part(part).to_bytes().unwrap()
}

#[test]
fn a_job() {
    assert_eq!(
        of_job(&[0, 0, 0]),
        "1 job: destination, at byte 0: the input ends inside it"
    );
    assert_eq!(
        of_job(&[0, 0, 0, 7, 65]),
        "3 job: source count, at byte 4: it is over its ceiling"
    );
    assert_eq!(
        of_job(&[0, 0, 0, 7, 2, 0, 0, 0, 7, 0]),
        "1 job, source 1: source id, at byte 9: the input ends inside it"
    );
    assert_eq!(
        of_job(&[0, 0, 0, 7, 1, 0, 0, 0, 7, 65]),
        "3 job: part count, at byte 9: it is over its ceiling"
    );
    assert_eq!(
        of_job(&[0, 0, 0, 7, 1, 0, 0, 0, 7, 1, 0, 4, 1]),
        "3 job, part 0: output count, at byte 11: it is over its ceiling"
    );
    assert_eq!(
        of_job(&one_part(Range::new("c".."c"), &[])),
        "4 job, part 0: planned range, at byte 10: it fails non_empty"
    );
    assert_eq!(
        of_job(&one_part(Range::all(), &[table(1, "c", "a")])),
        "5 job, part 0, output 0: last key, at byte 57: it is below the first key"
    );
    assert_eq!(
        of_job(&one_part(
            Range::all(),
            &[table(1, "a", "c").with_index(u64::MAX, 1)]
        )),
        "7 job, part 0, output 0: index_offset, at byte 29: index_offset + index_len exceeds 2^53"
    );
    assert_eq!(
        of_job(&Job::new(7, [8, 9]).to_bytes().unwrap()),
        "8 job: destination, at byte 0: no source has this id"
    );
    assert_eq!(
        of_job(&one_part(Range::new("a"..="c"), &[])),
        "10 job, part 0: planned range, at byte 10: it ends included"
    );
    let back = Job::new(7, [7])
        .with_part(Part::new(Range::new(.."m")))
        .with_part(Part::new(Range::new("k"..)));
    assert_eq!(
        of_job(&back.to_bytes().unwrap()),
        "10 job, part 1: planned range, at byte 16: it begins before the previous part's end"
    );
}

#[test]
fn outputs_of_a_job() {
    let range = || Range::new("b".."m");
    assert_eq!(
        of_job(&one_part(range(), &[Table::new(TableId(1), "c")])),
        "11 job, part 0, output 0: last-key flag, at byte 59: there is no last key"
    );
    assert_eq!(
        of_job(&one_part(range(), &[table(1, "a", "c")])),
        "11 job, part 0, output 0: first key, at byte 60: it is below its planned range"
    );
    assert_eq!(
        of_job(&one_part(range(), &[table(1, "c", "m")])),
        "11 job, part 0, output 0: last key, at byte 63: it is above its planned range"
    );
    assert_eq!(
        of_job(&one_part(range(), &[table(1, "c", "e"), table(2, "d", "f")])),
        "11 job, part 0, output 1: first key, at byte 107: it is below the last key of its part's previous output"
    );
}

#[test]
fn a_commit() {
    let commit = |image: &[u8], job: &[u8], ids: &[u8]| {
        words(explain_commit(ImageBytes(image), JobBytes(job), ids))
    };
    let image = two_views();
    assert_eq!(
        commit(&image, &Job::new(7, [7, 9]).to_bytes().unwrap(), b""),
        "9 job, source 1: source id, at byte 9: no run of the image has it"
    );
    // Table 2 is an output, and what is durable ends before d.
    assert_eq!(
        commit(&image, &one_part(Range::all(), &[table(2, "a", "d")]), b""),
        "12 image, run 0, view 1: view, at byte 71: its table is an output, and it shows a key that is in no durable \
         interval"
    );
    assert_eq!(
        commit(&image, &one_part(Range::all(), &[table(3, "a", "b")]), b""),
        "14"
    );
    // Table 1 lies in the second interval, table 2 in none.
    let first = Part::new(Range::new(.."B")).complete();
    let second = Part::new(Range::new("a".."e"))
        .with_output(table(1, "a", "c"))
        .with_output(table(2, "d", "d"));
    let job = Job::new(7, [7])
        .with_part(first)
        .with_part(second)
        .to_bytes()
        .unwrap();
    assert!(commit(&image, &job, b"").starts_with("12 image, run 0, view 1: view, at byte 71"));
    // What is wrong with the image comes before what is wrong with the job, check by check.
    let late = one_run([view(2, "d", "f"), view(1, "a", "c")]);
    assert_eq!(
        commit(&late, &one_part(Range::new("c".."c"), &[]), b""),
        "4 job, part 0: planned range, at byte 10: it fails non_empty"
    );
    assert_eq!(
        commit(&late, &Job::new(7, []).to_bytes().unwrap(), b""),
        "6 image, run 0, view 1: effective start, at byte 71: it is below that of the view before"
    );
}

#[test]
fn an_index_anchors_and_a_range() {
    let index = Index::new([(0, "a"), (10, "c"), (20, "b")])
        .to_bytes()
        .unwrap();
    assert_eq!(
        words(explain(IndexBytes(&index))),
        "6 index 0, block 2: first key, at byte 32: it is below that of the block before"
    );
    assert_eq!(
        words(explain(IndexBytes(&index[..20]))),
        "1 index 0, block 1: offset, at byte 13: the input ends inside it"
    );
    let two = [&[0, 0][..], &index].concat();
    assert_eq!(
        words(explain(IndexesBytes(&two))),
        "6 index 1, block 2: first key, at byte 34: it is below that of the block before"
    );
    assert_eq!(
        words(explain(IndexesBytes(&[&two[..], &[0]].concat()))),
        "1 index 2: block count, at byte 37: the input ends inside it"
    );
    let anchors = Anchors::new([("a", 1 << 62), ("b", 1 << 62)])
        .to_bytes()
        .unwrap();
    assert_eq!(
        words(explain(AnchorsBytes(&anchors))),
        "7 anchors, anchor 1: bytes, at byte 16: with it the total reaches 2^63"
    );
    assert_eq!(
        words(explain(RangeBytes(&[0xC0]))),
        "2 range: start kind, at byte 0: it is 3"
    );
    assert_eq!(
        words(explain(RangeBytes(
            &Range::new("b".."a").to_bytes().unwrap()
        ))),
        "4 range: bounds, at byte 0: it fails non_empty"
    );
}

#[test]
fn a_plan() {
    let plan = |parts, image: &[u8], indexes: &[u8]| {
        words(explain_plan(
            parts,
            ImageBytes(image),
            IndexesBytes(indexes),
        ))
    };
    let image = two_views();
    assert_eq!(plan(65, &image, &[]), "3");
    assert_eq!(
        plan(2, &image, &[0, 0]),
        "1 index 1: block count, at byte 2: the input ends inside it"
    );
    let one = Index::new([(0, "a")]).to_bytes().unwrap();
    let two = Index::new([(0, "e"), (9, "d")]).to_bytes().unwrap();
    assert_eq!(
        plan(2, &image, &[one, two].concat()),
        "6 index 1, block 1: first key, at byte 34: it is below that of the block before"
    );
}

#[test]
fn in_words() {
    let refusal = explain(ImageBytes(&[65])).unwrap();
    assert_eq!(
        refusal.to_string(),
        "stop 3: a length, count or setting exceeds its ceiling, or a prefix and suffix join to over 1,024 bytes\n\
         image: run count, at byte 0: it is over its ceiling"
    );
    assert_eq!(Stop::from(refusal), Stop::Ceiling);
}
