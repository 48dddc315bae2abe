//! Commits at the ceilings.
use super::faults::sound;
use super::{two_runs, Inputs, Model};
use crate::answers::commits::{whole, Case};
use crate::checks::{Stop, BUFFER_CEILING, KEY_CEILING};
use crate::inputs::{
    before, from, from_to, image, included, part, run, since, table, tables, until, view,
    write_job, EVERYTHING,
};
use crate::{Bound, Key, Part, Range, Run, View};

/// So many views of 61 bytes that start at z.
fn many_views(count: usize) -> Vec<View> {
    vec![view(5, b"z", None, None); count]
}

pub fn ceilings(out: &mut Inputs) {
    // A run that gets 1,023, 1,024 or 1,025 views: an output comes to the destination.
    let one = part(before(b"b"), true, &tables(20, &[(b"a", b"a")]));
    for (count, stop) in [(1_022, 0), (1_023, 0), (1_024, 15)] {
        let model = two_runs(&many_views(count), &[], &[one.clone()]);
        let case = model.case(&mut out.chance, 0);
        assert_eq!(out.put(&case), stop);
        // 15 comes before 16.
        let short = Case {
            room: case.room - 1,
            ..case
        };
        assert_eq!(out.put(&short), if stop == 0 { 16 } else { stop });
    }
    out_of_views(out);
    full_images(out);
    many_parts(out);
    long_keys(out);
    full_jobs(out);
}

/// Views that are split, in the destination and in another source.
fn out_of_views(out: &mut Inputs) {
    let gap = part(from_to(b"c", b"d"), true, &[]);
    for (count, stop) in [(1_022, 0), (1_023, 15)] {
        let nine = [vec![view(3, b"a", None, None)], many_views(count)].concat();
        let model = two_runs(&[], &nine, &[gap.clone()]);
        let case = model.case(&mut out.chance, 0);
        assert_eq!(out.put(&case), stop);
        // 14 comes before 15.
        let short = Case {
            ids: case.ids[..10].to_vec(),
            ..case
        };
        assert_eq!(out.put(&short), 14);
        let model = two_runs(&nine, &[], &[gap.clone()]);
        let case = model.case(&mut out.chance, 0);
        assert_eq!(out.put(&case), stop);
    }
    // 300 views are split and 424 are not; in the destination the pieces are sorted.
    for (whole, stop) in [(424, 0), (425, 15)] {
        let views = [vec![view(3, b"", None, None); 300], many_views(whole)].concat();
        for model in [
            two_runs(&views, &[], &[gap.clone()]),
            two_runs(&[], &views, &[gap.clone()]),
        ] {
            let mut case = model.case(&mut out.chance, 0);
            // Equal bytes keep the file small.
            case.ids = b"0123456789".repeat(600);
            assert_eq!(out.put(&case), stop);
            if stop == 0 {
                case.ids.truncate(5_999);
                assert_eq!(out.put(&case), 14);
            }
        }
    }
    // 1,024 views from the outputs of one part; 1,025 from those of two parts.
    let outputs = vec![table(20, b"", Some(b"")); 1_024];
    let all = part(before(b"\0"), true, &outputs);
    let model = two_runs(&[view(1, b"", None, None)], &[], &[all.clone()]);
    let case = model.case(&mut out.chance, 0);
    assert_eq!(out.put(&case), 15);
    let model = two_runs(&[view(1, b"", Some(b""), None)], &[], &[all]);
    let case = model.case(&mut out.chance, 0);
    out.put_around(&case);
    for (count, stop) in [(511, 0), (512, 15)] {
        let first = part(before(b"\0"), true, &outputs[..513]);
        let more = vec![table(21, b"\0", Some(b"\0")); count];
        let model = two_runs(&[], &[], &[first, part(from(b"\0"), true, &more)]);
        let case = model.case(&mut out.chance, 0);
        assert_eq!(out.put(&case), stop);
    }
    // 1,024 outputs that all end at the last written key: all cut, or all left out.
    let outputs = vec![table(20, b"", Some(b"a")); 2];
    let mut outputs = [outputs, vec![table(21, b"a", Some(b"a")); 1_022]].concat();
    outputs[1] = outputs[2].clone();
    let model = two_runs(&[], &[], &[part(EVERYTHING, false, &outputs)]);
    let case = model.case(&mut out.chance, 0);
    out.put_around(&case);
    let model = two_runs(&[], &[], &[part(from(b"a"), false, &outputs[1..])]);
    let case = model.case(&mut out.chance, 0);
    out.good(&case);
    let mut model = two_runs(&[], &[], &[part(EVERYTHING, false, &outputs)]);
    model.job.parts[0].outputs.push(outputs[2].clone());
    let mut case = model.case(&mut out.chance, 0);
    assert_eq!(out.put(&case), 3);
    case.job.truncate(200);
    assert_eq!(out.put(&case), 3);
}

/// Images of 65,536 bytes, before and after.
fn full_images(out: &mut Inputs) {
    // Run 8 is as long as it must be for the new image to have this length.
    for (length, stop) in [
        (BUFFER_CEILING - 1, 0),
        (BUFFER_CEILING, 0),
        (BUFFER_CEILING + 1, 15),
        (BUFFER_CEILING + 196, 15),
    ] {
        let mut model = sound();
        let long = view(6, &[b'q'; 1_000], None, None);
        model.runs[0].views.extend(vec![long; 60]);
        let usual = model.case(&mut out.chance, 0);
        let more = length - usual.room;
        let last = model.runs[0].views.last_mut().unwrap();
        last.table.last = Some(vec![b'r'; more.min(1_000) - 2]);
        let before = &mut model.runs[0].views[1];
        if more > 1_000 {
            before.table.last = Some(vec![b'r'; more - 1_002]);
        }
        let mut case = model.case(&mut out.chance, 0);
        assert!(
            case.image.len() <= BUFFER_CEILING,
            "{} {length}",
            case.image.len()
        );
        assert_eq!(case.room, length);
        assert_eq!(out.put(&case), stop);
        if stop == 0 {
            out.put_around(&case);
        } else {
            case.ids.truncate(20);
            assert_eq!(out.put(&case), 14);
            case.room = 0;
            assert_eq!(out.put(&case), 14);
        }
    }
    // The image given is full: nothing changes, it gets longer, it gets shorter.
    let mut views = vec![view(1, b"abcdefghij", None, until(b"klmnopqr")); 809];
    let full = image(&[run(7, &views)]);
    assert_eq!(full.len(), BUFFER_CEILING);
    let cases = [
        (from_to(b"k", b"l"), 15),
        (before(b"a"), 0),
        (from(b"z"), 0),
        (EVERYTHING, 0),
        (from(b"l"), 0),
        (from(b"klmnopqr"), 15),
        (before(b"c"), 15),
    ];
    for (range, stop) in cases {
        let model = Model::new(&[run(7, &views)], 7, &[7], &[part(range, true, &[])]);
        let mut case = model.case(&mut out.chance, 0);
        if !case.ids.is_empty() {
            case.ids = b"9876543210".repeat(case.ids.len() / 10);
        }
        assert_eq!(out.put(&case), stop);
    }
    // A byte more.
    views[808].table.first.push(b'x');
    let model = Model::new(&[run(7, &views)], 7, &[7], &[]);
    let mut case = model.case(&mut out.chance, 0);
    assert_eq!(out.put(&case), 3);
    case.job.clear();
    assert_eq!(out.put(&case), 3);
}

/// 64 and 65 sources and parts.
fn many_parts(out: &mut Inputs) {
    cut_in_each_run(out);
    with_gaps(out);
}

/// Each run has a view that is cut, and draws in the order of the image.
fn cut_in_each_run(out: &mut Inputs) {
    for count in [63, 64, 65u32] {
        let runs: Vec<Run> = (0..count.min(64))
            .map(|id| run(id * 5 % 64, &[view(id as u8, b"a", None, None)]))
            .collect();
        let mut sources: Vec<u32> = (0..count as usize)
            .map(|place| runs[place * 11 % runs.len()].id)
            .collect();
        let mut parts = vec![part(before(b"m"), false, &tables(200, &[(b"b", b"c")]))];
        let model = Model::new(&runs, 33, &sources, &parts);
        let case = model.case(&mut out.chance, 10);
        if count < 65 {
            out.put_around(&case);
        } else {
            assert_eq!(out.put(&case), 3);
        }
        // One run that is no source, and another that is one twice.
        sources.truncate(64);
        sources[1] = sources[2];
        parts.push(part(from(b"n"), true, &[]));
        let model = Model::new(&runs, 33, &sources, &parts);
        let case = model.case(&mut out.chance, 10);
        assert_eq!(out.put(&case), 0);
        // All sources the same, and one that is not there at the end.
        let mut sources = vec![33; 64];
        let case = Model::new(&runs, 33, &sources, &parts).case(&mut out.chance, 0);
        out.good(&case);
        sources[63] = 64;
        let case = Model::new(&runs, 33, &sources, &parts).case(&mut out.chance, 0);
        assert_eq!(out.put(&case), 9);
        sources = vec![34; 64];
        sources[63] = 33;
        let case = Model::new(&runs, 33, &sources, &parts).case(&mut out.chance, 0);
        out.good(&case);
    }
}

/// 64 runs. The destination, at the first place, inside or at the last, has a view of the unfinished
/// part's output, which is written up to c: with c in it the view holds a key that is not durable
/// (12), and without c it is replaced. In another run, a source or not, any view of the output may
/// stand.
pub fn uncovered_among_runs(out: &mut Inputs) {
    let outputs = tables(200, &[(b"b", b"c")]);
    let parts = [
        part(before(b"m"), false, &outputs),
        part(from(b"m"), true, &tables(201, &[(b"n", b"p")])),
    ];
    let shown = |visible: Option<Range>| View {
        visible,
        ..whole(&outputs[0])
    };
    let runs: Vec<Run> = (0..64)
        .map(|place| run(place * 7, &[view(1, b"a", Some(b"k"), None)]))
        .collect();
    for place in [0, 31, 63] {
        let destination = runs[place].id;
        let sources = [runs[62].id, destination];
        let mut put = |at: usize, visible: Option<Range>, stop: Stop| {
            let mut runs = runs.clone();
            runs[at].views.push(shown(visible));
            let model = Model::new(&runs, destination, &sources, &parts);
            let case = model.case(&mut out.chance, 0);
            assert_eq!(out.put(&case), stop);
        };
        put(place, None, 12);
        put(place, Some(included(b"c", b"c")), 12);
        put(place, since(b"bz"), 12);
        put(place, Some(from_to(b"b", b"c")), 0);
        put(62, None, 0);
        put(40, None, 0);
    }
}

/// Parts with gaps, completed, unfinished, with outputs or without.
fn with_gaps(out: &mut Inputs) {
    let keys: Vec<Key> = (1..=130u8).map(|byte| vec![byte]).collect();
    let views = [
        view(1, b"", None, None),
        view(2, b"\x10", Some(b"\x20"), None),
        view(3, b"\x21", Some(b"\x5F"), since(b"\x30\x01")),
    ];
    for count in [63, 64, 65] {
        let mut parts = vec![];
        for place in 0..count {
            let (start, end) = (&keys[2 * place], &keys[2 * place + 1]);
            let outputs = match place % 4 {
                0 => tables(100 + place as u8, &[(start, start)]),
                1 => vec![table(100 + place as u8, start, Some(&[start[0], 7]))],
                _ => vec![],
            };
            parts.push(part(from_to(start, end), place % 3 == 0, &outputs));
        }
        let model = two_runs(&views, &views[1..], &parts);
        let case = model.case(&mut out.chance, 5);
        if count < 65 {
            out.put_around(&case);
        } else {
            assert_eq!(out.put(&case), 3);
        }
        // All completed: one view becomes 65.
        for part in &mut parts {
            part.completed = true;
        }
        let model = two_runs(&views, &views[1..], &parts);
        let case = model.case(&mut out.chance, 5);
        assert_eq!(out.put(&case), if count < 65 { 0 } else { 3 });
        // Without gaps.
        for place in 1..count {
            parts[place].range.0 = Bound::Included(keys[2 * place - 1].clone());
        }
        let model = two_runs(&views, &views[1..], &parts);
        let case = model.case(&mut out.chance, 5);
        assert_eq!(out.put(&case), if count < 65 { 0 } else { 3 });
        // The last begins before the end of the one before it.
        parts[count - 1].range.0 = Bound::Included(keys[2 * count - 4].clone());
        let model = two_runs(&views, &views[1..], &parts);
        let case = model.case(&mut out.chance, 0);
        assert_eq!(out.put(&case), if count < 65 { 10 } else { 3 });
    }
}

/// Keys of 1,024 and 1,025 bytes, as each key of a job; written as a view's bounds.
fn long_keys(out: &mut Inputs) {
    let old = [view(1, b"a", None, None)];
    for length in [KEY_CEILING, KEY_CEILING + 1] {
        let stop = if length > KEY_CEILING { 3 } else { 0 };
        let long = vec![b'k'; length];
        let less = vec![b'k'; length - 1];
        for (range, outputs) in [
            (from_to(&long, b"l"), tables(20, &[])),
            (from_to(b"b", &long), tables(20, &[])),
            (from_to(b"b", b"l"), tables(20, &[(b"b", &long)])),
            (from_to(b"b", b"l"), tables(20, &[(&long, b"kl")])),
            (from_to(&long, b"l"), tables(20, &[(&long, &long)])),
            (from_to(&less, b"l"), tables(20, &[(&less, &long)])),
            (from_to(b"b", &long), tables(20, &[(b"b", &less)])),
        ] {
            for completed in [false, true] {
                let model = two_runs(&old, &[], &[part(range.clone(), completed, &outputs)]);
                let case = model.case(&mut out.chance, 0);
                assert_eq!(out.put(&case), stop);
            }
        }
    }
}

/// Jobs of 65,536 bytes.
fn full_jobs(out: &mut Inputs) {
    let key = |number: usize| [&[b'k'; 1_021][..], &[number as u8, 0, 0]].concat();
    let views = [
        view(1, b"a", None, None),
        view(2, b"k", Some(b"l"), None),
        view(3, b"kl", Some(b"m"), None),
    ];
    for completed in [false, true] {
        let parts: Vec<Part> = (0..31)
            .map(|place| part(from_to(&key(place), &key(place + 1)), completed, &[]))
            .collect();
        let mut model = two_runs(&views, &views[..1], &parts);
        let length = write_job(&model.job).0.len();
        let more = BUFFER_CEILING - length;
        // A part of 6 bytes and two keys that have the rest.
        let start = [&key(31)[..], b""].concat();
        let rest = more - 7 - start.len();
        let end = [b"l", &vec![b'l'; rest - 1][..]].concat();
        model
            .job
            .parts
            .push(part(from_to(&start, &end), completed, &[]));
        let mut case = model.case(&mut out.chance, 0);
        assert_eq!(case.job.len(), BUFFER_CEILING);
        out.put_around(&case);
        case.job.push(0);
        assert_eq!(out.put(&case), 3);
        case.job.truncate(BUFFER_CEILING - 1);
        assert_eq!(out.put(&case), 1);
    }
}
