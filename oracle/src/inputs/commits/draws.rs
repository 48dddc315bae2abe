//! Draws.
use super::{two_runs, Inputs};
use crate::answers::commits::{Case, DRAWN};
use crate::checks::{all_durable, check_commit, left_of};
use crate::inputs::{from, from_to, image, part, since, tables, view, write_job};
use crate::Part;

/// Draws that give the old id.
pub fn draws(out: &mut Inputs) {
    let views = [
        view(1, b"a", Some(b"z"), None),
        view(2, b"b", None, since(b"d")),
    ];
    let outputs = tables(20, &[(b"b", b"d"), (b"d", b"g")]);
    let second = tables(30, &[(b"m", b"n"), (b"n", b"p")]);
    let parts = [
        part(from_to(b"b", b"k"), false, &outputs),
        part(from(b"l"), false, &second),
    ];
    let model = two_runs(&views, &views[1..], &parts);
    // Each draw may be made again: by number, and how often.
    let plain = model.case(&mut out.chance, 0);
    out.put_around(&plain);
    let (runs, job) = check_commit(&plain.image, &plain.job).unwrap();
    let count = plain.ids.len() / 10;
    // The old ids, in the order of the draws.
    let mut old = vec![];
    for part in &job.parts {
        old.push(part.outputs.last().unwrap().id);
    }
    for run in &runs {
        for view in &run.views {
            let range = crate::effective_range(view).unwrap();
            let left = left_of(&all_durable(&job), &range);
            assert_ne!(left, [range]);
            old.extend(left.iter().map(|_| view.id));
        }
    }
    assert_eq!(old.len(), count);
    for place in 0..count {
        for times in [1, 2, 3] {
            let mut case = plain.clone();
            let again = old[place][DRAWN..].repeat(times);
            case.ids.splice(10 * place..10 * place, again);
            if times == 1 || place == count - 1 {
                out.put_around(&case);
            } else {
                out.good(&case);
            }
            // The supply ends with the old id.
            case.ids.truncate(10 * (place + times));
            assert_eq!(out.put(&case), 14);
            // The ten bytes are the old id's but for one bit.
            let mut case = plain.clone();
            case.ids[10 * place..10 * place + 10].copy_from_slice(&old[place][DRAWN..]);
            case.ids[10 * place + 3 * times] ^= 1;
            out.good(&case);
        }
        // Another's old id is no old id.
        let mut case = plain.clone();
        let other = old.iter().find(|id| id[DRAWN..] != old[place][DRAWN..]);
        case.ids[10 * place..10 * place + 10].copy_from_slice(&other.unwrap()[DRAWN..]);
        out.good(&case);
    }
    // All draws twice, and a supply that gives nothing else.
    let mut case = plain.clone();
    case.ids.clear();
    for place in 0..count {
        case.ids.extend(&old[place][DRAWN..]);
        case.ids.extend(&plain.ids[10 * place..10 * place + 10]);
    }
    out.put_around(&case);
    case.ids = old[0][DRAWN..].repeat(50);
    assert_eq!(out.put(&case), 14);
    // Equal bytes for all; the time differs.
    case.ids = [9; 10].repeat(count);
    out.put_around(&case);
}

/// 1,024 views, each of which is cut into 65: all ids are drawn before the size is refused.
pub fn most_pieces(out: &mut Inputs) {
    let views = vec![view(1, b"", None, None); 1_024];
    let parts: Vec<Part> = (0..64u8)
        .map(|place| part(from_to(&[2 * place + 1], &[2 * place + 2]), true, &[]))
        .collect();
    for model in [
        two_runs(&views, &[], &parts),
        two_runs(&[], &views, &parts[..60]),
    ] {
        let pieces = 1_024 * (model.job.parts.len() + 1);
        let mut case = Case {
            image: image(&model.runs),
            job: write_job(&model.job).0,
            ids: b"abcdefghij".repeat(pieces),
            room: 0,
        };
        assert_eq!(out.put(&case), 15);
        case.ids.truncate(10 * pieces - 1);
        assert_eq!(out.put(&case), 14);
    }
}
