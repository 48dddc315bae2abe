//! The papers' own images.
use super::{all_places, rooms, Inputs};
use crate::answers::images::{listing, Call};
use crate::checks::check_image;
use crate::inputs::{image, run, since, view, write_image, Field};

pub fn from_the_papers(out: &mut Inputs) {
    let two = [view(1, b"a", Some(b"c"), None), view(2, b"d", None, None)];
    // The listing that document 01 shows, and no runs.
    let shown = "run view table start end\n\
                 7 0 00000000000000000000000000000001 [61 63]\n\
                 7 1 00000000000000000000000000000002 [64 -\n";
    let written = listing(&check_image(&image(&[run(7, &two)])).unwrap());
    assert_eq!(written, shown.as_bytes());
    for runs in [vec![run(7, &two)], vec![], vec![run(7, &[])]] {
        let buffer = image(&runs);
        let text = listing(&check_image(&buffer).unwrap()).len();
        out.put(&buffer, &[Call::CheckImage]);
        out.put(&buffer, &all_places(&runs));
        out.put(&buffer, &rooms(text));
    }
    // The tables' first keys are equal, the effective starts descend.
    let mut views = [
        view(1, b"a", Some(b"z"), since(b"m")),
        view(2, b"a", Some(b"z"), since(b"c")),
    ];
    out.put_each(&image(&[run(7, &views)]));
    views.reverse();
    out.put_each(&image(&[run(7, &views)]));
    // And the other way: the first keys descend, the effective starts do not.
    views[1].table.first = b"B".to_vec();
    out.put_each(&image(&[run(7, &views)]));
    // Field by field: a run count of 65 alone; a view count of 1,025 with padding set, and 1,024
    // with it; a key length of 1,025 with no bytes after it.
    out.put_each(&[65]);
    out.put_each(&[64]);
    out.put_each(&[1, 0, 0, 0, 7, 0x40, 0x1F]);
    out.put_each(&[1, 0, 0, 0, 7, 0x40, 0x0F]);
    out.put_each(&[1, 0, 0, 0, 7, 0x40, 0x10]);
    out.put_each(&[1, 0, 0, 0, 7, 0x40]);
    let (good, marks) = write_image(&[run(7, &two)]);
    for mark in &marks {
        if matches!(mark.field, Field::FirstLength | Field::LastLength) {
            out.put_each(&[&good[..mark.at], &[4, 1]].concat());
            out.put_each(&[&good[..mark.at], &[4, 0]].concat());
            out.put_each(&[&good[..mark.at], &[4]].concat());
        }
    }
}
