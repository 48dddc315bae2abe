//! Images at the ceilings.
use super::faults::two_views;
use super::{all_places, rooms, Inputs};
use crate::answers::images::{listing, Call};
use crate::checks::{check_image, BUFFER_CEILING, KEY_CEILING};
use crate::inputs::{from_to, image, included, run, until, view, write_image};
use crate::{Bound, Run, View};

pub fn ceilings(out: &mut Inputs) {
    long_keys(out);
    many_runs(out);
    many_views(out);
    full_buffers(out);
    place_at_the_end(out);
}

/// Keys of 1,024 and 1,025 bytes, as each key of a view.
fn long_keys(out: &mut Inputs) {
    for length in [KEY_CEILING, KEY_CEILING + 1] {
        let long = vec![b'k'; length];
        let above = [&long[..length - 1], b"l"].concat();
        let views = [
            view(
                1,
                b"a",
                None,
                Some((Bound::Unbounded, Bound::Excluded(long.clone()))),
            ),
            view(2, b"a", None, Some(from_to(&long, b"l"))),
            view(3, b"a", Some(&above), None),
            view(4, &long, None, None),
        ];
        for view in &views {
            let calls = [
                Call::CheckImage,
                Call::EffectiveRange(0, 0),
                Call::List(if out.small { 2_000 } else { 2_200 }),
            ];
            let alone = std::slice::from_ref(view);
            out.put_repeated(&image(&[run(1, alone)]), 1, &calls);
        }
        if !out.small {
            // All four.
            let all = view(5, &long, Some(&above), Some(included(&long, &above)));
            out.put_each(&image(&[run(1, &[all])]));
            let all = view(6, &long, Some(&above), Some(included(&above, &above)));
            out.put_each(&image(&[run(1, &[all])]));
        }
    }
}

/// Runs: 64 and 65, the count saying so or one less or more.
fn many_runs(out: &mut Inputs) {
    let runs: Vec<Run> = (0..65).map(|id| run(id * 3, &[])).collect();
    for count in [63, 64, 65] {
        let good = image(&runs[..count]);
        out.put_each(&good);
        for said in [62, 63, 64, 65, 255] {
            let mut bytes = good.clone();
            bytes[0] = said;
            if !out.small || said == 64 {
                out.put_two(&bytes);
            }
        }
        if count == 64 {
            let mut runs = runs[..count].to_vec();
            runs[63].id = 0;
            out.put_each(&image(&runs));
            runs[63].id = 62 * 3;
            out.put_each(&image(&runs));
        }
    }
}

/// 64 runs that all have views: each place, the listing, and a fault in the last view.
pub fn runs_with_views(out: &mut Inputs) {
    let views = [
        view(1, b"a", Some(b"c"), None),
        view(2, b"b", None, Some(from_to(b"d", b"f"))),
        view(3, b"d", None, None),
    ];
    let mut runs: Vec<Run> = (0..64)
        .map(|place| run((63 - place) * 68_174_084, &views[..1 + place as usize % 3]))
        .collect();
    runs[63].views = views.to_vec();
    let good = image(&runs);
    let text = listing(&check_image(&good).unwrap()).len() as u64;
    let mut calls = all_places(&runs);
    calls.extend([(63, 3), (64, 0)].map(|(run, view)| Call::EffectiveRange(run, view)));
    calls.extend([Call::CheckImage, Call::List(text - 1), Call::List(text)]);
    out.put(&good, &calls);
    let faults: [fn(&mut View); 4] = [
        |view| view.visible = Some(from_to(b"e", b"e")),
        |view| view.table.last = Some(b"c".to_vec()),
        |view| view.table.first = b"c".to_vec(),
        |view| view.table.index_len = 1 << 53,
    ];
    for fault in faults {
        let mut runs = runs.clone();
        fault(&mut runs[63].views[2]);
        out.put_each(&image(&runs));
    }
}

/// Views: 1,024 and 1,025, of 60 bytes each, the count saying so or one less or more.
fn many_views(out: &mut Inputs) {
    for count in [1_023, 1_024, 1_025] {
        let (good, _) = write_image(&[run(4, &vec![view(1, b"", None, None); count])]);
        let places = [0, 999, 1_000, 1_022, 1_023, 1_024, 4_095];
        let mut calls = places.map(|i| Call::EffectiveRange(0, i)).to_vec();
        calls.push(Call::CheckImage);
        if let Ok(image) = check_image(&good) {
            let text = listing(&image).len() as u64;
            calls.push(Call::List(text - 1));
            if !out.small || count == 1_024 {
                calls.push(Call::List(text));
            }
        }
        out.put_repeated(&good, 60, &calls);
        let calls = [Call::CheckImage, Call::EffectiveRange(0, 0), Call::List(9)];
        for said in [count - 1, count + 1] {
            let mut bytes = good.clone();
            bytes[5..7].copy_from_slice(&((said as u16) << 4).to_be_bytes());
            out.put_repeated(&bytes, 60, &calls);
        }
        // A padding bit in the last byte.
        let mut bytes = good.clone();
        *bytes.last_mut().unwrap() = 1;
        out.put_repeated(&bytes, 60, &calls);
    }
}

/// Buffers: 65,536 bytes accepted (809 views of 81 bytes), cut, with bytes more; 65,537
/// that would be accepted but for the length.
fn full_buffers(out: &mut Inputs) {
    let mut views = vec![view(1, b"abcdefghij", None, until(b"klmnopqr")); 809];
    let good = image(&[run(1, &views)]);
    assert_eq!(good.len(), BUFFER_CEILING);
    let text = listing(&check_image(&good).unwrap()).len();
    let mut calls = [0, 808, 809].map(|i| Call::EffectiveRange(0, i)).to_vec();
    calls.extend([Call::CheckImage, Call::List(text as u64 - 1)]);
    if !out.small {
        calls.extend(rooms(text));
    }
    out.put_repeated(&good, 81, &calls);
    let calls = [Call::CheckImage, Call::EffectiveRange(0, 0), Call::List(25)];
    views[808].table.first.push(b'x');
    out.put_repeated(&image(&[run(1, &views)]), 81, &calls);
    for padding in [0, 1] {
        for base in [&good, &image(&two_views())] {
            for length in [65_535, 65_536, 65_537, 65_836] {
                let mut bytes = base.clone();
                bytes[6] |= padding;
                bytes.resize(length, 0);
                let period = if base.len() < 1_000 { 1 } else { 81 };
                out.put_repeated(&bytes, period, &calls);
            }
        }
    }
}

/// A full buffer whose last field is an empty key: its place is 65,536.
fn place_at_the_end(out: &mut Inputs) {
    let long = vec![b'z'; KEY_CEILING];
    let mut views = vec![view(1, b"", None, until(&long)); 61];
    views.push(view(1, b"", None, until(b"")));
    let length = image(&[run(1, &views)]).len();
    views[60] = view(
        1,
        b"",
        None,
        until(&long[..KEY_CEILING - (length - BUFFER_CEILING)]),
    );
    let full = image(&[run(1, &views)]);
    assert_eq!(full.len(), BUFFER_CEILING);
    let mut calls = [0, 60, 61, 62].map(|i| Call::EffectiveRange(0, i)).to_vec();
    calls.extend([Call::CheckImage, Call::List(9)]);
    if !out.small {
        calls.push(Call::List(2 * BUFFER_CEILING as u64));
    }
    out.put_repeated(&full, 63 + KEY_CEILING, &calls);
}
