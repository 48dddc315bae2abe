//! Two faults at once.
use super::Inputs;
use crate::answers::images::Call;
use crate::checks::{check_image, Stop, BUFFER_CEILING};
use crate::inputs::{from_to, included, run, view, write_image, Field};
use crate::{key_of, Bound, Run};

#[derive(Clone, Copy, Debug, PartialEq, Eq)]
pub enum Fault {
    /// The input ends inside this field, or before it if it is a flag.
    Cut(Field),
    Trailing,
    /// Padding after this field.
    Padding(Field),
    KindThree(bool),
    /// Length of 1,025.
    Length(Field),
    ManyRuns,
    ManyViews,
    LongImage,
    /// The end is below the start, or equal and one of them excluded.
    Fails(bool),
    LastBelow,
    StartsExcluded,
    Apart(bool),
    Descends,
    SameId,
    /// Over 2^53, or over 2^64 and wrapped small.
    Sum(bool),
}

pub const FAULTS: [(Stop, Fault); 28] = [
    (1, Fault::Cut(Field::ViewId)),
    (1, Fault::Cut(Field::IndexLen)),
    (1, Fault::Cut(Field::LastFlag)),
    (1, Fault::Cut(Field::EndLength)),
    (1, Fault::Trailing),
    (2, Fault::Padding(Field::ViewCount)),
    (2, Fault::Padding(Field::LastFlag)),
    (2, Fault::Padding(Field::VisibleFlag)),
    (2, Fault::Padding(Field::Head)),
    (2, Fault::KindThree(true)),
    (2, Fault::KindThree(false)),
    (3, Fault::ManyViews),
    (3, Fault::Length(Field::FirstLength)),
    (3, Fault::Length(Field::LastLength)),
    (3, Fault::Length(Field::StartLength)),
    (3, Fault::Length(Field::EndLength)),
    (3, Fault::ManyRuns),
    (3, Fault::LongImage),
    (4, Fault::Fails(true)),
    (4, Fault::Fails(false)),
    (5, Fault::LastBelow),
    (5, Fault::StartsExcluded),
    (5, Fault::Apart(true)),
    (5, Fault::Apart(false)),
    (6, Fault::Descends),
    (6, Fault::SameId),
    (7, Fault::Sum(true)),
    (7, Fault::Sum(false)),
];

/// A good image of two views in one run and none in another.
pub fn two_views() -> Vec<Run> {
    vec![
        run(
            7,
            &[
                view(1, b"b", Some(b"g"), Some(from_to(b"c", b"f"))),
                view(2, b"h", Some(b"p"), Some(from_to(b"k", b"m"))),
            ],
        ),
        run(8, &[]),
    ]
}

/// Changes what a fault of 4 to 7 is about, in the view at this place.
fn spoil(runs: &mut [Run], fault: Fault, place: usize) {
    let view = &mut runs[0].views[place];
    let visible = view.visible.as_mut().unwrap();
    match fault {
        Fault::Descends => {
            // Below the first view, whatever is visible of it.
            let view = &mut runs[0].views[1];
            view.table.first = b"A".to_vec();
            view.visible = Some(from_to(b"A", b"m"));
        }
        Fault::SameId => runs[1].id = runs[0].id,
        Fault::LastBelow => view.table.last = Some(vec![]),
        Fault::Apart(true) => *visible = included(b"x", b"y"),
        Fault::Apart(false) => *visible = from_to(b"", &view.table.first),
        Fault::Fails(true) => {
            visible.0 = Bound::Included(b"o".to_vec());
            visible.1 = Bound::Included(b"n".to_vec());
        }
        Fault::Fails(false) => visible.1 = Bound::Excluded(key_of(&visible.0).unwrap().clone()),
        Fault::StartsExcluded => {
            visible.0 = Bound::Excluded(key_of(&visible.0).unwrap().clone());
        }
        Fault::Sum(true) => view.table.index_len = (1 << 53) - view.table.index_offset + 1,
        Fault::Sum(false) => view.table.index_len = u64::MAX - view.table.index_offset + 2,
        _ => {}
    }
}

/// Two faults, each in the view at its place (or the run, for what a run has).
pub fn faulty(faults: [(Fault, usize); 2]) -> Vec<u8> {
    let mut runs = two_views();
    let model = [
        Fault::Descends,
        Fault::SameId,
        Fault::LastBelow,
        Fault::Apart(true),
        Fault::Apart(false),
        Fault::Fails(true),
        Fault::StartsExcluded,
        Fault::Fails(false),
        Fault::Sum(true),
        Fault::Sum(false),
    ];
    for kind in model {
        for (fault, place) in faults {
            if fault == kind {
                spoil(&mut runs, fault, place);
            }
        }
    }
    let (mut bytes, marks) = write_image(&runs);
    let find = |field: Field, place: usize| {
        let in_run = matches!(field, Field::ViewCount);
        let mark = marks.iter().find(|mark| {
            let at = if in_run { mark.run } else { mark.view };
            mark.field == field && at == place && (in_run || mark.run == 0)
        });
        mark.unwrap().at
    };
    for (fault, place) in faults {
        match fault {
            Fault::Padding(Field::ViewCount) => bytes[find(Field::ViewCount, place) + 1] |= 4,
            Fault::Padding(field) => bytes[find(field, place)] |= 2,
            Fault::KindThree(true) => bytes[find(Field::Head, place)] |= 0xC0,
            Fault::KindThree(false) => bytes[find(Field::Head, place)] |= 0x30,
            Fault::Length(field) => {
                let at = find(field, place);
                bytes[at..at + 2].copy_from_slice(&[4, 1]);
            }
            Fault::ManyRuns => bytes[0] = 65,
            Fault::ManyViews => {
                let at = find(Field::ViewCount, place);
                bytes[at] = 0x40;
                bytes[at + 1] |= 0x10;
            }
            _ => {}
        }
    }
    if faults.iter().any(|(fault, _)| *fault == Fault::Trailing) {
        bytes.push(0);
    }
    for (fault, place) in faults {
        if let Fault::Cut(field) = fault {
            let inside = usize::from(field != Field::LastFlag);
            bytes.truncate(find(field, place) + inside);
        }
    }
    if faults.iter().any(|(fault, _)| *fault == Fault::LongImage) {
        bytes.resize(BUFFER_CEILING + 1, 0);
    }
    bytes
}

/// Every two faults at once: the first in the first view and the second in the second, the
/// other way round, and both in the same view.
pub fn pairs(out: &mut Inputs) {
    for (stop, fault) in FAULTS {
        for place in [0, 1] {
            let bytes = faulty([(fault, place); 2]);
            assert_eq!(check_image(&bytes).err(), Some(stop), "{fault:?}");
            if !out.small || place == 1 {
                out.put_repeated(
                    &bytes,
                    1,
                    &[
                        Call::CheckImage,
                        // With the stops 9 and 16, and without.
                        Call::EffectiveRange(0, 1),
                        Call::EffectiveRange(0, 2),
                        Call::EffectiveRange(2, 0),
                        Call::List(0),
                        Call::List(999),
                    ],
                );
            }
        }
    }
    let mut order: Vec<(usize, usize, [usize; 2])> = vec![];
    for i in 0..FAULTS.len() {
        for j in i..FAULTS.len() {
            for places in [[0, 1], [1, 0], [1, 1], [0, 0]] {
                order.push((i, j, places));
            }
        }
    }
    out.chance.shuffle(&mut order);
    for (i, j, places) in order {
        let ((stop, fault), (other_stop, other)) = (FAULTS[i], FAULTS[j]);
        if i == j && places[0] == places[1] {
            continue;
        }
        // Three of each two numbers at each places, and one of each two faults.
        let numbers = [2, stop, other_stop, places[0] as u8, places[1] as u8];
        let kinds = [3, i as u8, j as u8];
        if !(out.some(1, &kinds) | out.some(3, &numbers)) {
            continue;
        }
        let bytes = faulty([(fault, places[0]), (other, places[1])]);
        let other = if out.chance.percent(50) {
            Call::EffectiveRange(out.chance.below(3) as u64, out.chance.below(3) as u64)
        } else {
            Call::List(*out.chance.of(&[0, 999]))
        };
        out.put_repeated(&bytes, 1, &[Call::CheckImage, other]);
    }
}
