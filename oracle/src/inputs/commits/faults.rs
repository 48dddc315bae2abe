//! Faults, alone and two at once.
use super::{Inputs, Model};
use crate::answers::commits::Case;
use crate::checks::{Stop, BUFFER_CEILING};
use crate::inputs::{
    before, excluded, from_to, image, included, part, run, tables, view, write_image, write_job,
    Chance, Field, Mark,
};
use crate::{Bound, Range, View};

#[derive(Clone, Copy, Debug, PartialEq, Eq)]
enum Fault {
    ImageCut,
    ImageTrailing,
    ImagePadding,
    ImageKindThree,
    ImageLength,
    ManyRuns,
    LongImage,
    /// The job ends inside this field of its second part, or before it if it is its head.
    JobCut(Field),
    JobTrailing,
    JobPadding(Field),
    JobKindThree,
    ManySources,
    ManyParts,
    ManyOutputs,
    JobLength(Field),
    LongJob,
    ImageFails,
    JobFails,
    ImageLastBelow,
    ImageStartsExcluded,
    ImageApart,
    JobLastBelow,
    Descends,
    SameId,
    ImageSum,
    JobSum,
    NoSource,
    NotThere,
    StartsExcluded,
    EndsIncluded,
    BeginsBefore,
    StartsUnbounded,
    EndsUnbounded,
    LacksLast,
    EndsOutside,
    StartsOutside,
    OutOfOrder,
    Uncovered,
    ShortSupply,
    NoSupply,
    ManyViews,
    LongResult,
    ShortRoom,
    NoRoom,
}

const FAULTS: [(Stop, Fault); 49] = [
    (1, Fault::ImageCut),
    (1, Fault::ImageTrailing),
    (1, Fault::JobCut(Field::Head)),
    (1, Fault::JobCut(Field::OutputCount)),
    (1, Fault::JobCut(Field::IndexOffset)),
    (1, Fault::JobTrailing),
    (2, Fault::ImagePadding),
    (2, Fault::ImageKindThree),
    (2, Fault::JobPadding(Field::Head)),
    (2, Fault::JobPadding(Field::LastFlag)),
    (2, Fault::JobKindThree),
    (3, Fault::ImageLength),
    (3, Fault::ManyRuns),
    (3, Fault::LongImage),
    (3, Fault::ManySources),
    (3, Fault::ManyParts),
    (3, Fault::ManyOutputs),
    (3, Fault::JobLength(Field::StartLength)),
    (3, Fault::JobLength(Field::EndLength)),
    (3, Fault::JobLength(Field::FirstLength)),
    (3, Fault::JobLength(Field::LastLength)),
    (3, Fault::LongJob),
    (4, Fault::ImageFails),
    (4, Fault::JobFails),
    (5, Fault::ImageLastBelow),
    (5, Fault::ImageStartsExcluded),
    (5, Fault::ImageApart),
    (5, Fault::JobLastBelow),
    (6, Fault::Descends),
    (6, Fault::SameId),
    (7, Fault::ImageSum),
    (7, Fault::JobSum),
    (8, Fault::NoSource),
    (9, Fault::NotThere),
    (10, Fault::StartsExcluded),
    (10, Fault::EndsIncluded),
    (10, Fault::BeginsBefore),
    (10, Fault::StartsUnbounded),
    (10, Fault::EndsUnbounded),
    (11, Fault::LacksLast),
    (11, Fault::EndsOutside),
    (11, Fault::StartsOutside),
    (11, Fault::OutOfOrder),
    (12, Fault::Uncovered),
    (14, Fault::ShortSupply),
    (14, Fault::NoSupply),
    (15, Fault::ManyViews),
    (15, Fault::LongResult),
    (16, Fault::ShortRoom),
];

/// A good image and job: of run 7 a view goes, one is cut, and four outputs come, one of them
/// cut; of run 9 a view is cut; run 8 is no source.
pub fn sound() -> Model {
    let seven = [
        view(1, b"b", Some(b"g"), Some(from_to(b"c", b"f"))),
        view(2, b"h", Some(b"p"), Some(from_to(b"k", b"m"))),
    ];
    let runs = [
        run(8, &[view(4, b"q", Some(b"r"), None)]),
        run(7, &seven),
        run(9, &[view(3, b"a", None, None)]),
    ];
    let parts = [
        part(
            before(b"e"),
            true,
            &tables(20, &[(b"a", b"c"), (b"c", b"d")]),
        ),
        part(
            from_to(b"e", b"n"),
            false,
            &tables(22, &[(b"f", b"g"), (b"h", b"l")]),
        ),
    ];
    Model::new(&runs, 7, &[9, 7], &parts)
}

/// Changes what a fault of 4 to 15 is about.
fn spoil(model: &mut Model, fault: Fault) {
    let Model { runs, job } = model;
    let visible = |view: &mut View, range: Range| view.visible = Some(range);
    match fault {
        Fault::ImageFails => visible(&mut runs[2].views[0], included(b"m", b"k")),
        Fault::JobFails => {
            // The kind of the start stays.
            let start = &mut job.parts[1].range.0;
            let key = b"o".to_vec();
            *start = match start {
                Bound::Excluded(_) => Bound::Excluded(key),
                _ => Bound::Included(key),
            };
        }
        Fault::ImageLastBelow => runs[2].views[0].table.last = Some(vec![]),
        Fault::ImageStartsExcluded => visible(&mut runs[1].views[0], excluded(b"c", b"f")),
        Fault::ImageApart => visible(&mut runs[0].views[0], included(b"x", b"y")),
        Fault::JobLastBelow => job.parts[1].outputs[0].last = Some(vec![]),
        Fault::Descends => {
            runs[1].views[1].table.first = b"A".to_vec();
            visible(&mut runs[1].views[1], from_to(b"A", b"m"));
        }
        Fault::SameId => runs[0].id = 9,
        Fault::ImageSum => runs[2].views[0].table.index_len = 1 << 53,
        Fault::JobSum => job.parts[0].outputs[1].index_len = u64::MAX,
        Fault::NoSource => job.sources.retain(|id| *id != 7),
        Fault::NotThere => job.sources.push(5),
        Fault::StartsExcluded => job.parts[1].range.0 = Bound::Excluded(b"e".to_vec()),
        Fault::EndsIncluded => job.parts[1].range.1 = Bound::Included(b"n".to_vec()),
        Fault::BeginsBefore => job.parts[0].range.1 = Bound::Excluded(b"e\0".to_vec()),
        Fault::StartsUnbounded => job.parts[1].range.0 = Bound::Unbounded,
        Fault::EndsUnbounded => job.parts[0].range.1 = Bound::Unbounded,
        Fault::LacksLast => job.parts[0].outputs[1].last = None,
        Fault::EndsOutside => job.parts[0].outputs[1].last = Some(b"e".to_vec()),
        Fault::StartsOutside => job.parts[1].outputs[0].first = b"d".to_vec(),
        Fault::OutOfOrder => job.parts[1].outputs[1].first = b"f\xFF".to_vec(),
        Fault::Uncovered => runs[1].views[1].table.id = job.parts[0].outputs[0].id,
        // Below the others' starts nothing changes, and above them nothing is cut.
        Fault::ManyViews => {
            let more = vec![view(5, b"q", None, None); 1_020];
            runs[1].views.extend(more);
        }
        // An image of 65,500 bytes, but for what other faults change.
        Fault::LongResult => {
            let mut more = vec![view(6, &[b'q'; 1_000], None, None); 62];
            let length = image(&sound().runs).len() + image(&[run(0, &more)]).len() - 7;
            more[0].table.first.truncate(1_000 - (length - 65_500));
            runs[0].views.extend(more);
        }
        _ => {}
    }
}

/// Changes what a fault of 1 to 3, 14 or 16 is about.
fn damage_by(case: &mut Case, marks: &[Mark], image_marks: &[Mark], fault: Fault) {
    // In the second part, or in its second output.
    let find = |field: Field, view: usize| {
        let mark = marks.iter().find(|mark| {
            let in_table = matches!(
                field,
                Field::FirstLength | Field::LastLength | Field::LastFlag | Field::IndexOffset
            );
            mark.field == field && mark.run == 1 && (!in_table || mark.view == view)
        });
        mark.unwrap().at
    };
    // In the second run.
    let find_image = |field: Field| {
        let mark = image_marks
            .iter()
            .find(|mark| mark.field == field && mark.run == 1);
        mark.unwrap().at
    };
    let set = |bytes: &mut Vec<u8>, at: usize, value: &[u8]| {
        bytes[at..at + value.len()].copy_from_slice(value);
    };
    match fault {
        Fault::ImagePadding => case.image[find_image(Field::LastFlag)] |= 2,
        Fault::ImageKindThree => case.image[find_image(Field::Head)] |= 0xC0,
        Fault::ImageLength => set(&mut case.image, find_image(Field::FirstLength), &[4, 1]),
        Fault::ManyRuns => case.image[0] = 65,
        Fault::JobPadding(Field::Head) => case.job[find(Field::Head, 0)] |= 1,
        Fault::JobPadding(field) => case.job[find(field, 1)] |= 1,
        Fault::JobKindThree => case.job[find(Field::Head, 0)] |= 0x30,
        Fault::ManySources => case.job[4] = 65,
        Fault::ManyParts => {
            let mark = marks.iter().find(|mark| mark.field == Field::PartCount);
            case.job[mark.unwrap().at] = 65;
        }
        Fault::ManyOutputs => set(&mut case.job, find(Field::OutputCount, 0), &[4, 1]),
        Fault::JobLength(field) => {
            // The planned range may have lost the key.
            if marks
                .iter()
                .any(|mark| mark.field == field && mark.run == 1)
            {
                set(&mut case.job, find(field, 0), &[4, 1]);
            }
        }
        Fault::ShortSupply => {
            let length = case.ids.len() - 1;
            case.ids.truncate(length);
        }
        Fault::NoSupply => case.ids.clear(),
        Fault::ShortRoom => case.room = case.room.saturating_sub(1),
        Fault::NoRoom => case.room = 0,
        _ => {}
    }
}

/// Several faults at once.
fn faulty(chance: &mut Chance, faults: &[Fault]) -> Case {
    let usual = sound().case(chance, 0);
    let mut model = sound();
    // The lower numbers last, so that they are there.
    for fault in faults.iter().rev() {
        spoil(&mut model, *fault);
    }
    let mut case = model.case(chance, 0);
    if case.room == 0 {
        case.ids = usual.ids;
        case.room = usual.room;
    }
    // The lengths first, the last bytes last.
    let marks = write_job(&model.job).1;
    let image_marks = write_image(&model.runs).1;
    for fault in faults {
        damage_by(&mut case, &marks, &image_marks, *fault);
    }
    for fault in faults {
        match fault {
            Fault::ImageTrailing => case.image.push(0),
            Fault::JobTrailing => case.job.push(0),
            _ => {}
        }
    }
    for fault in faults {
        match fault {
            Fault::ImageCut => {
                let length = case.image.len() - 3;
                case.image.truncate(length);
            }
            Fault::JobCut(field) => {
                let mark = marks
                    .iter()
                    .find(|mark| mark.field == *field && mark.run == 1)
                    .unwrap();
                case.job
                    .truncate(mark.at + usize::from(*field != Field::Head));
            }
            _ => {}
        }
    }
    for fault in faults {
        match fault {
            Fault::LongImage => case.image.resize(BUFFER_CEILING + 1, 0),
            Fault::LongJob => case.job.resize(BUFFER_CEILING + 1, 0),
            _ => {}
        }
    }
    case
}

/// Every fault alone, and every two at once.
pub fn pairs(out: &mut Inputs) {
    let good = sound().case(&mut out.chance, 0);
    out.put_around(&good);
    for (stop, fault) in FAULTS {
        let case = faulty(&mut out.chance, &[fault]);
        assert_eq!(out.put(&case), stop, "{fault:?}");
    }
    let mut order: Vec<(usize, usize)> = vec![];
    for i in 0..FAULTS.len() {
        order.extend((i + 1..FAULTS.len()).map(|j| (i, j)));
    }
    out.chance.shuffle(&mut order);
    let wanted = |out: &mut Inputs, (i, j): &(usize, usize)| {
        let (a, b) = (FAULTS[*i].0, FAULTS[*j].0);
        // Of the first three numbers, which depend on the reading order, more.
        let limit = if b <= 3 { 12 } else { 3 };
        out.some(limit, &[a, b])
    };
    order.retain(|pair| wanted(out, pair));
    order.sort();
    for (i, j) in order {
        let ((a, first), (b, second)) = (FAULTS[i], FAULTS[j]);
        let case = faulty(&mut out.chance, &[first, second]);
        let stop = out.put(&case);
        *out.pairs
            .entry((a, b))
            .or_default()
            .entry(stop)
            .or_insert(0) += 1;
        // Two ways to get an image that is too long make one that is refused as given.
        assert!(a <= 3 || stop == a || a == b, "{first:?}, {second:?}");
    }
    // Everything from 8 on at once, one taken away after the other.
    let mut all = vec![
        Fault::NoSource,
        Fault::NotThere,
        Fault::BeginsBefore,
        Fault::LacksLast,
        Fault::Uncovered,
        Fault::NoSupply,
        Fault::LongResult,
        Fault::NoRoom,
    ];
    for stop in [8, 9, 10, 11, 12, 14, 15, 16] {
        let mut case = faulty(&mut out.chance, &all);
        if all.contains(&Fault::NoRoom) {
            case.room = 0;
        }
        if all.contains(&Fault::NoSupply) {
            case.ids.clear();
        }
        assert_eq!(out.put(&case), stop);
        all.remove(0);
    }
}
