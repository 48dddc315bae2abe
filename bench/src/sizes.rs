//! Visible fractions and sizes, and on the Rust's side the decoding and the call apart.
use crate::clock::{rounds, Clock};
use crate::ours;
use crate::shapes::{random_id, table, Keys};
use crate::table::{Case, Row};
use oracle::direct::{Checked, Runs};
use oracle::inputs::{image, Chance};
use oracle::{Bound, Run, View};
use std::fmt::Debug;

const CEILING: usize = 65_536;
/// A round has so many images, each of other keys.
const IMAGES: u32 = 8;
/// Views of the long run.
const MANY: usize = 500;

/// Images of one shape, and the place of the view that is asked for.
struct Sizes {
    what: &'static str,
    count: usize,
    images: Vec<Vec<u8>>,
    view: usize,
}

struct Table<'c> {
    clock: &'c Clock,
    rows: Vec<Row>,
}

pub fn rows(clock: &Clock) -> Vec<Row> {
    let mut table = Table {
        clock,
        rows: Vec::new(),
    };
    let cases = cases();
    for sizes in &cases {
        let view = sizes.view;
        table.answered(
            "visible_fraction",
            sizes,
            |image| ours::visible_fraction(image, 0, view).map(f64::to_bits),
            |runs| runs.visible_fraction(0, view).map(f64::to_bits),
        );
    }
    for sizes in &cases {
        let view = sizes.view;
        table.answered(
            "estimate_visible_size",
            sizes,
            |image| ours::estimate_visible_size(image, 0, view),
            |runs| runs.estimate_visible_size(0, view),
        );
    }
    for sizes in &cases {
        table.answered(
            "estimate_run_visible_size",
            sizes,
            |image| ours::estimate_run_visible_size(image, 0),
            |runs| runs.estimate_run_visible_size(0),
        );
    }
    table.rows
}

impl Table<'_> {
    /// The Rust decodes and calls; what it decodes to is at hand for the call alone.
    fn answered<T: PartialEq + Debug>(
        &mut self,
        call: &'static str,
        sizes: &Sizes,
        ours: impl Fn(&[u8]) -> Checked<T>,
        rust: impl Fn(&Runs) -> Checked<T>,
    ) {
        let decode = |image: &Vec<u8>| Runs::decode(image).expect("it is an image");
        let decoded: Vec<Runs> = sizes.images.iter().map(decode).collect();
        for (image, runs) in sizes.images.iter().zip(&decoded) {
            let answer = rust(runs);
            assert_eq!(ours(image), answer, "{call}, {}", sizes.what);
            assert!(answer.is_ok());
        }
        let (images, mut room) = (&sizes.images, vec![0; CEILING]);
        let sides = vec![
            rounds(images, |image| ours(image)),
            rounds(images, |image| rust(&Runs::decode(image)?)),
            rounds(images, |image| room[..image.len()].copy_from_slice(image)),
            rounds(images, |image| Runs::decode(image).is_ok()),
            rounds(&decoded, |runs| rust(runs)),
        ];
        let bytes: usize = images.iter().map(Vec::len).sum();
        let case = Case {
            call,
            shape: sizes.what.into(),
            size: None,
            counts: format!("{} views", sizes.count),
            bytes: bytes / images.len(),
            calls: images.len(),
            sides,
        };
        self.rows.extend(case.timed(self.clock));
    }
}

/// Some views side by side; each shows the keys from a quarter of its table up to, without, the middle,
/// or all of them.
fn run_of(keys: Keys, count: usize, is_cut: bool, seed: u32) -> Run {
    let mut chance = Chance(seed.into());
    let step = u32::MAX / (5 * count as u32 + 5);
    let key = |place: usize, quarter: u32| keys.at(step * (5 * place as u32 + quarter) + seed);
    let views = (0..count).map(|place| View {
        id: random_id(&mut chance),
        table: table(&mut chance, key(place, 0), key(place, 4)),
        visible: is_cut.then(|| {
            let (start, end) = (key(place, 1), key(place, 2));
            (Bound::Included(start), Bound::Excluded(end))
        }),
    });
    Run {
        id: 7,
        views: views.collect(),
    }
}

fn cases() -> Vec<Sizes> {
    let of = |what, keys, count, is_cut| Sizes {
        what,
        count,
        images: (0..IMAGES)
            .map(|seed| image(&[run_of(keys, count, is_cut, seed * 7_919)]))
            .collect(),
        view: count - 1,
    };
    vec![
        of("visible range", Keys::Short, 1, true),
        of("no visible range", Keys::Short, 1, false),
        of(
            "1,000 bytes shared, visible range",
            Keys::Stem(1_004),
            1,
            true,
        ),
        of("visible ranges", Keys::Stem(12), MANY, true),
        of("no visible ranges", Keys::Stem(12), MANY, false),
    ]
}
