//! The calls on images.
use crate::clock::{rounds, Clock, Side};
use crate::ours;
use crate::shapes::{runs_within, Keys, Runs, Shape, SIZES};
use crate::table::{Case, Row};
use oracle::direct::{self, Checked, Listed};
use oracle::inputs::image;
use oracle::Run;

const SHAPES: [Shape; 8] = [
    shape(Keys::Short, 0, Runs::One),
    shape(Keys::Short, 100, Runs::One),
    shape(Keys::Short, 50, Runs::Many),
    shape(Keys::Stem(256), 0, Runs::Many),
    shape(Keys::Stem(256), 100, Runs::One),
    shape(Keys::Spread(256), 50, Runs::Many),
    shape(Keys::Stem(1_024), 100, Runs::One),
    shape(Keys::Spread(1_024), 0, Runs::Many),
];

const fn shape(keys: Keys, visible: usize, runs: Runs) -> Shape {
    Shape {
        keys,
        visible,
        runs,
    }
}

/// Room for the longest listing: a header and twice the image.
const ROOM: usize = 25 + 2 * 65_536;

struct Images<'c> {
    clock: &'c Clock,
    rows: Vec<Row>,
}

pub fn rows(clock: &Clock) -> Vec<Row> {
    let mut images = Images {
        clock,
        rows: Vec::new(),
    };
    for call in ["check_image", "compacted_effective_range", "list"] {
        for shape in &SHAPES {
            for size in SIZES {
                if let Some(runs) = runs_within(shape, size) {
                    images.case(call, shape, size, &runs);
                }
            }
        }
    }
    images.rows
}

impl Images<'_> {
    fn case(&mut self, call: &'static str, shape: &Shape, size: usize, runs: &[Run]) {
        let (image, mut room) = (image(runs), vec![0; ROOM]);
        let mut sides = match call {
            "check_image" => checking(&image),
            "list" => listing(&image),
            _ => effective(&image, runs.len() - 1, runs[runs.len() - 1].views.len() - 1),
        };
        sides.push(rounds(&[()], |_| {
            room[..image.len()].copy_from_slice(&image)
        }));
        let views: usize = runs.iter().map(|run| run.views.len()).sum();
        let case = Case {
            call,
            shape: shape.name(),
            size: Some(size),
            counts: format!("{views} views"),
            bytes: image.len(),
            calls: 1,
            sides,
        };
        self.rows.extend(case.timed(self.clock));
    }
}

fn checking(image: &[u8]) -> Vec<Side<'_>> {
    assert_eq!(direct::check_image(image), Ok(()));
    assert_eq!(ours::check_image(image), Ok(()));
    vec![
        rounds(&[()], |_| ours::check_image(image)),
        rounds(&[()], |_| direct::check_image(image)),
    ]
}

/// Two sides that write, which must write the same.
fn written<'a>(
    ours: impl Fn(&mut [u8]) -> Checked<usize> + 'a,
    mut rust: impl FnMut(&mut [u8]) -> Checked<usize> + 'a,
) -> Vec<Side<'a>> {
    let (mut a, mut b) = (vec![0; ROOM], vec![0; ROOM]);
    let answer = rust(&mut b);
    assert_eq!(ours(&mut a), answer);
    assert!(answer.is_ok());
    assert_eq!(a, b);
    vec![
        rounds(&[()], move |_| ours(&mut a)),
        rounds(&[()], move |_| rust(&mut b)),
    ]
}

/// Of the last view.
fn effective(image: &[u8], run: usize, view: usize) -> Vec<Side<'_>> {
    written(
        move |out| ours::compacted_effective_range(image, run, view, out),
        move |out| direct::compacted_effective_range(image, run, view, out),
    )
}

fn listing(image: &[u8]) -> Vec<Side<'_>> {
    let mut listed = Listed::default();
    written(
        |out| ours::list(image, out),
        move |out| direct::list(image, &mut listed, out),
    )
}
