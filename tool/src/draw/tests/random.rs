//! Random images: in each column the bars are those of the views that hold the key.
use super::reading::{blocks, Bar};
use super::samples::{committed, table, whole, Random};
use super::{drawn, text, with_job};
use bilqarush::typed::{
    check_image, compacted_effective_range, contains, from_compaction_to_plan, Image, ImageBytes,
    Job, JobBytes, Part, Range, RangeBytes, Run, Table, TableId, View,
};
use std::ops::Bound;

fn random_view(random: &mut Random, keys: &[Vec<u8>], id: u128) -> View {
    let (first, last) = random.pair(keys.len());
    let view = whole(match random.below(4) {
        0 => Table::new(TableId(id), &keys[first]),
        _ => table(id, &keys[first], &keys[last]),
    });
    let (start, end) = random.pair(keys.len());
    let start = match random.below(3) {
        0 => Bound::Unbounded,
        _ => Bound::Included(keys[start].clone()),
    };
    let end = match random.below(3) {
        0 => Bound::Unbounded,
        1 => Bound::Included(keys[end].clone()),
        _ => Bound::Excluded(keys[end].clone()),
    };
    match random.below(2) {
        0 => view,
        _ => view.with_visible(Range { start, end }),
    }
}

/// Where a view starts that is accepted.
fn start(view: &View) -> Option<Vec<u8>> {
    let image = Image::new([Run::new(0, [view.clone()])])
        .to_bytes()
        .unwrap();
    let range = compacted_effective_range(ImageBytes(&image), 0, 0).ok()?;
    match range.start {
        Bound::Included(key) => Some(key.to_vec()),
        _ => panic!("a view starts at a key"),
    }
}

pub(super) fn random_image(random: &mut Random, most: usize) -> Image {
    let keys = random.keys(most);
    let runs = (0..random.below(4)).map(|run| {
        let views = (0..random.below(6))
            .map(|view| random_view(random, &keys, (1 + 16 * run + view) as u128));
        let mut views: Vec<View> = views.filter(|view| start(view).is_some()).collect();
        views.sort_by_key(start);
        Run::new(run as u32, views)
    });
    let image = Image::new(runs.collect::<Vec<_>>());
    check_image(ImageBytes(&image.to_bytes().unwrap())).unwrap();
    image
}

/// Whether a view shows a key: its table's own range holds it, and so does its visible range.
pub(super) fn shows(view: &View, key: &[u8]) -> bool {
    let last = view.table.last_key.as_ref();
    let own = Range {
        start: Bound::Included(&view.table.first_key),
        end: last.map_or(Bound::Unbounded, Bound::Included),
    };
    let visible = view.visible.as_ref();
    holds(&own.owned(), key) && visible.is_none_or(|range| holds(range, key))
}

pub(super) fn holds(range: &Range, key: &[u8]) -> bool {
    contains(RangeBytes(&range.to_bytes().unwrap()), key).unwrap()
}

/// The keys of all bounds of effective ranges.
pub(super) fn bound_keys(image: &Image) -> Vec<Vec<u8>> {
    let bytes = image.to_bytes().unwrap();
    let mut keys = Vec::new();
    for (place, run) in image.runs.iter().enumerate() {
        for view in 0..run.views.len() {
            let range = compacted_effective_range(ImageBytes(&bytes), place, view).unwrap();
            for bound in [range.start, range.end] {
                if let Bound::Included(key) | Bound::Excluded(key) = bound {
                    keys.push(key.to_vec());
                }
            }
        }
    }
    keys
}

fn labels_at<'t>(bars: &[Bar<'t>], column: usize) -> Vec<&'t str> {
    let bars = bars
        .iter()
        .filter(|bar| bar.start <= column && column <= bar.end);
    let mut labels: Vec<&str> = bars.map(|bar| bar.label).collect();
    labels.sort();
    labels
}

fn shown_labels(run: &Run, key: &[u8]) -> Vec<String> {
    let views = run.views.iter().filter(|view| shows(view, key));
    let mut labels: Vec<String> = views.map(|view| format!("{:x}", view.table.id.0)).collect();
    labels.sort();
    labels
}

/// Each column, and each between two keys, has the bars of the views that hold what lies there.
fn agree(run: &Run, bars: &[Bar], columns: &[usize], keys: &[Vec<u8>]) {
    for (place, key) in keys.iter().enumerate() {
        assert_eq!(
            labels_at(bars, columns[place]),
            shown_labels(run, key),
            "{key:?}"
        );
        let behind = [key.as_slice(), &[0]].concat();
        if keys.get(place + 1) == Some(&behind) {
            continue;
        }
        let end = columns
            .get(place + 1)
            .map_or(columns[place] + 3, |next| *next);
        for column in columns[place] + 1..end {
            assert_eq!(
                labels_at(bars, column),
                shown_labels(run, &behind),
                "{behind:?}"
            );
        }
    }
}

#[test]
fn bars_are_the_views_that_hold_the_key() {
    let mut random = Random(88172645463325252);
    let mut views = 0;
    for round in 0..6_000 {
        let image = random_image(&mut random, if round % 20 == 0 { 60 } else { 8 });
        let text = drawn(&image);
        let mut keys = bound_keys(&image);
        keys.sort();
        keys.dedup();
        let blocks = blocks(&text);
        assert_eq!(blocks.len(), 1);
        assert_eq!(blocks[0].columns.len(), keys.len(), "{text}");
        assert_eq!(blocks[0].rows.len(), image.runs.len(), "{text}");
        for ((head, bars), run) in blocks[0].rows.iter().zip(&image.runs) {
            assert_eq!(*head, format!("run {}", run.id));
            assert_eq!(bars.len(), run.views.len());
            agree(run, bars, &blocks[0].columns, &keys);
            views += bars.len();
        }
    }
    assert!(views > 15_000, "{views}");
}

/// Parts between some keys, from unbounded to unbounded, with outputs of two keys each.
fn random_job(random: &mut Random, image: &Image) -> Job {
    let mut keys = random.keys(8);
    keys.extend(bound_keys(image));
    keys.sort();
    keys.dedup();
    let mut job = Job::new(0, image.runs.iter().map(|run| run.id));
    let cut = random.below(keys.len());
    let halves = [
        (
            Range::new::<Vec<u8>>((Bound::Unbounded, Bound::Excluded(keys[cut].clone()))),
            &keys[..cut],
        ),
        (Range::new(keys[cut].clone()..), &keys[cut..]),
    ];
    for (half, (range, keys)) in halves.into_iter().enumerate() {
        let mut part = Part::new(range);
        for (place, pair) in keys.chunks_exact(2).enumerate().take(random.below(4)) {
            let id = 0x1000 + 0x100 * half + place;
            part = part.with_output(table(id as u128, &pair[0], &pair[1]));
        }
        part.completed = random.below(3) == 0;
        job = job.with_part(part);
    }
    job
}

/// What a job's rows say: no mark is durable, and nothing is missing after a commit.
#[test]
fn commits_lose_nothing() {
    let mut random = Random(3141592653589793);
    let (mut drawn, mut marks) = (0, 0);
    while drawn < 1_500 {
        let image = random_image(&mut random, 8);
        let job = random_job(&mut random, &image);
        let Ok(after) = committed(&image, &job) else {
            continue;
        };
        drawn += 1;
        let picture = with_job(&[("before", &image), ("after", &after)], &job);
        let text = text(&picture).unwrap();
        let blocks = blocks(&text);
        let titles: Vec<&str> = blocks.iter().map(|block| block.title).collect();
        assert_eq!(titles[..2], ["before", "after"]);
        let said = ["Outside what is durable, each run shows every key that it showed at first."];
        assert_eq!(blocks[1].notes, said, "{text}");
        assert!(blocks[0].notes.is_empty(), "{text}");
        for block in &blocks {
            assert_eq!(block.marks, blocks[0].marks, "{text}");
            marks += block.marks.len();
            let (_, durable) = block
                .rows
                .iter()
                .find(|(head, _)| *head == "durable")
                .unwrap();
            for mark in &block.marks {
                assert!(labels_at(durable, *mark).is_empty(), "{text}");
            }
        }
        durable_bars(&job, &blocks[2].rows.last().unwrap().1);
    }
    assert!(marks > 1_500, "{marks}");
}

/// As many bars as durable intervals that hold a key.
fn durable_bars(job: &Job, bars: &[Bar]) {
    let bytes = job.to_bytes().unwrap();
    let durable = from_compaction_to_plan(JobBytes(&bytes)).unwrap().ranges;
    let below_all = |range: &&Range| range.end != Bound::Excluded(Vec::new());
    assert_eq!(bars.len(), durable.iter().filter(below_all).count());
}
