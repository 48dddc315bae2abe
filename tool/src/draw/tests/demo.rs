//! The pictures of the program `demo`, each held to a text in full.
use super::samples::{before, committed, completed, further, half_way};
use super::{text, with_job, Picture, Scene};
use bilqarush::typed::Image;

fn images() -> [Image; 4] {
    let before = before();
    let half = committed(&before, &half_way()).unwrap();
    let more = committed(&half, &further()).unwrap();
    let all = committed(&more, &completed()).unwrap();
    [before, half, more, all]
}

#[test]
fn half_way_is_drawn_in_full() {
    let [before, half, ..] = images();
    let job = half_way();
    let picture = with_job(
        &[("before the commit", &before), ("after the commit", &half)],
        &job,
    );
    assert_eq!(text(&picture).unwrap(), include_str!("half_way.txt"));
}

#[test]
fn further_is_drawn_in_full() {
    let [_, half, more, _] = images();
    let job = further();
    let picture = with_job(
        &[("before the commit", &half), ("after the commit", &more)],
        &job,
    );
    assert_eq!(text(&picture).unwrap(), include_str!("further.txt"));
}

#[test]
fn completed_is_drawn_in_full() {
    let [_, _, more, all] = images();
    let job = completed();
    let picture = with_job(
        &[("before the commit", &more), ("after the commit", &all)],
        &job,
    );
    assert_eq!(text(&picture).unwrap(), include_str!("completed.txt"));
}

#[test]
fn all_of_it_is_drawn_in_full() {
    let images = images();
    let titles = [
        "the image before the compaction",
        "the worker stopped half way, and what it wrote is committed",
        "another worker went on, and the record with more progress is committed",
        "the completed job is committed, and run 9 has no views left",
    ];
    let scenes = titles.into_iter().zip(&images);
    let picture = Picture {
        scenes: scenes
            .map(|(title, image)| Scene { title, image })
            .collect(),
        job: None,
    };
    assert_eq!(text(&picture).unwrap(), include_str!("all.txt"));
}

/// At h the old table has the key and the new one stops before it: the two bounds stand side by side.
#[test]
fn the_last_written_key_is_seen() {
    let drawn = include_str!("half_way.txt");
    let after = drawn.split("after the commit").nth(1).unwrap();
    let line = |head: &str| after.lines().find(|line| line.starts_with(head)).unwrap();
    let h = after.lines().nth(2).unwrap().find('h').unwrap();
    assert_eq!(&line("run 7")[h - 1..h + 1], ")[");
    assert_eq!(&line("run 9")[h..h + 1], "[");
    assert_eq!(&line("durable")[h - 1..h + 1], ").");
    assert_eq!(&line("last written")[h..h + 1], "^");
}
