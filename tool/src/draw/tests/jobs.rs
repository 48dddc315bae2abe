//! Pictures of jobs.
use super::samples::{before, committed, half_way, table, whole};
use super::{refused, rows, text, with_job, Picture};
use bilqarush::typed::{Image, Job, Part, Range, Run, Stop};

/// The rows of a job that is drawn alone.
fn job_rows(job: &Job) -> Vec<String> {
    let picture = Picture {
        scenes: Vec::new(),
        job: Some(job),
    };
    let text = text(&picture).unwrap();
    rows(&text).into_iter().map(String::from).collect()
}

#[test]
fn parts_with_and_without_outputs() {
    let job = Job::new(7, [7])
        .with_part(Part::new(Range::new(.."c")).complete())
        .with_part(Part::new(Range::new("c".."f")))
        .with_part(Part::new(Range::new("f"..)).with_output(table(1, "f", "f")));
    let expected = [
        "part 0       <=).       .",
        "  completed     nothing written",
        "part 1          [======).",
        "  unfinished    nothing written yet",
        "part 2          .       [======>",
        "  unfinished    .       *1",
        "durable      <=).       .",
        "                        ^ last written: f, not yet durable",
    ];
    assert_eq!(job_rows(&job), expected);
}

#[test]
fn a_job_without_parts() {
    assert_eq!(
        job_rows(&Job::new(7, [7])),
        ["durable         nothing", "no parts"]
    );
}

#[test]
fn all_keys_with_no_key_on_the_axis() {
    let job = Job::new(7, [7]).with_part(Part::new(Range::all()).complete());
    let expected = [
        "part 0       <=planned=>",
        "  completed     nothing written",
        "durable      <=========>",
    ];
    assert_eq!(job_rows(&job), expected);
}

/// No key is below the empty one, so nothing is drawn there.
#[test]
fn a_planned_range_without_keys() {
    let job = Job::new(7, [7])
        .with_part(Part::new(Range::new(.."")).complete())
        .with_part(Part::new(Range::new(""..)).with_output(table(1, "", "")));
    let expected = [
        "part 0          no key",
        "  completed     nothing written",
        "part 1          [======>",
        "  unfinished    *1",
        "durable         nothing",
        "                ^ last written: \"\", not yet durable",
    ];
    assert_eq!(job_rows(&job), expected);
}

#[test]
fn what_is_missing_is_said() {
    let before = before();
    let job = half_way();
    let mut after = committed(&before, &job).unwrap();
    after.runs.truncate(1);
    after.runs[0].views.pop();
    let picture = with_job(&[("before", &before), ("after", &after)], &job);
    let text = text(&picture).unwrap();
    let said: Vec<&str> = text
        .lines()
        .filter(|line| line.starts_with("MISSING"))
        .collect();
    let expected = [
        "MISSING: run 7 no longer shows [p z], which is not durable.",
        "MISSING: run 9 no longer shows [h m), [p x], which is not durable.",
    ];
    assert_eq!(said, expected);
    assert!(!text.contains("Outside what is durable"));
}

/// No key lies between k and k followed by 00.
#[test]
fn where_no_key_is_none_is_missing() {
    let image = |views: &[(&str, &str)]| {
        let views = views.iter().zip(1..);
        Image::new([Run::new(
            7,
            views.map(|((first, last), id)| whole(table(id, first, last))),
        )])
    };
    let job = Job::new(7, [7]).with_part(Part::new(Range::all()));
    let said = |after: &Image| {
        let before = image(&[("a", "c")]);
        text(&with_job(&[("before", &before), ("after", after)], &job)).unwrap()
    };
    let all = said(&image(&[("a", "a"), ("a\0", "c")]));
    assert!(all.contains("Outside what is durable"), "{all}");
    let less = said(&image(&[("a", "a"), ("a\0\0", "c")]));
    let missing = "MISSING: run 7 no longer shows (a #1), which is not durable.";
    assert!(less.contains(missing), "{less}");
}

#[test]
fn refused_jobs_are_refused() {
    let image = Image::new([Run::new(7, [])]);
    let job = Job::new(7, [9]);
    assert_eq!(
        refused(&with_job(&[("image", &image)], &job)),
        Stop::DestinationNotSource
    );
    let outside = Part::new(Range::new(.."c")).with_output(table(1, "a", "c"));
    let job = Job::new(7, [7]).with_part(outside);
    assert_eq!(refused(&with_job(&[("image", &image)], &job)), Stop::Output);
}
