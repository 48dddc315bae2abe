//! Which keys a run showed in the first scene, shows no longer, and are not durable.
use super::axis::Axis;
use super::facts::{Progress, ShownRun};
use bilqarush::typed::Range;

/// Sentences on a later scene. After commits of the job, or of earlier records of it, nothing is missing.
pub(super) fn missing(
    axis: &Axis,
    first: &[ShownRun],
    now: &[ShownRun],
    progress: &Progress,
) -> Vec<String> {
    let durable = covered(axis, progress.durable.iter());
    let mut notes = Vec::new();
    for run in first {
        let before = of_run(axis, first, run.id);
        let after = of_run(axis, now, run.id);
        let lost = |stretch: &usize| {
            let kept = after[*stretch] || durable[*stretch];
            before[*stretch] && !kept && axis.holds_keys(*stretch)
        };
        let lost: Vec<usize> = (0..before.len()).filter(lost).collect();
        if !lost.is_empty() {
            let ranges = words(axis, &lost);
            notes.push(format!(
                "MISSING: run {} no longer shows {ranges}, which is not durable.",
                run.id
            ));
        }
    }
    if notes.is_empty() {
        notes.push(
            "Outside what is durable, each run shows every key that it showed at first.".into(),
        );
    }
    notes
}

fn of_run(axis: &Axis, runs: &[ShownRun], id: u32) -> Vec<bool> {
    let views = runs
        .iter()
        .filter(|run| run.id == id)
        .flat_map(|run| &run.views);
    covered(axis, views.map(|view| &view.range))
}

/// For each stretch of the axis whether one of some ranges covers it.
fn covered<'a>(axis: &Axis, ranges: impl Iterator<Item = &'a Range>) -> Vec<bool> {
    let mut covered = vec![false; 2 * axis.len() + 1];
    for range in ranges {
        for stretch in axis.stretches(axis.span(range)) {
            covered[stretch] = true;
        }
    }
    covered
}

/// Stretches as ranges, those that touch as one.
fn words(axis: &Axis, stretches: &[usize]) -> String {
    let mut ranges: Vec<(usize, usize)> = Vec::new();
    for &stretch in stretches {
        match ranges.last_mut() {
            Some((_, to)) if *to + 1 == stretch => *to = stretch,
            _ => ranges.push((stretch, stretch)),
        }
    }
    let words = ranges.into_iter().map(|(from, to)| axis.words(from..=to));
    words.collect::<Vec<_>>().join(", ")
}
