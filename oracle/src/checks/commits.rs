//! The checks of an image and a job together, 4 to 12.
use super::{
    all_durable, check_4, check_5, check_6, check_7, descends, ends_before, least_outside, outputs,
    pass, read_image, read_job, runs_of, start_of, Checked,
};
use crate::{key_of, kind_of, Job, Part, Range, Run};
use std::collections::HashSet;

/// Of one planned range: it starts included or unbounded, and ends excluded or unbounded.
pub fn planned(range: &Range) -> Checked<()> {
    if kind_of(&range.0) == 2 || kind_of(&range.1) == 1 {
        return Err(10);
    }
    Ok(())
}

pub fn check_10(job: &Job) -> Checked<()> {
    job.parts.iter().try_for_each(|part| planned(&part.range))?;
    for pair in job.parts.windows(2) {
        match (key_of(&pair[0].range.1), key_of(&pair[1].range.0)) {
            (Some(end), Some(start)) if end <= start => {}
            _ => return Err(10),
        }
    }
    Ok(())
}

/// Of a part that passes check 10.
pub fn check_11(part: &Part) -> Checked<()> {
    let mut least = key_of(&part.range.0);
    for table in &part.outputs {
        let last = table.last.as_ref().ok_or(11)?;
        if least.is_some_and(|least| table.first < *least) {
            return Err(11);
        }
        if key_of(&part.range.1).is_some_and(|end| end <= last) {
            return Err(11);
        }
        least = Some(last);
    }
    Ok(())
}

fn check_12(runs: &[Run], job: &Job) -> Checked<()> {
    let ids: HashSet<[u8; 16]> = outputs(job).map(|table| table.id).collect();
    let intervals = all_durable(job);
    let views = runs
        .iter()
        .filter(|run| run.id == job.destination)
        .flat_map(|run| &run.views);
    for view in views.filter(|view| ids.contains(&view.table.id)) {
        let range = crate::effective_range(view).unwrap();
        let key = least_outside(&intervals, start_of(&range));
        if key.is_some_and(|key| !ends_before(&range, &key)) {
            return Err(12);
        }
    }
    Ok(())
}

/// The image and the job, if they pass the checks 1 to 12.
pub fn check_commit(image: &[u8], job: &[u8]) -> Checked<(Vec<Run>, Job)> {
    let placed = read_image(image)?;
    let job = read_job(job)?;
    let views = || {
        let placed = placed.iter().flat_map(|run| &run.views);
        placed.map(|placed| &placed.view)
    };
    views().try_for_each(check_4)?;
    job.parts.iter().try_for_each(|part| pass(&part.range))?;
    views().try_for_each(check_5)?;
    if outputs(&job).any(descends) {
        return Err(5);
    }
    check_6(&placed)?;
    views().try_for_each(|view| check_7(&view.table))?;
    outputs(&job).try_for_each(check_7)?;
    let runs = runs_of(placed);
    // The original refuses what fails 8 or 9, or has refused it before.
    let refused = || crate::commit(&runs, &job, &[]).is_err();
    if !job.sources.contains(&job.destination) {
        assert!(refused());
        return Err(8);
    }
    let is_run = |id: &u32| runs.iter().any(|run| run.id == *id);
    if !job.sources.iter().all(is_run) {
        assert!(refused());
        return Err(9);
    }
    check_10(&job)?;
    job.parts.iter().try_for_each(check_11)?;
    check_12(&runs, &job)?;
    Ok((runs, job))
}
