//! The checks of the calls on durable intervals: a job alone, and an interval with a range.
use super::{
    check_10, check_11, check_7, descends, outputs, pass, planned, read_job, read_range, Checked,
    Durable,
};
use crate::{key_of, Job, Range};

/// What `from_compaction` is asked: a commit's checks, but for those of an image.
pub fn check_job(job: &[u8]) -> Checked<Job> {
    let job = read_job(job)?;
    job.parts.iter().try_for_each(|part| pass(&part.range))?;
    if outputs(&job).any(descends) {
        return Err(5);
    }
    outputs(&job).try_for_each(check_7)?;
    if !job.sources.contains(&job.destination) {
        return Err(8);
    }
    check_10(&job)?;
    job.parts.iter().try_for_each(check_11)?;
    Ok(job)
}

/// What `subtract_from` is asked: 4 is of either, 10 of the interval.
pub fn check_subtraction(interval: &[u8], range: &[u8]) -> Checked<(Durable, Range)> {
    let interval = read_range(interval)?;
    let range = read_range(range)?;
    pass(&interval).and(pass(&range))?;
    planned(&interval)?;
    let interval = Durable {
        start: key_of(&interval.0).cloned(),
        end: key_of(&interval.1).cloned(),
    };
    Ok((interval, range))
}
