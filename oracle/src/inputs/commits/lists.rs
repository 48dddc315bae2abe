//! Lists of commits.
use super::random::random_model;
use super::{two_runs, Inputs, Model};
use crate::answers::commits::{answer, undrawn, whole, Case, Deeds};
use crate::checks::{check_commit, outputs, read_image, runs_of};
use crate::inputs::{
    before, from, from_to, image, part, since, tables, view, write_job, Chance, EVERYTHING,
};
use crate::{Job, Part, Table};

/// The record of a job when of each part so many outputs are written.
fn record_at(job: &Job, stage: &[(usize, bool)]) -> Job {
    let parts = job
        .parts
        .iter()
        .zip(stage)
        .map(|(whole, (count, completed))| Part {
            range: whole.range.clone(),
            completed: *completed,
            outputs: whole.outputs[..*count].to_vec(),
        });
    Job {
        parts: parts.collect(),
        ..job.clone()
    }
}

/// A commit of this record that is refused, whatever the reason.
fn refused(good: &Case, job: &Job, chance: &mut Chance) -> Case {
    loop {
        let mut case = good.clone();
        let mut other = job.clone();
        let place = chance.below(job.parts.len());
        match chance.below(10) {
            0 => case.job.truncate(chance.below(good.job.len())),
            1 => case.job = (0..chance.below(30)).map(|_| chance.next() as u8).collect(),
            2 => case.job.push(0),
            3 => case
                .ids
                .truncate(case.ids.len().saturating_sub(*chance.of(&[1, 10, 20]))),
            4 => case.room = case.room.saturating_sub(1),
            5 => case.room = chance.below(case.room),
            6 => other.sources[0] = 5,
            7 => other.sources.push(6),
            8 => {
                let outputs = &mut other.parts[place].outputs;
                outputs.iter_mut().for_each(|table| table.last = None);
            }
            _ => {
                other.parts.reverse();
                other
                    .parts
                    .iter_mut()
                    .for_each(|part| part.outputs.reverse());
            }
        }
        if other != *job {
            case.job = write_job(&other).0;
        }
        if answer(&case, &mut Deeds::default()).is_err() {
            return case;
        }
    }
}

/// A list of commits of growing records of one job, refused ones among them. Each is given the
/// image that the last accepted one wrote.
fn list(out: &mut Inputs, model: &Model) {
    let first = image(&model.runs);
    let job = &model.job;
    let mut stage = vec![(0, false); job.parts.len()];
    let mut current = first.clone();
    let mut last: Option<Job> = None;
    let length = 3 + out.chance.below(6);
    let to_the_end = out.chance.percent(60);
    let mut accepted = 0;
    for place in 0..length {
        let chance = &mut out.chance;
        let is_last = place + 1 == length;
        if place > 0 || chance.percent(50) {
            for (part, (count, completed)) in job.parts.iter().zip(&mut stage) {
                if chance.percent(60) {
                    *count += chance.below(part.outputs.len() - *count + 1);
                }
                let all = *count == part.outputs.len();
                // Seldom a completed part gains outputs later.
                if part.completed && (all || chance.percent(3)) && chance.percent(50) {
                    *completed = true;
                }
            }
        }
        if is_last && to_the_end {
            for (part, (count, completed)) in job.parts.iter().zip(&mut stage) {
                (*count, *completed) = (part.outputs.len(), true);
            }
        }
        let record = record_at(job, &stage);
        let mut case = Model {
            runs: runs_of(read_image(&current).unwrap()),
            job: record.clone(),
        }
        .case(chance, 6);
        assert_eq!(case.image, current);
        // Some records may be refused as they are. At least two commits are let through.
        let late = place + 2 >= length && accepted < 2;
        if case.room > 0 && !late && !(is_last && to_the_end) && chance.percent(38) {
            case = refused(&case, &record, chance);
        }
        if let Ok(written) = out.to.take_listed(&case) {
            current = written;
            last = Some(record);
            accepted += 1;
        }
    }
    if let Some(last) = last {
        // The last accepted record, committed alone, makes the same of the first image.
        let alone = Model {
            runs: model.runs.clone(),
            job: last,
        };
        let alone = alone.case(&mut out.chance, 0);
        let alone = answer(&alone, &mut Deeds::default()).unwrap();
        assert_eq!(undrawn(&alone), undrawn(&current));
    }
    out.to.end_list(accepted);
}

/// A list in which something happens. Of tidy runs no views overlap at first.
pub fn random_list(out: &mut Inputs, tidy: bool) {
    let (small, chance) = (out.small, &mut out.chance);
    let mut model = loop {
        let model = random_model(chance, small, tidy);
        let written: usize = outputs(&model.job).count();
        let case = model.case(chance, 0);
        if written >= 2 && case.ids.len() >= 20 && case.room <= 20_000 {
            break model;
        }
    };
    // A view of an output table stands in the destination from the start on.
    if chance.percent(15) {
        let completed = model.job.parts.iter().filter(|part| part.completed);
        let tables: Vec<&Table> = completed.flat_map(|part| &part.outputs).collect();
        let mut runs = model.runs.iter_mut();
        let run = runs.find(|run| run.id == model.job.destination);
        if !tables.is_empty() {
            run.unwrap().views = vec![whole(tables[chance.below(tables.len())])];
        }
    }
    list(out, &model);
}

pub fn lists(count: usize, out: &mut Inputs) {
    for _ in 0..count {
        random_list(out, true);
    }
    // A list that ends in an image that no later commit takes: pieces of views that overlap.
    let views = [view(1, b"a", None, None), view(2, b"b", None, None)];
    let outputs = tables(20, &[(b"c", b"d"), (b"e", b"g")]);
    let mut model = two_runs(
        &[],
        &views,
        &[part(from_to(b"c", b"k"), false, &outputs[..1])],
    );
    let mut case = model.case(&mut out.chance, 0);
    case.image = out.to.take_listed(&case).unwrap();
    model.job.parts[0].outputs = outputs;
    case.job = write_job(&model.job).0;
    assert_eq!(out.to.take_listed(&case), Err(6));
    case.job = write_job(&record_at(&model.job, &[(2, true)])).0;
    assert_eq!(out.to.take_listed(&case), Err(6));
    out.to.end_list(1);
    // A second job after the first is complete, its sources emptied by then.
    for round in 0..3 {
        let old = [view(1, b"a", Some(b"z"), None)];
        let nine = [view(2, b"b", None, since(b"c"))];
        let outputs = tables(20, &[(b"c", b"f"), (b"g", b"p")]);
        let mut model = two_runs(&old, &nine, &[part(EVERYTHING, false, &outputs)]);
        let mut runs = model.runs.clone();
        for completed in [false, true, true] {
            model.job.parts[0].completed = completed;
            model.runs.clone_from(&runs);
            let case = model.case(&mut out.chance, 0);
            let written = out.to.take_listed(&case).unwrap();
            runs = check_commit(&written, &case.job).unwrap().0;
        }
        let again = tables(40, &[(b"c", b"m"), (b"n", b"p")]);
        let second = [
            part(before(b"m\0"), round == 1, &again[..1]),
            part(from(b"n"), round == 2, &again[1..]),
        ];
        let mut model = Model::new(&runs, 9, &[9, 7], &second);
        for _ in 0..2 {
            let case = model.case(&mut out.chance, 0);
            let written = out.to.take_listed(&case).unwrap();
            model.runs = check_commit(&written, &case.job).unwrap().0;
            model.job.parts[0].completed = true;
        }
        out.to.end_list(5);
    }
}
