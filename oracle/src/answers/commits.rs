//! What a commit answers.
use crate::checks::{
    all_durable, check_commit, durable, last_written, left_of, outputs, read_image, runs_of,
    start_of, Checked, BUFFER_CEILING, VIEW_CEILING,
};
use crate::inputs::{image, write_image, Chance, Field};
use crate::{Job, OracleError, Run, Table, View};
use std::fmt;

/// The bits of a drawn id stand from here on.
pub const DRAWN: usize = 6;

/// What a commit did.
#[derive(Default)]
pub struct Deeds {
    pub draws: usize,
    pub second_draws: usize,
    pub whole_outputs: usize,
    pub cut_outputs: usize,
    pub dropped_outputs: usize,
    pub left_out_outputs: usize,
    pub kept_views: usize,
    pub cut_views: usize,
    pub split_views: usize,
    pub removed_views: usize,
    pub replaced_views: usize,
}

impl Deeds {
    pub fn add(&mut self, more: &Deeds) {
        self.draws += more.draws;
        self.second_draws += more.second_draws;
        self.whole_outputs += more.whole_outputs;
        self.cut_outputs += more.cut_outputs;
        self.dropped_outputs += more.dropped_outputs;
        self.left_out_outputs += more.left_out_outputs;
        self.kept_views += more.kept_views;
        self.cut_views += more.cut_views;
        self.split_views += more.split_views;
        self.removed_views += more.removed_views;
        self.replaced_views += more.replaced_views;
    }
}

impl fmt::Display for Deeds {
    fn fmt(&self, to: &mut fmt::Formatter) -> fmt::Result {
        write!(
            to,
            "{} draws, {} of them again; outputs {} whole, {} cut, {} dropped, {} in no \
             interval; views {} kept, {} pieces, {} split, {} removed, {} replaced",
            self.draws,
            self.second_draws,
            self.whole_outputs,
            self.cut_outputs,
            self.dropped_outputs,
            self.left_out_outputs,
            self.kept_views,
            self.cut_views,
            self.split_views,
            self.removed_views,
            self.replaced_views
        )
    }
}

pub enum Supply<'a> {
    Lent(&'a [u8]),
    /// Made as it is drawn from; so many of 100 draws give the old id.
    Made(&'a mut Vec<u8>, &'a mut Chance, usize),
}

impl Supply<'_> {
    fn ten(&mut self, old: &[u8; 16]) -> Checked<[u8; 10]> {
        match self {
            Supply::Lent(bytes) => {
                let (ten, rest) = bytes.split_first_chunk::<10>().ok_or(14)?;
                *bytes = rest;
                Ok(*ten)
            }
            Supply::Made(bytes, chance, percent) => {
                let mut ten = [0; 10];
                ten[..8].copy_from_slice(&chance.next().to_be_bytes());
                ten[8..].copy_from_slice(&chance.next().to_be_bytes()[..2]);
                if chance.percent(*percent) {
                    ten.copy_from_slice(&old[DRAWN..]);
                }
                bytes.extend(ten);
                Ok(ten)
            }
        }
    }

    /// The time of an old id with the next ten bytes; again if that is the old id.
    fn draw(&mut self, old: &[u8; 16], deeds: &mut Deeds) -> Checked<[u8; 16]> {
        let mut id = *old;
        id[DRAWN..].copy_from_slice(&self.ten(old)?);
        deeds.draws += 1;
        while id == *old {
            id[DRAWN..].copy_from_slice(&self.ten(old)?);
            deeds.draws += 1;
            deeds.second_draws += 1;
        }
        Ok(id)
    }
}

pub fn whole(table: &Table) -> View {
    View {
        id: table.id,
        table: table.clone(),
        visible: None,
    }
}

/// The views of a job's outputs that a commit adds to the destination.
fn output_views(job: &Job, supply: &mut Supply, deeds: &mut Deeds) -> Checked<Vec<View>> {
    let mut views = vec![];
    for part in &job.parts {
        let Some(interval) = durable(part) else {
            deeds.left_out_outputs += part.outputs.len();
            continue;
        };
        for table in &part.outputs {
            if part.completed || table.last.as_ref() != last_written(part) {
                deeds.whole_outputs += 1;
                views.push(whole(table));
            } else if Some(&table.first) == last_written(part) {
                deeds.dropped_outputs += 1;
            } else {
                deeds.cut_outputs += 1;
                views.push(View {
                    id: supply.draw(&table.id, deeds)?,
                    table: table.clone(),
                    visible: Some(interval.range()),
                });
            }
        }
    }
    Ok(views)
}

/// The runs after a commit that passes the checks 1 to 12, or stop 14.
pub fn new_runs(
    runs: &[Run],
    job: &Job,
    supply: &mut Supply,
    deeds: &mut Deeds,
) -> Checked<Vec<Run>> {
    let intervals = all_durable(job);
    let added = output_views(job, supply, deeds)?;
    let mut answer = vec![];
    for run in runs {
        if !job.sources.contains(&run.id) {
            answer.push(run.clone());
            continue;
        }
        let mut views = vec![];
        for view in &run.views {
            let range = crate::effective_range(view).unwrap();
            let left = left_of(&intervals, &range);
            if left == [range] {
                deeds.kept_views += 1;
                views.push(view.clone());
                continue;
            }
            let is_output = outputs(job).any(|table| table.id == view.table.id);
            if run.id == job.destination && is_output {
                // Check 12.
                assert!(left.is_empty());
                deeds.replaced_views += 1;
            } else if left.is_empty() {
                deeds.removed_views += 1;
            }
            deeds.cut_views += left.len();
            deeds.split_views += usize::from(left.len() > 1);
            for range in left {
                views.push(View {
                    id: supply.draw(&view.id, deeds)?,
                    table: view.table.clone(),
                    visible: Some(range),
                });
            }
        }
        if run.id == job.destination {
            views.extend(added.iter().cloned());
            // Views that start at one key keep their order.
            views.sort_by_key(|view| start_of(&crate::effective_range(view).unwrap()).clone());
        }
        answer.push(Run { id: run.id, views });
    }
    Ok(answer)
}

/// The arguments of a commit.
#[derive(Clone, Debug, Default, PartialEq, Eq, Hash)]
pub struct Case {
    pub image: Vec<u8>,
    pub job: Vec<u8>,
    pub ids: Vec<u8>,
    /// Length of the lent buffer.
    pub room: usize,
}

/// The new image.
pub fn answer(case: &Case, deeds: &mut Deeds) -> Checked<Vec<u8>> {
    let (runs, job) = check_commit(&case.image, &case.job)?;
    let mine = new_runs(&runs, &job, &mut Supply::Lent(&case.ids), deeds);
    let original = crate::commit_counted(&runs, &job, &case.ids);
    let runs = match (mine, original) {
        (Err(14), Err(OracleError::SupplyUsedUp)) => return Err(14),
        (Ok(mine), Ok(committed)) => {
            assert_eq!(mine, committed.runs);
            assert_eq!(deeds.draws * 10, committed.used);
            committed.runs
        }
        (mine, original) => panic!("{mine:?}, the original: {original:?}"),
    };
    let many = |run: &Run| run.views.len() > usize::from(VIEW_CEILING);
    if runs.iter().any(many) {
        return Err(15);
    }
    let bytes = image(&runs);
    if bytes.len() > BUFFER_CEILING {
        return Err(15);
    }
    if case.room < bytes.len() {
        return Err(16);
    }
    Ok(bytes)
}

/// An image with the drawn bits of its view ids taken away.
pub fn undrawn(bytes: &[u8]) -> Vec<u8> {
    let mut undrawn = bytes.to_vec();
    for mark in write_image(&runs_of(read_image(bytes).unwrap())).1 {
        if mark.field == Field::ViewId {
            undrawn[mark.at + DRAWN..mark.at + 16].fill(0);
        }
    }
    undrawn
}
