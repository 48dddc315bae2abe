//! What the proved calls say of the images and of the job.
use super::Picture;
use bilqarush::typed::{
    check_image, compacted_effective_range, from_compaction_to_plan, Image, ImageBytes, Job,
    JobBytes, Range, Stop, Table, TableId,
};
use std::ops::Bound;

/// A table and the keys that are shown through it.
pub(super) struct Shown {
    pub(super) table: TableId,
    pub(super) range: Range,
}

pub(super) struct ShownRun {
    pub(super) id: u32,
    pub(super) views: Vec<Shown>,
}

/// A job, with what is durable of it.
pub(super) struct Progress<'a> {
    pub(super) job: &'a Job,
    pub(super) outputs: Vec<Vec<Shown>>,
    pub(super) durable: Vec<Range>,
}

pub(super) struct Facts<'a> {
    pub(super) scenes: Vec<Vec<ShownRun>>,
    pub(super) progress: Option<Progress<'a>>,
}

impl<'a> Facts<'a> {
    pub(super) fn new(picture: &Picture<'a>) -> Result<Facts<'a>, Stop> {
        let scenes = picture.scenes.iter().map(|scene| shown(scene.image));
        Ok(Facts {
            scenes: scenes.collect::<Result<_, _>>()?,
            progress: picture.job.map(progress).transpose()?,
        })
    }

    /// Every range that has a bar.
    pub(super) fn ranges(&self) -> Vec<&Range> {
        let runs = self.scenes.iter().flatten();
        let mut ranges: Vec<&Range> = runs
            .flat_map(|run| &run.views)
            .map(|view| &view.range)
            .collect();
        if let Some(progress) = &self.progress {
            ranges.extend(progress.job.parts.iter().map(|part| &part.range));
            ranges.extend(progress.outputs.iter().flatten().map(|table| &table.range));
            ranges.extend(&progress.durable);
        }
        ranges
    }
}

fn shown(image: &Image) -> Result<Vec<ShownRun>, Stop> {
    let bytes = image.to_bytes()?;
    let bytes = ImageBytes(&bytes);
    check_image(bytes)?;
    let runs = image.runs.iter().enumerate().map(|(place, run)| {
        let views = run.views.iter().enumerate().map(|(view, of)| {
            let range = compacted_effective_range(bytes, place, view)?.owned();
            let table = of.table.id;
            Ok(Shown { table, range })
        });
        let views = views.collect::<Result<_, Stop>>()?;
        Ok(ShownRun { id: run.id, views })
    });
    runs.collect()
}

fn progress(job: &Job) -> Result<Progress<'_>, Stop> {
    let bytes = job.to_bytes()?;
    let durable = from_compaction_to_plan(JobBytes(&bytes))?.ranges;
    let outputs = job.parts.iter();
    let outputs = outputs.map(|part| part.outputs.iter().map(output).collect());
    Ok(Progress {
        job,
        outputs: outputs.collect(),
        durable,
    })
}

/// An output is shown by its own range, from its first key to its last. One without a last key is refused before this.
fn output(table: &Table) -> Shown {
    let last = table.last_key.clone();
    let range = Range {
        start: Bound::Included(table.first_key.clone()),
        end: last.map_or(Bound::Unbounded, Bound::Included),
    };
    let table = table.id;
    Shown { table, range }
}
