//! Jobs to commit, each with the image that it is committed on.
use crate::shapes::{runs_within, table, Keys, Runs, Shape, SIZES};
use oracle::inputs::{image, Chance, Field, Writer};
use oracle::{Bound, Job, Part, Range, Run, Table};

const CEILING: usize = 65_536;
const SUPPLY: usize = 10 * 70_000;
/// Bytes of a table with keys of one byte, and enough for a job of two parts without tables.
const TINY_TABLE: usize = 47;
const TINY_JOB: usize = 32;

/// A job, and the runs that it is committed on.
pub struct Prepared {
    pub name: String,
    /// The size that the image was made for.
    pub size: usize,
    pub keys: Keys,
    pub runs: Vec<Run>,
    pub job: Job,
}

impl Prepared {
    /// No two ids are told apart by their last 8 bytes.
    fn with_equal_tails(mut self) -> Self {
        let views = self.runs.iter_mut().flat_map(|run| &mut run.views);
        let outputs = self.job.parts.iter_mut().flat_map(|part| &mut part.outputs);
        for table in views.map(|view| &mut view.table).chain(outputs) {
            table.id[8..].fill(0xEE);
        }
        self.name += ", ids of equal tails";
        self
    }

    /// The image has had a commit of the job's first half.
    fn after_an_earlier_commit(mut self) -> Self {
        let mut half = self.job.clone();
        for part in &mut half.parts {
            part.completed = false;
            part.outputs.truncate(part.outputs.len().div_ceil(2));
        }
        self.runs = oracle::commit(&self.runs, &half, &supply()).expect("a first commit");
        self.name += ", after an earlier commit";
        self
    }

    fn is_within_ceilings(&self) -> bool {
        let after = oracle::commit(&self.runs, &self.job, &supply());
        let after = image(&after.expect("the originals commit it"));
        job_image(&self.job).len() <= CEILING && after.len() <= CEILING
    }
}

/// A kind of job for an image of a shape.
struct Plan {
    shape: Shape,
    parts: usize,
    outputs: Outputs,
}

#[derive(Clone, Copy)]
enum Outputs {
    /// One a part.
    Few,
    /// About as many as the views that they replace.
    Many,
}

impl Plan {
    fn name(&self) -> String {
        let parts = match self.parts {
            1 => "one part".to_string(),
            parts => format!("{parts} parts"),
        };
        let outputs = match self.outputs {
            Outputs::Few => "few outputs",
            Outputs::Many => "many outputs",
        };
        format!("{}, {parts}, {outputs}", self.shape.name())
    }

    /// Every second part is completed; a single one is not. A part that is not is written up
    /// to its middle.
    fn job(&self, runs: &[Run]) -> Job {
        let mut chance = Chance(11);
        let views: usize = runs.iter().map(|run| run.views.len()).sum();
        let outputs = match self.outputs {
            Outputs::Few => 1,
            Outputs::Many => (views * 9 / 20 / self.parts).max(1),
        };
        let width = u32::MAX / self.parts as u32;
        let parts = (0..self.parts).map(|place| {
            let start = width * place as u32;
            let completed = place % 2 == 1;
            let span = if completed { width } else { width / 2 };
            Part {
                range: self.planned(place, width),
                completed,
                outputs: self.written(&mut chance, start, span, outputs),
            }
        });
        Job {
            destination: runs[0].id,
            sources: runs.iter().map(|run| run.id).collect(),
            parts: parts.collect(),
        }
    }

    fn planned(&self, place: usize, width: u32) -> Range {
        let key = |place: usize| self.shape.keys.at(width * place as u32);
        let start = match place {
            0 => Bound::Unbounded,
            _ => Bound::Included(key(place)),
        };
        let end = if place + 1 == self.parts {
            Bound::Unbounded
        } else {
            Bound::Excluded(key(place + 1))
        };
        (start, end)
    }

    /// So many outputs, side by side over a span of the key space.
    fn written(&self, chance: &mut Chance, start: u32, span: u32, count: usize) -> Vec<Table> {
        let step = span / (2 * count as u32 + 1);
        let key = |place: usize| self.shape.keys.at(start + step * place as u32);
        (0..count)
            .map(|place| table(chance, key(2 * place), key(2 * place + 1)))
            .collect()
    }

    /// An image near the size, small enough that the new one is within its ceiling. None if the
    /// job is not.
    fn prepared(&self, size: usize) -> Option<Prepared> {
        (1..=10)
            .rev()
            .filter_map(|tenths| {
                let runs = runs_within(&self.shape, size / 10 * tenths)?;
                Some(Prepared {
                    name: self.name(),
                    size,
                    keys: self.shape.keys,
                    job: self.job(&runs),
                    runs,
                })
            })
            .find(Prepared::is_within_ceilings)
    }
}

/// As many outputs as a job of the size can have, none of which is published, beside as many
/// views as an image of the size can have, of which each is kept: for the search of output ids.
fn unpublished(size: usize) -> Prepared {
    let shape = Shape {
        keys: Keys::Tiny,
        visible: 0,
        runs: Runs::One,
    };
    let runs = runs_within(&shape, size).expect("tiny keys fit");
    let mut chance = Chance(13);
    // Of the first part nothing but its last key is written, of the second its start alone.
    let mut outputs = |key: u8| {
        let tables = (0..(size - TINY_JOB) / 2 / TINY_TABLE)
            .map(|_| table(&mut chance, vec![key], vec![key]));
        tables.collect()
    };
    let (first, second) = (outputs(0), outputs(1));
    let part = |start, end, outputs| Part {
        range: (start, end),
        completed: false,
        outputs,
    };
    let parts = vec![
        part(Bound::Unbounded, Bound::Excluded(vec![1]), first),
        part(Bound::Included(vec![1]), Bound::Unbounded, second),
    ];
    let job = Job {
        destination: runs[0].id,
        sources: vec![runs[0].id],
        parts,
    };
    let name = "keys of 1 and 2, no visible ranges, one run, two parts, nothing published";
    Prepared {
        name: name.into(),
        size,
        keys: shape.keys,
        runs,
        job,
    }
}

fn plans() -> Vec<Plan> {
    use Outputs::{Few, Many};
    let plan = |keys, visible, runs, parts, outputs| Plan {
        shape: Shape {
            keys,
            visible,
            runs,
        },
        parts,
        outputs,
    };
    vec![
        plan(Keys::Short, 0, Runs::Two, 1, Few),
        plan(Keys::Short, 0, Runs::Two, 1, Many),
        plan(Keys::Short, 50, Runs::Many, 1, Many),
        plan(Keys::Short, 0, Runs::Two, 64, Few),
        plan(Keys::Short, 0, Runs::Two, 64, Many),
        plan(Keys::Short, 50, Runs::Many, 64, Many),
        plan(Keys::Stem(256), 0, Runs::Two, 1, Many),
        plan(Keys::Stem(256), 50, Runs::Two, 32, Few),
        plan(Keys::Spread(256), 0, Runs::Two, 32, Few),
        plan(Keys::Stem(1_024), 0, Runs::Two, 1, Few),
        plan(Keys::Stem(1_024), 0, Runs::Two, 8, Few),
    ]
}

pub fn all() -> Vec<Prepared> {
    let sized = |plan: &Plan| SIZES.map(|size| plan.prepared(size));
    let mut all: Vec<Prepared> = plans().iter().flat_map(sized).flatten().collect();
    let one_run = Plan {
        shape: Shape {
            keys: Keys::Short,
            visible: 0,
            runs: Runs::One,
        },
        parts: 1,
        outputs: Outputs::Many,
    };
    let of_one_run = || sized(&one_run).into_iter().flatten();
    all.extend(of_one_run().map(Prepared::with_equal_tails));
    all.extend(of_one_run().map(Prepared::after_an_earlier_commit));
    all.extend(SIZES.map(unpublished));
    all.extend(SIZES.map(|size| unpublished(size).with_equal_tails()));
    all
}

pub fn job_image(job: &Job) -> Vec<u8> {
    let mut writer = Writer::default();
    writer.put(Field::Destination, &job.destination.to_be_bytes());
    writer.put(Field::SourceCount, &[job.sources.len() as u8]);
    for source in &job.sources {
        writer.put(Field::Source, &source.to_be_bytes());
    }
    writer.put(Field::PartCount, &[job.parts.len() as u8]);
    for part in &job.parts {
        writer.range(&part.range);
        let word = u16::from(part.completed) << 15 | part.outputs.len() as u16;
        writer.put(Field::OutputCount, &word.to_be_bytes());
        part.outputs.iter().for_each(|table| writer.table(table));
    }
    writer.bytes
}

/// More ids than any job draws.
pub fn supply() -> Vec<u8> {
    let mut chance = Chance(17);
    (0..SUPPLY).map(|_| chance.next() as u8).collect()
}
