//! Commits, alone and in lists.
mod ceilings;
mod damage;
mod draws;
pub mod every;
mod faults;
mod lists;
pub mod near;
mod odd;
mod random;

pub use ceilings::{ceilings, uncovered_among_runs};
pub use damage::{damage, damaged, ends};
pub use draws::{draws, most_pieces};
pub use faults::pairs;
pub use lists::{lists, random_list};
pub use odd::odd;
pub use random::{random, random_job};

use super::{image, run, view, write_job, Chance};
use crate::answers::commits::{answer, new_runs, Case, Deeds, Supply};
use crate::checks::{check_commit, Checked, Stop};
use crate::{Job, Part, Run, View};
use std::collections::{BTreeMap, HashMap};

/// The longest buffer that a record can be about.
pub const MOST_ROOM: usize = 131_072;

/// Takes the commits that are made here.
pub trait Takes {
    /// A commit alone. Answers its stop, 0 if none.
    fn take(&mut self, case: &Case) -> Stop;
    /// A commit in a list. Answers the new image.
    fn take_listed(&mut self, case: &Case) -> Checked<Vec<u8>>;
    /// The list ends; so many of its commits were accepted.
    fn end_list(&mut self, accepted: usize);
}

/// Makes commits: few of each kind in a small run.
pub struct Inputs<'a> {
    pub to: &'a mut dyn Takes,
    pub small: bool,
    pub chance: Chance,
    /// Commits kept in each class of `some`.
    pub classes: HashMap<Vec<u8>, usize>,
    /// Stops by two faults that were made at once.
    pub pairs: BTreeMap<(Stop, Stop), BTreeMap<Stop, usize>>,
}

impl Inputs<'_> {
    pub fn put(&mut self, case: &Case) -> Stop {
        self.to.take(case)
    }

    /// A commit that is accepted.
    fn good(&mut self, case: &Case) {
        assert_eq!(self.put(case), 0);
    }

    /// With the room that is just enough, and one byte short; with the supply that is just
    /// enough, a byte short and ten, and with bytes that are left over.
    fn put_around(&mut self, case: &Case) {
        let length = answer(case, &mut Deeds::default()).unwrap().len();
        let mut case = case.clone();
        for room in [length, length - 1, length + 1] {
            case.room = room;
            let stop = self.put(&case);
            assert_eq!(stop, if room < length { 16 } else { 0 });
        }
        let used = case.ids.len();
        case.ids.extend([7; 13]);
        self.good(&case);
        for short in [1, 10].into_iter().filter(|short| *short <= used) {
            case.ids.truncate(used - short);
            // Also where the room is short: 14 comes first.
            for room in [length, 0] {
                case.room = room;
                assert_eq!(self.put(&case), 14);
            }
        }
    }

    /// Whether a case of this class is still wanted: in a small run `limit` of each.
    fn some(&mut self, limit: usize, class: &[u8]) -> bool {
        if !self.small {
            return true;
        }
        let kept = self.classes.entry(class.to_vec()).or_insert(0);
        *kept += 1;
        *kept <= limit
    }
}

/// An image and a job, as values.
#[derive(Clone)]
pub struct Model {
    pub runs: Vec<Run>,
    pub job: Job,
}

impl Model {
    pub fn new(runs: &[Run], destination: u32, sources: &[u32], parts: &[Part]) -> Model {
        Model {
            runs: runs.to_vec(),
            job: Job {
                destination,
                sources: sources.to_vec(),
                parts: parts.to_vec(),
            },
        }
    }

    /// A case with the supply and the room that are just enough, or none if it is refused. Of
    /// 100 draws so many give the old id.
    pub fn case(&self, chance: &mut Chance, again: usize) -> Case {
        let mut case = Case {
            image: image(&self.runs),
            job: write_job(&self.job).0,
            ids: vec![],
            room: 0,
        };
        if let Ok((runs, job)) = check_commit(&case.image, &case.job) {
            let mut supply = Supply::Made(&mut case.ids, chance, again);
            let runs = new_runs(&runs, &job, &mut supply, &mut Deeds::default());
            case.room = image(&runs.unwrap()).len().min(MOST_ROOM);
        }
        case
    }
}

/// A run 7 and a run 9, the destination being 7 and both sources.
fn two_runs(seven: &[View], nine: &[View], parts: &[Part]) -> Model {
    Model::new(&[run(7, seven), run(9, nine)], 7, &[7, 9], parts)
}

/// Not only with the two runs, but with the destination alone.
fn both(models: &mut Vec<Model>, seven: &[View], parts: &[Part]) {
    models.push(two_runs(seven, &[view(2, b"b", None, None)], parts));
    models.push(Model::new(&[run(7, seven)], 7, &[7], parts));
}
