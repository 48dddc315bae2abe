//! Jobs.
use super::{of_job, progress, Inputs};
use crate::answers::commits::{answer, Case, Deeds};
use crate::answers::progress::value;
use crate::checks::{Checked, Stop};
use crate::inputs::commits::{self, every, random_job};
use crate::inputs::{before, from, from_to, part, table, tables, Chance, EVERYTHING};
use crate::{kind_of, Job, Part};
use std::collections::{BTreeMap, HashMap, HashSet};

/// A job of run 7 alone.
fn job(parts: &[Part]) -> Job {
    Job {
        destination: 7,
        sources: vec![7],
        parts: parts.to_vec(),
    }
}

/// The papers' own, and others that a port may take for something else.
pub fn few_jobs(out: &mut Inputs) {
    let mut list: Vec<Vec<Part>> = vec![vec![]];
    let to_f = tables(20, &[(b"c", b"d"), (b"d", b"f")]);
    for completed in [false, true] {
        let one = |range, outputs: &[_]| vec![part(range, completed, outputs)];
        for range in [EVERYTHING, before(b"g"), from(b"c"), from_to(b"c", b"g")] {
            // The last written key is the start, or follows it at once.
            for last in [&b"c"[..], b"c\0", b"f"] {
                list.push(one(range.clone(), &[table(20, b"c", Some(last))]));
            }
            list.push(one(range.clone(), &[]));
            list.push(one(range, &to_f));
        }
        // The empty key: an interval that passes and holds nothing, or none.
        let empty = [table(20, b"", Some(b""))];
        for range in [EVERYTHING, before(b"\0"), from(b""), from_to(b"", b"\0")] {
            list.push(one(range, &empty));
        }
        list.push(one(before(b""), &[]));
        for other in [false, true] {
            let second = tables(22, &[(b"g", b"g"), (b"g", b"h")]);
            for gap in [&b"g"[..], b"g\0"] {
                let outputs = if gap == b"g" { &second[..] } else { &[] };
                let next = part(from(gap), other, outputs);
                list.push([one(from_to(b"c", b"g"), &to_f), vec![next]].concat());
            }
        }
    }
    // Of several parts some have an interval.
    let parts = (0..6u8).map(|place| {
        let range = from_to(&[10 * place], &[10 * place + 10]);
        let outputs = [table(place, &[10 * place], Some(&[10 * place + place]))];
        part(range, place == 4, &outputs[..usize::from(place != 2)])
    });
    list.push(parts.collect());
    for parts in list {
        out.put_with_each_room(&progress(&job(&parts)));
    }
}

/// Any parts over a few keys, alone and two at a time.
pub fn every_job(out: &mut Inputs) {
    let keys = every::few_keys();
    let classed = |parts: &[Part], out: &mut Inputs| {
        let case = progress(&job(parts));
        let mut class = match value(&case) {
            Err(stop) => vec![stop],
            Ok(ranges) => vec![0, ranges.len() as u8],
        };
        for part in parts {
            class.extend([kind_of(&part.range.0), kind_of(&part.range.1)]);
            class.extend([u8::from(part.completed), part.outputs.len() as u8]);
        }
        if out.some(1, &class) {
            out.put(&case);
        }
    };
    for part in every::any_parts(&keys) {
        classed(&[part], out);
    }
    for part in every::good_parts(&keys, true) {
        classed(&[part], out);
    }
    let two = every::good_parts(&keys, false);
    for first in &two {
        for second in &two {
            classed(&[first.clone(), second.clone()], out);
        }
    }
}

/// The jobs of commits, each once.
struct JobsOf<'a, 'b> {
    to: &'a mut Inputs<'b>,
    seen: HashSet<Vec<u8>>,
}

impl JobsOf<'_, '_> {
    fn put(&mut self, job: &[u8]) {
        if !self.seen.insert(job.to_vec()) {
            return;
        }
        let case = of_job(job);
        let stop = value(&case).err().unwrap_or(0);
        if self.to.some(60, &[stop]) {
            self.to.put(&case);
        }
    }
}

impl commits::Takes for JobsOf<'_, '_> {
    fn take(&mut self, case: &Case) -> Stop {
        self.put(&case.job);
        answer(case, &mut Deeds::default()).err().unwrap_or(0)
    }

    fn take_listed(&mut self, case: &Case) -> Checked<Vec<u8>> {
        self.put(&case.job);
        answer(case, &mut Deeds::default())
    }

    fn end_list(&mut self, _accepted: usize) {}
}

/// Those of commits that are odd, damaged, faulty or at the ceilings.
pub fn jobs_of_commits(out: &mut Inputs) {
    let (small, chance) = (out.small, Chance(out.chance.next()));
    let mut jobs = JobsOf {
        to: out,
        seen: HashSet::new(),
    };
    let mut made = commits::Inputs {
        to: &mut jobs,
        small,
        chance,
        classes: HashMap::new(),
        pairs: BTreeMap::new(),
    };
    commits::odd(&mut made);
    commits::damage(&mut made);
    commits::ends(&mut made);
    commits::pairs(&mut made);
    commits::ceilings(&mut made);
}

pub fn random_jobs(count: usize, out: &mut Inputs) {
    for _ in 0..count {
        let small = out.small;
        let case = of_job(&random_job(&mut out.chance, small));
        out.put(&case);
    }
}
