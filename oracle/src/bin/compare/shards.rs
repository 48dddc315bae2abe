//! The work, in shards that any thread may take. What is found does not depend on which does.
use crate::comparison::{Comparison, Difference, Stopped};
use crate::tally::Tally;
use crate::wrong::Wrong;
use oracle::inputs::Chance;
use std::panic::{catch_unwind, AssertUnwindSafe};
use std::sync::atomic::{AtomicUsize, Ordering};
use std::sync::Mutex;

type Work = Box<dyn Fn(&mut Comparison, Chance) + Send + Sync>;

/// Shards in order; each has its own chance.
pub struct Shards {
    seed: u64,
    work: Vec<Work>,
}

impl Shards {
    pub fn new(seed: u64) -> Shards {
        Shards { seed, work: vec![] }
    }

    pub fn add(&mut self, work: impl Fn(&mut Comparison, Chance) + Send + Sync + 'static) {
        self.work.push(Box::new(work));
    }

    /// Some random inputs, in shards of at most so many.
    pub fn add_split(
        &mut self,
        count: usize,
        most: usize,
        work: impl Fn(&mut Comparison, Chance, usize) + Clone + Send + Sync + 'static,
    ) {
        let shards = count.div_ceil(most);
        for shard in 0..shards {
            let work = work.clone();
            let count = count * (shard + 1) / shards - count * shard / shards;
            self.add(move |to, chance| work(to, chance, count));
        }
    }

    /// Compares, and answers the counts and the first difference.
    pub fn run(&self, wrong: Option<Wrong>, loud: bool) -> (Tally, Option<Difference>) {
        let next = AtomicUsize::new(0);
        let least = AtomicUsize::new(usize::MAX);
        let done = Mutex::new(vec![]);
        let threads = std::thread::available_parallelism().map_or(1, |count| count.get());
        let take = || loop {
            let shard = next.fetch_add(1, Ordering::Relaxed);
            if shard >= self.work.len() || least.load(Ordering::Relaxed) < shard {
                return;
            }
            let (tally, difference) = self.one(shard, &least, wrong);
            done.lock().unwrap().push((shard, tally, difference));
            if loud && (shard + 1) % 50 == 0 {
                eprintln!("{} of {} shards", shard + 1, self.work.len());
            }
        };
        std::thread::scope(|scope| {
            for _ in 0..threads {
                scope.spawn(take);
            }
        });
        up_to_first(done.into_inner().unwrap())
    }

    fn one(
        &self,
        shard: usize,
        least: &AtomicUsize,
        wrong: Option<Wrong>,
    ) -> (Tally, Option<Difference>) {
        let mut comparison = Comparison::new(shard, least, wrong);
        let mut chance = Chance(self.seed.wrapping_mul(1 << 20).wrapping_add(shard as u64));
        let chance = Chance(chance.next());
        let outcome = catch_unwind(AssertUnwindSafe(|| {
            (self.work[shard])(&mut comparison, chance);
        }));
        if let Err(payload) = outcome {
            if !payload.is::<Stopped>() {
                least.fetch_min(shard, Ordering::Relaxed);
                let message = payload
                    .downcast_ref::<String>()
                    .cloned()
                    .or_else(|| payload.downcast_ref::<&str>().map(|text| text.to_string()));
                let message = message.unwrap_or_default();
                comparison.difference = Some(Difference::Panic(message));
            }
        }
        (comparison.tally, comparison.difference)
    }
}

/// The counts up to the first difference, and that difference. All shards before it were done.
fn up_to_first(mut done: Vec<(usize, Tally, Option<Difference>)>) -> (Tally, Option<Difference>) {
    done.sort_by_key(|(shard, ..)| *shard);
    let mut all = Tally::default();
    for (_, tally, difference) in done {
        all.add(tally);
        if difference.is_some() {
            return (all, difference);
        }
    }
    (all, None)
}
