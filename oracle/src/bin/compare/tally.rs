//! How many inputs were compared.
use crate::call::{mixed, Call};
use std::collections::BTreeMap;

#[derive(Default)]
pub struct Tally {
    /// Of each call how many were answered, and how many refused by each stop.
    calls: BTreeMap<Call, [u64; 17]>,
    /// Marks of the inputs of range calls, of the images, of the commits, of the lookups and of the
    /// calls on visible sizes.
    pub ranges: Vec<u64>,
    pub images: Vec<u64>,
    pub commits: Vec<u64>,
    pub lookups: Vec<u64>,
    pub sizes: Vec<u64>,
    /// The same of the calls that sample or plan.
    pub planned: Vec<u64>,
    /// The same of the calls on durable intervals; of their answers how many have no range, one and several.
    pub progress: Vec<u64>,
    pub answered: [u64; 3],
    /// Marks of the plans that were answered, whatever the lent buffer; how many of them have several
    /// ranges, and how many have more bytes than an image may.
    pub plans: Vec<u64>,
    pub split: u64,
    pub long: u64,
    /// Marks of the views whose fractions were compared, whatever image they are in.
    pub views: Vec<u64>,
    /// How many of them are shown in part.
    pub parts: u64,
    pub listed: u64,
    /// Lists, and those of them of whose last accepted record demand 3 speaks.
    pub lists: u64,
    pub held: u64,
    /// Of each call the mark of one input, any of them, for the self-test.
    pub picked: BTreeMap<Call, u64>,
}

impl Tally {
    pub fn count(&mut self, call: Call, stop: u8, mark: u64) {
        self.calls.entry(call).or_insert([0; 17])[usize::from(stop)] += 1;
        self.pick(call, mark);
    }

    /// The least by a number that has nothing to do with the order of the inputs.
    fn pick(&mut self, call: Call, mark: u64) {
        let picked = self.picked.entry(call).or_insert(mark);
        if mixed(mark, 7) < mixed(*picked, 7) {
            *picked = mark;
        }
    }

    pub fn add(&mut self, mut more: Tally) {
        for (call, counts) in more.calls {
            let all = self.calls.entry(call).or_insert([0; 17]);
            all.iter_mut()
                .zip(counts)
                .for_each(|(all, more)| *all += more);
        }
        for (call, mark) in more.picked {
            self.pick(call, mark);
        }
        self.ranges.append(&mut more.ranges);
        self.images.append(&mut more.images);
        self.commits.append(&mut more.commits);
        self.lookups.append(&mut more.lookups);
        self.sizes.append(&mut more.sizes);
        self.views.append(&mut more.views);
        self.planned.append(&mut more.planned);
        self.plans.append(&mut more.plans);
        self.progress.append(&mut more.progress);
        let answered = self.answered.iter_mut().zip(more.answered);
        answered.for_each(|(all, more)| *all += more);
        self.split += more.split;
        self.long += more.long;
        self.parts += more.parts;
        self.listed += more.listed;
        self.lists += more.lists;
        self.held += more.held;
    }

    pub fn print(mut self) {
        println!(
            "{:<40}{:>12}{:>12}  refused by each stop",
            "call", "inputs", "answered"
        );
        for (call, counts) in &self.calls {
            let all: u64 = counts.iter().sum();
            let stops = (1..17).filter(|stop| counts[*stop] > 0);
            let stops: Vec<String> = stops
                .map(|stop| format!("{stop}: {}", counts[stop]))
                .collect();
            let (name, stops) = (call.name(), stops.join(", "));
            println!("{name:<40}{all:>12}{:>12}  {stops}", counts[0]);
        }
        let ranges = distinct(&mut self.ranges);
        println!(
            "range calls: {} inputs, {ranges} of them distinct",
            self.ranges_all()
        );
        let (all, images) = (self.images.len(), distinct(&mut self.images));
        println!("images: {all}, {images} of them distinct");
        let (all, commits) = (self.commits.len(), distinct(&mut self.commits));
        println!(
            "commits: {all}, {commits} of them distinct (whatever the lent buffer); {} of them in \
             {} lists, {} of them held to demand 3",
            self.listed, self.lists, self.held
        );
        let (all, lookups) = (self.lookups.len(), distinct(&mut self.lookups));
        println!("lookups: {all} inputs, {lookups} of them distinct");
        let (all, sizes) = (self.sizes.len(), distinct(&mut self.sizes));
        println!("visible sizes: {all} inputs, {sizes} of them distinct");
        let (all, views) = (self.views.len(), distinct(&mut self.views));
        println!(
            "visible fractions of {all} views, {views} of them distinct by keys and raw size; {} are parts",
            self.parts
        );
        let (all, planned) = (self.planned.len(), distinct(&mut self.planned));
        println!("samples and plans: {all} inputs, {planned} of them distinct");
        let (all, plans) = (self.plans.len(), distinct(&mut self.plans));
        println!(
            "plans: {all} answered, {plans} of them distinct (whatever the lent buffer); {} have several \
             ranges, {} over 65,536 bytes",
            self.split, self.long
        );
        let (all, progress) = (self.progress.len(), distinct(&mut self.progress));
        let [none, one, several] = self.answered;
        println!(
            "durable intervals: {all} inputs, {progress} of them distinct; {none} answers have no range, {one} \
             one, {several} several"
        );
    }

    fn ranges_all(&self) -> u64 {
        let on_ranges = self.calls.iter().filter(|(call, _)| call.is_on_ranges());
        on_ranges.flat_map(|(_, counts)| counts).sum()
    }
}

/// How many different marks there are: at most as many as inputs.
fn distinct(marks: &mut [u64]) -> usize {
    marks.sort_unstable();
    let next = marks.windows(2).filter(|pair| pair[0] != pair[1]);
    next.count() + usize::from(!marks.is_empty())
}
