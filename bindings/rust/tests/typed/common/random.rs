//! Random values whose keys meet often, and damaged copies of bytes.
use bilqarush::typed::*;
use std::ops::Bound;

/// Numbers from a seed, the same at each run.
pub struct Chance(u64);

impl Chance {
    pub fn new(seed: u64) -> Chance {
        Chance(seed.wrapping_mul(0x9E37_79B9_7F4A_7C15) | 1)
    }

    pub fn number(&mut self) -> u64 {
        self.0 ^= self.0 << 13;
        self.0 ^= self.0 >> 7;
        self.0 ^= self.0 << 17;
        self.0.wrapping_mul(0x2545_F491_4F6C_DD1D)
    }

    /// A number below another.
    pub fn below(&mut self, end: usize) -> usize {
        (self.number() >> 33) as usize % end
    }

    pub fn one_in(&mut self, count: usize) -> bool {
        self.below(count) == 0
    }

    /// A short key of few letters; seldom one around the ceiling.
    pub fn key(&mut self) -> Vec<u8> {
        if self.one_in(200) {
            return vec![b'k'; 1023 + self.below(3)];
        }
        let length = self.below(4);
        (0..length).map(|_| b"\0abcm\xFF"[self.below(6)]).collect()
    }

    pub fn bound(&mut self) -> Bound<Vec<u8>> {
        match self.below(3) {
            0 => Bound::Unbounded,
            1 => Bound::Included(self.key()),
            _ => Bound::Excluded(self.key()),
        }
    }

    pub fn range(&mut self) -> Range {
        Range {
            start: self.bound(),
            end: self.bound(),
        }
    }

    /// A range as jobs plan it, as a rule.
    fn planned(&mut self, from: &[u8]) -> Range {
        if self.one_in(30) {
            return self.range();
        }
        Range {
            start: Bound::Included(from.to_vec()),
            end: Bound::Excluded([from, b"m"].concat()),
        }
    }

    fn size(&mut self) -> u64 {
        [0, 4096, 1 << 52, 1 << 53, u64::MAX][if self.one_in(40) { self.below(5) } else { 1 }]
    }

    pub fn table(&mut self) -> Table {
        let mut keys = [self.key(), self.key()];
        if !self.one_in(20) {
            keys.sort();
        }
        let [first, last] = keys;
        let table = Table::new(TableId(self.below(5) as u128), first)
            .with_index(self.size(), self.size())
            .with_filter(self.size());
        match self.one_in(5) {
            true => table,
            false => table.with_last_key(last),
        }
    }

    pub fn view(&mut self) -> View {
        let view = View::new(ViewId(self.number().into()), self.table());
        match self.one_in(3) {
            true => view.with_visible(self.range()),
            false => view,
        }
    }

    /// Views in the order of their first keys, as a rule.
    fn run(&mut self, id: u32) -> Run {
        let count = self.below(4);
        let mut views: Vec<_> = (0..count).map(|_| self.view()).collect();
        if !self.one_in(10) {
            views.sort_by(|a, b| a.table.first_key.cmp(&b.table.first_key));
        }
        Run::new(id, views)
    }

    pub fn image(&mut self) -> Image {
        let count = self.below(4);
        Image::new((0..count).map(|id| {
            let id = if self.one_in(20) { 1 } else { id };
            self.run(id as u32)
        }))
    }

    fn part(&mut self, from: &[u8]) -> Part {
        let mut part = Part::new(self.planned(from));
        let count = self.below(3);
        for letter in &b"ak"[..count] {
            let first = [from, &[*letter]].concat();
            let table = self.table();
            part.outputs.push(match self.one_in(10) {
                true => table,
                false => Table {
                    last_key: Some([&first, &b"c"[..]].concat()),
                    first_key: first,
                    ..table
                },
            });
        }
        part.completed = self.one_in(3);
        part
    }

    pub fn job(&mut self) -> Job {
        let count = self.below(4);
        let sources: Vec<_> = (0..count).map(|_| self.below(4) as u32).collect();
        let destination = match sources.first() {
            Some(source) if !self.one_in(10) => *source,
            _ => self.below(4) as u32,
        };
        let mut job = Job::new(destination, sources);
        let count = self.below(4);
        for from in &[&b""[..], b"n", b"o"][..count] {
            job.parts.push(self.part(from));
        }
        job
    }

    pub fn index(&mut self) -> Index {
        let count = self.below(5);
        let mut keys: Vec<_> = (0..count).map(|_| self.key()).collect();
        if !self.one_in(5) {
            keys.sort();
        }
        Index::new(keys.into_iter().map(|key| (self.number() >> 40, key)))
    }

    pub fn anchors(&mut self) -> Anchors {
        let count = self.below(5);
        Anchors::new((0..count).map(|_| {
            let bytes = if self.one_in(9) { 1 << 62 } else { 10 };
            (self.key(), bytes)
        }))
    }

    /// A copy with a byte changed, one bit changed, cut off, or with bytes put in or taken out.
    pub fn damaged(&mut self, bytes: &[u8]) -> Vec<u8> {
        let mut copy = bytes.to_vec();
        let at = self.below(bytes.len() + 1);
        match self.below(5) {
            0 => copy.truncate(at),
            1 => copy.insert(at, self.number() as u8),
            _ if at == bytes.len() => copy.push(0),
            2 => drop(copy.remove(at)),
            3 => copy[at] ^= 1 << self.below(8),
            _ => copy[at] = [0, 1, 3, 0x80, 0xFF][self.below(5)],
        }
        copy
    }
}
