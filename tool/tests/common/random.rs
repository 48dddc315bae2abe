//! Random values of all kinds, also such that the library refuses.
use bilqarush::typed::{
    Anchor, Anchors, Block, Image, Index, Job, Part, Plan, Range, Run, Table, TableId, View, ViewId,
};
use std::ops::Bound;

/// A small generator, xorshift64.
pub struct Random(u64);

impl Random {
    pub fn new(seed: u64) -> Random {
        Random(seed.wrapping_mul(0x9E37_79B9_7F4A_7C15) | 1)
    }

    pub fn next(&mut self) -> u64 {
        self.0 ^= self.0 << 13;
        self.0 ^= self.0 >> 7;
        self.0 ^= self.0 << 17;
        self.0.wrapping_mul(0x2545_F491_4F6C_DD1D) >> 8 ^ self.0
    }

    /// A number below another.
    pub fn below(&mut self, most: usize) -> usize {
        (self.next() % most as u64) as usize
    }

    pub fn list<T>(&mut self, most: usize, mut make: impl FnMut(&mut Random) -> T) -> Vec<T> {
        let count = self.below(most + 1);
        (0..count).map(|_| make(self)).collect()
    }

    /// A key: of any bytes, of printable ones, or one that looks like something else in a text.
    pub fn key(&mut self) -> Vec<u8> {
        const ODD: &[&str] = &[
            "", "-", "--", "0x", "0x61", "0X61", "x0", "#", "a#b", " ", "\"", "\\", "[", "]", "(",
            ")", "visible", "index", "filter", "a b", "\t", "\n", "\r\n", "\u{7f}", "é", "'",
        ];
        match self.below(5) {
            0 => ODD[self.below(ODD.len())].as_bytes().to_vec(),
            1 => self.list(12, |random| random.next() as u8),
            2 => self.list(12, |random| b' ' + random.below(95) as u8),
            3 => self.list(4, |random| b'a' + random.below(3) as u8),
            _ => match self.below(40) {
                0 => vec![self.next() as u8; 1024],
                _ => format!("lamp/{}", self.below(100)).into_bytes(),
            },
        }
    }

    pub fn number(&mut self) -> u64 {
        match self.below(4) {
            0 => 0,
            1 => u64::MAX - self.below(2) as u64,
            2 => self.next(),
            _ => self.below(10_000) as u64,
        }
    }

    fn run_id(&mut self) -> u32 {
        self.number() as u32
    }

    fn id(&mut self) -> u128 {
        match self.below(3) {
            0 => self.below(20) as u128,
            1 => u128::from(self.number()) + self.below(2) as u128,
            _ => u128::from(self.next()) << 64 | u128::from(self.next()),
        }
    }

    fn bound(&mut self) -> Bound<Vec<u8>> {
        match self.below(3) {
            0 => Bound::Unbounded,
            1 => Bound::Included(self.key()),
            _ => Bound::Excluded(self.key()),
        }
    }

    pub fn range(&mut self) -> Range {
        Range {
            start: self.bound(),
            end: self.bound(),
        }
    }

    fn table(&mut self) -> Table {
        let zeros = self.below(3) == 0;
        let mut number = || if zeros { 0 } else { self.number() };
        let (index_offset, index_len, filter_offset) = (number(), number(), number());
        Table {
            id: TableId(self.id()),
            index_offset,
            index_len,
            filter_offset,
            first_key: self.key(),
            last_key: (self.below(3) > 0).then(|| self.key()),
        }
    }

    fn view(&mut self) -> View {
        View {
            id: ViewId(self.id()),
            table: self.table(),
            visible: (self.below(2) > 0).then(|| self.range()),
        }
    }

    pub fn image(&mut self) -> Image {
        Image::new(self.list(4, |random| {
            Run::new(random.run_id(), random.list(5, Random::view))
        }))
    }

    pub fn job(&mut self) -> Job {
        Job {
            destination: self.run_id(),
            sources: self.list(4, Random::run_id),
            parts: self.list(4, |random| Part {
                range: random.range(),
                completed: random.below(2) > 0,
                outputs: random.list(3, Random::table),
            }),
        }
    }

    pub fn index(&mut self) -> Index {
        let blocks = self.list(8, |random| Block {
            offset: random.number(),
            first_key: random.key(),
        });
        Index { blocks }
    }

    pub fn anchors(&mut self) -> Anchors {
        let anchors = self.list(8, |random| Anchor {
            key: random.key(),
            bytes: random.number(),
        });
        Anchors { anchors }
    }

    pub fn plan(&mut self) -> Plan {
        Plan {
            ranges: self.list(8, Random::range),
        }
    }
}
