//! Images to call with: views of ascending keys, as many as fit into a size.
use oracle::inputs::{image, Chance};
use oracle::{Bound, Key, Run, Table, View};

pub const SIZES: [usize; 3] = [1_024, 8_192, 65_536];

/// How long keys are and where they differ.
#[derive(Clone, Copy, PartialEq)]
pub enum Keys {
    /// 1 or 2 bytes, so that as many tables as can be fit.
    Tiny,
    /// 8 to 24 bytes, different in the first eight.
    Short,
    /// Of one length, different in the last four bytes.
    Stem(usize),
    /// Of one length, different in the first four bytes.
    Spread(usize),
}

impl Keys {
    pub fn name(self) -> String {
        match self {
            Keys::Tiny => "keys of 2 bytes".into(),
            Keys::Short => "keys of 8 to 24".into(),
            Keys::Stem(length) => format!("keys of {length}, one stem"),
            Keys::Spread(length) => format!("keys of {length}, random"),
        }
    }

    /// The key at a place of the key space: ascends with the place.
    pub fn at(self, place: u32) -> Key {
        let number = place.to_be_bytes();
        match self {
            Keys::Tiny => number[..2].to_vec(),
            Keys::Short => {
                let more = (place >> 8) as usize % 17;
                [&b"lamp"[..], &number, &[b'x'; 16][..more]].concat()
            }
            Keys::Stem(length) => [&vec![b'k'; length - 4][..], &number].concat(),
            Keys::Spread(length) => [&number[..], &vec![b'k'; length - 4]].concat(),
        }
    }
}

#[derive(Clone, Copy)]
pub struct Shape {
    pub keys: Keys,
    /// Of a hundred views, so many have a visible range.
    pub visible: usize,
    pub runs: Runs,
}

#[derive(Clone, Copy, PartialEq)]
pub enum Runs {
    One,
    Two,
    /// One for each four views, up to the ceiling.
    Many,
}

impl Shape {
    pub fn name(&self) -> String {
        let visible = match self.visible {
            0 => "no visible ranges",
            100 => "visible ranges",
            _ => "half visible ranges",
        };
        let runs = match self.runs {
            Runs::One => "one run",
            Runs::Two => "two runs",
            Runs::Many => "many runs",
        };
        format!("{}, {visible}, {runs}", self.keys.name())
    }

    fn run_count(&self, views: usize) -> usize {
        match self.runs {
            Runs::One => 1,
            Runs::Two => 2.min(views),
            Runs::Many => (views / 4).clamp(1, 64),
        }
    }
}

/// 48 bits of time, which hardly differ, then 80 random ones.
pub fn random_id(chance: &mut Chance) -> [u8; 16] {
    let mut id = [0; 16];
    id[..8].copy_from_slice(&(0x0190_0000_0000 + chance.below(1 << 20) as u64).to_be_bytes());
    id.copy_within(2..8, 0);
    let (high, low) = (chance.next().to_be_bytes(), chance.next().to_be_bytes());
    id[6..8].copy_from_slice(&high[..2]);
    id[8..].copy_from_slice(&low);
    id
}

pub fn table(chance: &mut Chance, first: Key, last: Key) -> Table {
    Table {
        id: random_id(chance),
        index_offset: 1_000_000 + chance.below(1_000_000) as u64,
        index_len: chance.below(10_000) as u64,
        filter_offset: chance.below(1_000_000) as u64,
        first,
        last: Some(last),
    }
}

/// Of `count` views that divide the key space, the one at `place`.
fn view(chance: &mut Chance, shape: &Shape, place: usize, count: usize) -> View {
    let step = (u32::MAX as usize / (5 * count)) as u32;
    let key = |quarter: u32| shape.keys.at(step * (5 * place as u32 + quarter));
    let table = table(chance, key(0), key(3));
    let visible = chance
        .percent(shape.visible)
        .then(|| (Bound::Included(key(1)), Bound::Excluded(key(2))));
    View {
        id: random_id(chance),
        table,
        visible,
    }
}

/// Runs that lie across each other: each has every so many-th view.
fn runs_of(shape: &Shape, count: usize) -> Vec<Run> {
    let mut chance = Chance(7);
    let runs = shape.run_count(count);
    let mut all: Vec<Run> = (0..runs)
        .map(|place| Run {
            id: 1_000_000 + 7 * place as u32,
            views: Vec::new(),
        })
        .collect();
    for place in 0..count {
        all[place % runs]
            .views
            .push(view(&mut chance, shape, place, count));
    }
    all
}

/// As many views as an image of the size can have; none if not even one fits.
pub fn runs_within(shape: &Shape, size: usize) -> Option<Vec<Run>> {
    let fits = |count: &usize| {
        let made = runs_of(shape, *count);
        image(&made).len() <= size && made.iter().all(|run| run.views.len() <= 1_024)
    };
    let (mut least, mut over) = (0, 1_100);
    while least + 1 < over {
        let middle = (least + over) / 2;
        if fits(&middle) {
            least = middle;
        } else {
            over = middle;
        }
    }
    // Lengths of keys vary, so that some more views may be shorter.
    let most = (least..least + 16).rev().find(fits)?;
    (most > 0).then(|| runs_of(shape, most))
}
