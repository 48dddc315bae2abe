//! Samples and plans, and on the Rust's side their parts.
use crate::clock::{rounds, Clock};
use crate::ours;
use crate::shapes::{random_id, table, Keys};
use crate::table::{Case, Row};
use oracle::direct::{self, Anchors, Sampling, Sources};
use oracle::inputs::plans::end_to_end;
use oracle::inputs::{anchors, image, range_image, write_index, Chance, EVERYTHING};
use oracle::{Block, Bound, Index, Key, Range, Run, View};

const CEILING: usize = 65_536;
/// The longest plan.
const ROOM: usize = 129_341;
/// A round has so many inputs, each of other keys or in another order.
const INPUTS: u32 = 8;
const ANCHOR_CEILING: usize = 4_096;

/// In which order the keys of anchors stand.
#[derive(Clone, Copy)]
enum Order {
    Random,
    Ascending,
    Descending,
    Equal,
    /// Stretches of 128 that ascend, as tables have them.
    Stretches,
}

impl Order {
    fn name(self) -> &'static str {
        match self {
            Order::Random => "random",
            Order::Ascending => "ascending",
            Order::Descending => "descending",
            Order::Equal => "equal",
            Order::Stretches => "128 ascending at a time",
        }
    }
}

/// How long the keys of anchors are.
#[derive(Clone, Copy)]
enum Length {
    /// 5 to 8 bytes, different in the first five.
    Short,
    /// 5 bytes, so that as many anchors as can be fit.
    Five,
    /// Of 1,004 bytes, different in the last four.
    Stem,
}

impl Length {
    fn name(self) -> &'static str {
        match self {
            Length::Short => "keys of 5 to 8",
            Length::Five => "keys of 5",
            Length::Stem => "1,000 bytes shared",
        }
    }

    fn key(self, place: u32) -> Key {
        match self {
            Length::Short => {
                let more = place.wrapping_mul(2_654_435_761) as usize % 4;
                [&b"k"[..], &place.to_be_bytes(), &[b'x'; 3][..more]].concat()
            }
            Length::Five => [&b"k"[..], &place.to_be_bytes()].concat(),
            Length::Stem => Keys::Stem(1_004).at(place),
        }
    }

    /// How many anchors there are: few, some, and about as many as a buffer can have.
    fn counts(self) -> &'static [usize] {
        match self {
            Length::Short => &[4, 64, 512, 3_900],
            Length::Five => &[ANCHOR_CEILING],
            Length::Stem => &[4, 64],
        }
    }
}

/// So many keys in an order.
fn keys(order: Order, length: Length, count: usize, chance: &mut Chance) -> Vec<Key> {
    let mut places: Vec<u32> = (0..count).map(|_| (chance.next() >> 32) as u32).collect();
    match order {
        Order::Random => {}
        Order::Ascending => places.sort_unstable(),
        Order::Descending => {
            places.sort_unstable();
            places.reverse();
        }
        Order::Equal => places.fill(4),
        Order::Stretches => places.chunks_mut(128).for_each(<[u32]>::sort_unstable),
    }
    places.into_iter().map(|place| length.key(place)).collect()
}

/// Anchors of one shape: the keys' order and length, how many, and the parts that are asked for.
struct Selecting {
    order: Order,
    length: Length,
    count: usize,
    parts: usize,
}

fn selecting() -> Vec<Selecting> {
    let mut list = vec![];
    for length in [Length::Short, Length::Five, Length::Stem] {
        for count in length.counts().iter().copied() {
            for order in [
                Order::Random,
                Order::Ascending,
                Order::Descending,
                Order::Equal,
                Order::Stretches,
            ] {
                if matches!(order, Order::Stretches) && count < 512 {
                    continue;
                }
                // Where the order is any, also few parts and many.
                let parts: &[usize] = match order {
                    Order::Random => &[2, 8, 64],
                    _ => &[8],
                };
                list.extend(parts.iter().map(|parts| Selecting {
                    order,
                    length,
                    count,
                    parts: *parts,
                }));
            }
        }
    }
    list
}

pub fn plans(clock: &Clock) -> Vec<Row> {
    let selecting = selecting();
    let selected = selecting.iter().filter_map(|shape| select(clock, shape));
    let mut rows: Vec<Row> = selected.collect();
    let planning = planning();
    rows.extend(planning.iter().filter_map(|shape| plan(clock, shape)));
    rows
}

/// The Rust's call takes the anchors that it sorts, so that of the call alone a copy of them is part.
fn select(clock: &Clock, shape: &Selecting) -> Option<Row> {
    let Selecting { parts, .. } = *shape;
    let mut chance = Chance(11);
    let given: Vec<Vec<u8>> = (0..INPUTS)
        .map(|_| {
            let keys = keys(shape.order, shape.length, shape.count, &mut chance);
            let list = keys
                .into_iter()
                .map(|key| (key, 1 + chance.below(8_192) as u64));
            anchors(&list.collect::<Vec<_>>())
        })
        .collect();
    let (mut a, mut b, mut c) = (vec![0; ROOM], vec![0; ROOM], vec![0; ROOM]);
    for anchors in &given {
        let answer = direct::select_boundaries(parts, 0, anchors, &mut b);
        assert!(answer.is_ok(), "{answer:?}");
        assert_eq!(ours::select_boundaries(parts, 0, anchors, &mut a), answer);
        assert!(a == b, "select_boundaries, {}", shape.order.name());
    }
    let decode = |anchors: &Vec<u8>| Anchors::decode(anchors).expect("they were decoded above");
    let decoded: Vec<Anchors> = given.iter().map(decode).collect();
    let planned = |anchors: &Anchors| anchors.again().select_boundaries(parts, 0);
    let results: Vec<_> = decoded.iter().map(planned).collect();
    let mut room = vec![0; CEILING];
    let sides = vec![
        rounds(&given, |x| ours::select_boundaries(parts, 0, x, &mut a)),
        rounds(&given, |x| direct::select_boundaries(parts, 0, x, &mut b)),
        rounds(&given, |x| room[..x.len()].copy_from_slice(x)),
        rounds(&given, |x| Anchors::decode(x).is_ok()),
        rounds(&decoded, planned),
        rounds(&results, |plan| plan.encode(&mut c)),
    ];
    let bytes: usize = given.iter().map(Vec::len).sum();
    let case = Case {
        call: "select_boundaries",
        shape: format!("{}, {}", shape.length.name(), shape.order.name()),
        size: None,
        counts: format!("{} anchors, {parts} parts", shape.count),
        bytes: bytes / given.len(),
        calls: given.len(),
        sides,
    };
    case.timed(clock)
}

/// So many blocks of 4,096 bytes, with keys that ascend through the key space.
fn blocks(keys: Keys, count: usize, seed: u32) -> Index {
    let step = (u32::MAX - 1_000_000) / (count as u32 + 1);
    let offsets = (0..).step_by(4_096);
    let block = |(place, offset): (u32, u64)| Block {
        offset,
        first: keys.at(seed + step * place),
    };
    (0..count as u32).zip(offsets).map(block).collect()
}

/// The middle half of what `blocks` has.
fn middle(keys: Keys) -> Range {
    let quarter = u32::MAX / 4;
    let start = Bound::Included(keys.at(quarter));
    (start, Bound::Excluded(keys.at(quarter * 3)))
}

pub fn samples(clock: &Clock) -> Vec<Row> {
    let mut rows = vec![];
    for keys in [Keys::Stem(8), Keys::Stem(24), Keys::Stem(1_004)] {
        let most_blocks = (CEILING - 2) / (10 + keys.at(0).len());
        let fewer = [4, 64, 512]
            .into_iter()
            .filter(|count| *count < most_blocks);
        for count in fewer.chain([most_blocks]) {
            for (shown, range) in [("everything", EVERYTHING), ("half", middle(keys))] {
                for most in [128, ANCHOR_CEILING] {
                    if most > 128 && count <= 128 {
                        continue;
                    }
                    let what = (keys, count, most);
                    rows.extend(sample(clock, what, shown, &range_image(&range)));
                }
            }
        }
    }
    rows
}

fn sample(
    clock: &Clock,
    (keys, count, most): (Keys, usize, usize),
    shown: &str,
    range: &[u8],
) -> Option<Row> {
    let data_end = 4_096 * count as u64;
    let given: Vec<Vec<u8>> = (0..INPUTS)
        .map(|seed| write_index(&blocks(keys, count, seed * 7_919)).0)
        .collect();
    let (mut a, mut b, mut c) = ([0; CEILING], [0; CEILING], [0; CEILING]);
    for index in &given {
        let answer = direct::sample_anchors(most, data_end, index, range, &mut b);
        assert!(answer.is_ok(), "{answer:?}");
        assert_eq!(
            ours::sample_anchors(most, data_end, index, range, &mut a),
            answer
        );
        assert!(a == b, "sample_anchors, {}", keys.name());
    }
    let decode = |index: &Vec<u8>| Sampling::decode(index, range).expect("it was decoded above");
    let decoded: Vec<Sampling> = given.iter().map(decode).collect();
    let sampled = |sampling: &Sampling| sampling.sample_anchors(most, data_end);
    let results: Vec<Anchors> = decoded.iter().map(sampled).collect();
    let mut room = [0; CEILING];
    let sides = vec![
        rounds(&given, |x| {
            ours::sample_anchors(most, data_end, x, range, &mut a)
        }),
        rounds(&given, |x| {
            direct::sample_anchors(most, data_end, x, range, &mut b)
        }),
        rounds(&given, |x| room[..x.len()].copy_from_slice(x)),
        rounds(&given, |x| Sampling::decode(x, range).is_ok()),
        rounds(&decoded, sampled),
        rounds(&results, |anchors| anchors.encode(&mut c)),
    ];
    let case = Case {
        call: "sample_anchors",
        shape: format!("{}, {shown}", keys.name()),
        size: None,
        counts: format!("{count} blocks, at most {most} anchors"),
        bytes: given[0].len(),
        calls: given.len(),
        sides,
    };
    case.timed(clock)
}

/// An image: its runs, the views of each and their blocks, and whether a part of each is visible.
struct Planning {
    keys: Keys,
    runs: usize,
    views: usize,
    blocks: usize,
    is_cut: bool,
    parts: usize,
}

impl Planning {
    /// Runs that lie across each other, each with its views side by side; each view's blocks from its
    /// first key on. Raw sizes are small, so that there is something to split.
    fn made(&self, seed: u32) -> (Vec<u8>, Vec<u8>) {
        let mut chance = Chance(seed.into());
        let step = (u32::MAX - 1_000_000) / self.views as u32;
        let (mut runs, mut indexes): (Vec<Run>, Vec<Index>) = (vec![], vec![]);
        for place in 0..self.runs as u32 {
            let mut views = vec![];
            for at in 0..self.views as u32 {
                let from = seed + place * 131 + step * at;
                let key = |of: u32| self.keys.at(from + step / 100 * of);
                let mut one = table(&mut chance, key(0), key(99));
                (one.index_offset, one.index_len) = (4_096, 100);
                one.filter_offset = 4_096 * self.blocks as u64;
                views.push(View {
                    id: random_id(&mut chance),
                    table: one,
                    visible: self
                        .is_cut
                        .then(|| (Bound::Included(key(25)), Bound::Excluded(key(75)))),
                });
                let within = step / 100 * 98 / self.blocks.max(1) as u32;
                let offsets = (0..self.blocks as u32).zip((0..).step_by(4_096));
                let blocks = offsets.map(|(block, offset)| Block {
                    offset,
                    first: self.keys.at(from + within * block),
                });
                indexes.push(blocks.collect());
            }
            runs.push(Run { id: place, views });
        }
        (image(&runs), end_to_end(&indexes))
    }
}

fn planning() -> Vec<Planning> {
    let mut list = vec![];
    let shapes = [
        // Keys, runs, views of a run, blocks of a view.
        (Keys::Short, 1, 1, 4),
        (Keys::Short, 2, 2, 4),
        (Keys::Short, 4, 4, 16),
        (Keys::Stem(8), 1, 30, 121),
        (Keys::Stem(8), 30, 1, 121),
        (Keys::Stem(8), 30, 16, 7),
        (Keys::Stem(8), 1, 640, 4),
        (Keys::Short, 8, 8, 32),
        (Keys::Stem(1_004), 1, 1, 60),
        (Keys::Stem(1_004), 8, 1, 7),
    ];
    for (keys, runs, views, blocks) in shapes {
        for is_cut in [false, true] {
            list.push(Planning {
                keys,
                runs,
                views,
                blocks,
                is_cut,
                parts: 8,
            });
        }
    }
    for parts in [2, 64] {
        list.push(Planning {
            keys: Keys::Stem(8),
            runs: 30,
            views: 1,
            blocks: 121,
            is_cut: false,
            parts,
        });
    }
    list
}

fn plan(clock: &Clock, shape: &Planning) -> Option<Row> {
    let parts = shape.parts;
    let given: Vec<(Vec<u8>, Vec<u8>)> = (0..INPUTS).map(|seed| shape.made(seed * 7_919)).collect();
    let (mut a, mut b, mut c) = (vec![0; ROOM], vec![0; ROOM], vec![0; ROOM]);
    for (image, indexes) in &given {
        let answer = direct::plan_subcompaction_ranges(parts, image, indexes, &mut b);
        assert!(answer.is_ok(), "{answer:?}");
        assert_eq!(
            ours::plan_subcompaction_ranges(parts, image, indexes, &mut a),
            answer
        );
        assert!(a == b, "plan_subcompaction_ranges, {}", shape.keys.name());
    }
    let decode = |(image, indexes): &(Vec<u8>, Vec<u8>)| {
        Sources::decode(image, indexes).expect("they were decoded above")
    };
    let decoded: Vec<Sources> = given.iter().map(decode).collect();
    let results: Vec<_> = decoded
        .iter()
        .map(|sources| sources.plan_subcompaction_ranges(parts).unwrap())
        .collect();
    let mut room = vec![0; 2 * CEILING];
    let sides = vec![
        rounds(&given, |(x, y)| {
            ours::plan_subcompaction_ranges(parts, x, y, &mut a)
        }),
        rounds(&given, |(x, y)| {
            direct::plan_subcompaction_ranges(parts, x, y, &mut b)
        }),
        rounds(&given, |(x, y)| {
            let (first, second) = room.split_at_mut(x.len());
            first.copy_from_slice(x);
            second[..y.len()].copy_from_slice(y);
        }),
        rounds(&given, |(x, y)| Sources::decode(x, y).is_ok()),
        rounds(&decoded, |sources| {
            sources.plan_subcompaction_ranges(parts).is_ok()
        }),
        rounds(&results, |plan| plan.encode(&mut c)),
    ];
    let lengths = given
        .iter()
        .map(|(image, indexes)| image.len() + indexes.len());
    let visible = if shape.is_cut {
        "visible ranges"
    } else {
        "no visible ranges"
    };
    let case = Case {
        call: "plan_subcompaction_ranges",
        shape: format!("{}, {visible}", shape.keys.name()),
        size: None,
        counts: format!(
            "{} runs of {} views of {} blocks, {parts} parts",
            shape.runs, shape.views, shape.blocks
        ),
        bytes: lengths.sum::<usize>() / given.len(),
        calls: given.len(),
        sides,
    };
    case.timed(clock)
}
