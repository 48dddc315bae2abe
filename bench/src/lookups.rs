//! Lookups in indexes and images, and on the Rust's side the decoding and the call apart.
use crate::clock::{rounds, Clock, Side};
use crate::keys::{closed, half_open};
use crate::ours;
use crate::shapes::{random_id, runs_within, table, Keys, Runs as Across, Shape, SIZES};
use crate::table::{Case, Row};
use oracle::direct::{Checked, Index, Runs};
use oracle::inputs::{image, index, Chance};
use oracle::{key_of, Key, Run, View};
use std::fmt::Debug;

const CEILING: usize = 65_536;
/// A round has so many inputs, each of other keys.
const INPUTS: usize = 8;
/// Room for a written range.
const ROOM: usize = 64;
const EXCLUDED: u8 = 2;
/// Views of an image, each of a case.
const VIEWS: [usize; 3] = [1, 64, 1_000];

/// Where in the key space is looked, of 0 to 1,000.
#[derive(Clone, Copy)]
enum Place {
    Early,
    Late,
}

impl Place {
    fn name(self) -> &'static str {
        match self {
            Place::Early => "early",
            Place::Late => "late",
        }
    }

    /// The place of one of the inputs.
    fn of(self, input: usize) -> u32 {
        let thousandth = u32::MAX / 1_000;
        thousandth
            * match self {
                Place::Early => 3 + input as u32,
                Place::Late => 980 + input as u32,
            }
    }
}

/// A key and a range that are looked up, and a view's place.
struct Input {
    key: Key,
    range: Vec<u8>,
    view: usize,
}

/// What is looked in, and what is looked up there.
struct Lookups {
    what: String,
    size: Option<usize>,
    counts: String,
    bytes: Vec<u8>,
    inputs: Vec<Input>,
}

struct Table<'c> {
    clock: &'c Clock,
    rows: Vec<Row>,
}

pub fn rows(clock: &Clock) -> Vec<Row> {
    let mut table = Table {
        clock,
        rows: Vec::new(),
    };
    let indexes = indexes();
    for call in KEY_CALLS {
        for lookups in &indexes {
            of_key(&mut table, call, lookups);
        }
    }
    for lookups in indexes.iter().chain(&equal_blocks()) {
        covering(&mut table, lookups);
    }
    let images = images();
    for lookups in images.iter().chain(&equal_starts()) {
        tables_covering(&mut table, lookups);
    }
    for lookups in &images {
        overlaps(&mut table, lookups);
    }
    for call in ["compacted_intersection", "calculate_view_range"] {
        for lookups in &images {
            of_view(&mut table, call, lookups);
        }
    }
    for lookups in &images {
        intersects(&mut table, lookups);
    }
    table.rows
}

impl Table<'_> {
    fn time(&mut self, call: &'static str, lookups: &Lookups, sides: Vec<Side>) {
        let asked: usize = lookups.inputs.iter().map(|input| input.range.len()).sum();
        let case = Case {
            call,
            shape: lookups.what.clone(),
            size: lookups.size,
            counts: lookups.counts.clone(),
            bytes: lookups.bytes.len() + asked / INPUTS,
            calls: INPUTS,
            sides,
        };
        self.rows.extend(case.timed(self.clock));
    }

    /// A call that answers a value. The Rust decodes and calls; what it decodes to is at hand for the
    /// call alone.
    fn answered<T: PartialEq + Debug, D>(
        &mut self,
        call: &'static str,
        lookups: &Lookups,
        ours: impl Fn(&[u8], &Input) -> Checked<T>,
        decode: impl Fn(&[u8]) -> Checked<D>,
        rust: impl Fn(&D, &Input) -> Checked<T>,
    ) {
        let bytes = &lookups.bytes;
        let decoded = decode(bytes).expect("it is what it should be");
        for input in &lookups.inputs {
            let answer = rust(&decoded, input);
            assert_eq!(ours(bytes, input), answer, "{call}, {}", lookups.what);
            assert!(answer.is_ok());
        }
        let (list, mut room) = (&lookups.inputs, vec![0; CEILING]);
        let sides = vec![
            rounds(list, |input| ours(bytes, input)),
            rounds(list, |input| rust(&decode(bytes)?, input)),
            rounds(list, |_| room[..bytes.len()].copy_from_slice(bytes)),
            rounds(list, |_| decode(bytes).is_ok()),
            rounds(list, |input| rust(&decoded, input)),
        ];
        self.time(call, lookups, sides);
    }

    /// A call on a view that writes a range.
    fn written(
        &mut self,
        call: &'static str,
        lookups: &Lookups,
        ours: impl Fn(&[u8], &Input, &mut [u8]) -> Checked<usize>,
        rust: impl Fn(&Runs, &Input, &mut [u8]) -> Checked<usize>,
    ) {
        let told = |length: Checked<usize>, out: &[u8]| length.map(|length| out[..length].to_vec());
        self.answered(
            call,
            lookups,
            |bytes, input| {
                let mut out = [0; ROOM];
                told(ours(bytes, input, &mut out), &out)
            },
            Runs::decode,
            |runs, input| {
                let mut out = [0; ROOM];
                told(rust(runs, input, &mut out), &out)
            },
        );
    }
}

// ---- indexes

const KEY_CALLS: [&str; 4] = [
    "partition_point",
    "first_partition_including_key",
    "first_partition_including_or_after_key",
    "last_partition_including_key",
];

fn of_key(table: &mut Table, call: &'static str, lookups: &Lookups) {
    table.answered(
        call,
        lookups,
        |bytes, i| match call {
            "partition_point" => ours::partition_point(bytes, true, &i.key).map(Some),
            "first_partition_including_key" => ours::first_partition_including_key(bytes, &i.key),
            "last_partition_including_key" => ours::last_partition_including_key(bytes, &i.key),
            _ => ours::first_partition_including_or_after_key(bytes, &i.key).map(Some),
        },
        Index::decode,
        |index, i| match call {
            "partition_point" => index.partition_point(true, &i.key).map(Some),
            "first_partition_including_key" => index.first_partition_including_key(&i.key),
            "last_partition_including_key" => index.last_partition_including_key(&i.key),
            _ => index
                .first_partition_including_or_after_key(&i.key)
                .map(Some),
        },
    );
}

fn covering(table: &mut Table, lookups: &Lookups) {
    table.answered(
        "partitions_covering_range",
        lookups,
        |bytes, input| ours::partitions_covering_range(bytes, &input.range),
        Index::decode,
        |index, input| index.partitions_covering_range(&input.range),
    );
}

/// So many first keys, evenly over the key space.
fn first_keys(keys: Keys, count: usize) -> Vec<Key> {
    let step = u32::MAX / count as u32;
    (0..count)
        .map(|place| keys.at(step * place as u32))
        .collect()
}

/// As many as an index of the size can have.
fn keys_within(keys: Keys, size: usize) -> Vec<Key> {
    let fits = |count: &usize| index(&first_keys(keys, *count)).len() <= size;
    let (mut least, mut over) = (0, 7_000);
    while least + 1 < over {
        let middle = (least + over) / 2;
        if fits(&middle) {
            least = middle;
        } else {
            over = middle;
        }
    }
    first_keys(keys, least)
}

/// Keys and ranges at a place. A range goes over a hundredth of the key space.
fn inputs(keys: Keys, place: Place, view: impl Fn(u32) -> usize) -> Vec<Input> {
    let input = |number: usize| {
        let at = place.of(number);
        let key = keys.at(at);
        let end = keys.at(at + u32::MAX / 100);
        Input {
            range: half_open(&key, &end),
            view: view(at),
            key,
        }
    };
    (0..INPUTS).map(input).collect()
}

fn indexes() -> Vec<Lookups> {
    let mut all = Vec::new();
    for keys in [Keys::Short, Keys::Stem(256), Keys::Spread(256)] {
        for size in [SIZES[0], CEILING] {
            let first_keys = keys_within(keys, size);
            for place in [Place::Early, Place::Late] {
                all.push(Lookups {
                    what: format!("index, {}, {}", keys.name(), place.name()),
                    size: Some(size),
                    counts: format!("{} blocks", first_keys.len()),
                    bytes: index(&first_keys),
                    inputs: inputs(keys, place, |_| 0),
                });
            }
        }
    }
    all
}

/// All first keys are the one that is looked up: the Rust steps back over them, one by one.
fn equal_blocks() -> Vec<Lookups> {
    let of = |keys: Keys| {
        let key = keys.at(7);
        let count = (CEILING - 2) / (10 + key.len());
        let input = || Input {
            range: closed(&key, &key),
            view: 0,
            key: key.clone(),
        };
        Lookups {
            what: format!("index, {}, all equal, that point", keys.name()),
            size: Some(CEILING),
            counts: format!("{count} blocks"),
            bytes: index(&vec![key.clone(); count]),
            inputs: (0..INPUTS).map(|_| input()).collect(),
        }
    };
    vec![of(Keys::Short), of(Keys::Stem(256))]
}

// ---- images

fn tables_covering(table: &mut Table, lookups: &Lookups) {
    table.answered(
        "table_idx_covering_range",
        lookups,
        |bytes, input| ours::table_idx_covering_range(bytes, 0, &input.range),
        Runs::decode,
        |runs, input| runs.table_idx_covering_range(0, &input.range),
    );
}

fn overlaps(table: &mut Table, lookups: &Lookups) {
    table.answered(
        "overlaps_range",
        lookups,
        |bytes, input| ours::overlaps_range(bytes, 0, &input.range),
        Runs::decode,
        |runs, input| runs.overlaps_range(0, &input.range),
    );
}

fn of_view(table: &mut Table, call: &'static str, lookups: &Lookups) {
    let is_kept = call == "compacted_intersection";
    table.written(
        call,
        lookups,
        |bytes, i, out| match is_kept {
            true => ours::compacted_intersection(bytes, 0, i.view, &i.range, out),
            false => ours::calculate_view_range(bytes, 0, i.view, &i.range, out),
        },
        |runs, i, out| match is_kept {
            true => runs.compacted_intersection(0, i.view, &i.range, out),
            false => runs.calculate_view_range(0, i.view, &i.range, out),
        },
    );
}

fn intersects(table: &mut Table, lookups: &Lookups) {
    table.answered(
        "intersects_range",
        lookups,
        |bytes, i| ours::intersects_range(bytes, 0, i.view, EXCLUDED, &i.key, &i.range),
        Runs::decode,
        |runs, i| runs.intersects_range(0, i.view, EXCLUDED, &i.key, &i.range),
    );
}

/// A view from a key to another.
fn view(chance: &mut Chance, first: Key, last: Key) -> View {
    View {
        id: random_id(chance),
        table: table(chance, first, last),
        visible: None,
    }
}

/// One run of so many views side by side. Every other table has no last key, so that 1,000 fit.
fn run_of(keys: Keys, count: usize) -> Run {
    let mut chance = Chance(13);
    let step = u32::MAX / (2 * count as u32);
    let key = |place: usize| keys.at(step * place as u32);
    let views = (0..count).map(|place| {
        let mut view = view(&mut chance, key(2 * place), key(2 * place + 1));
        if place % 2 == 1 {
            view.table.last = None;
        }
        view
    });
    Run {
        id: 7,
        views: views.collect(),
    }
}

fn images() -> Vec<Lookups> {
    let mut all = Vec::new();
    for keys in [Keys::Tiny, Keys::Stem(256)] {
        for count in VIEWS {
            let bytes = image(&[run_of(keys, count)]);
            if bytes.len() > CEILING {
                continue;
            }
            // The view in whose slot a place of the key space lies.
            let slot = |at: u32| (u64::from(at) * count as u64 >> 32) as usize;
            for place in [Place::Early, Place::Late] {
                all.push(Lookups {
                    what: format!("image, {}, {}", keys.name(), place.name()),
                    size: None,
                    counts: format!("{count} views"),
                    bytes: bytes.clone(),
                    inputs: inputs(keys, place, slot),
                });
            }
        }
    }
    all
}

/// All views start at the key that is looked up, so that the walk goes back over all of them.
fn equal_starts() -> Vec<Lookups> {
    let mut all = Vec::new();
    for count in &VIEWS[1..] {
        let mut chance = Chance(17);
        let key = b"k".to_vec();
        let views = (0..*count).map(|_| view(&mut chance, key.clone(), key.clone()));
        let views = views.collect();
        let input = || Input {
            range: closed(&key, &key),
            view: 0,
            key: key.clone(),
        };
        all.push(Lookups {
            what: "image, all start at the point".into(),
            size: None,
            counts: format!("{count} views"),
            bytes: image(&[Run { id: 7, views }]),
            inputs: (0..INPUTS).map(|_| input()).collect(),
        });
    }
    all
}

// ---- an index and an image of as many keys

/// Both sides are ours: a lookup in an index, and `check_image` of an image that has as many keys, each
/// of about 64 KiB.
pub fn against_images(clock: &Clock) -> Vec<Row> {
    let mut rows = Vec::new();
    for keys in [
        Keys::Short,
        Keys::Stem(256),
        Keys::Spread(256),
        Keys::Stem(1_024),
    ] {
        let shape = Shape {
            keys,
            visible: 100,
            runs: Across::One,
        };
        let runs = runs_within(&shape, CEILING).expect("a view fits");
        let count = keys_of(&runs);
        let first_keys = first_keys(keys, count);
        let (index, image, mut room) = (index(&first_keys), image(&runs), vec![0; CEILING]);
        let key = keys.at(u32::MAX / 2);
        assert!(ours::partition_point(&index, false, &key).is_ok());
        assert_eq!(ours::check_image(&image), Ok(()));
        let sides = vec![
            rounds(&[()], |_| ours::partition_point(&index, false, &key)),
            rounds(&[()], |_| ours::check_image(&image)),
            rounds(&[()], |_| room[..index.len()].copy_from_slice(&index)),
        ];
        let case = Case {
            call: "partition_point",
            shape: format!("against check_image, {}", keys.name()),
            size: None,
            counts: format!("{count} keys, image of {} bytes", image.len()),
            bytes: index.len(),
            calls: 1,
            sides,
        };
        rows.extend(case.timed(clock));
    }
    rows
}

/// How many keys an image has.
fn keys_of(runs: &[Run]) -> usize {
    let views = runs.iter().flat_map(|run| &run.views);
    let keys = views.map(|view| {
        let bounds = view.visible.iter().flat_map(|range| [&range.0, &range.1]);
        let visible = bounds.filter_map(|bound| key_of(bound)).count();
        1 + usize::from(view.table.last.is_some()) + visible
    });
    keys.sum()
}
