//! Random commits around the ceilings.
use super::random::{random_model, random_table, vary};
use super::{Inputs, Model};
use crate::answers::commits::Case;
use crate::checks::{BUFFER_CEILING, KEY_CEILING};
use crate::inputs::images::near::fill;
use crate::inputs::{before, from, from_to, part, run, table, view, Chance, EVERYTHING};
use crate::{Bound, Key, Part, Run, Table, View};

/// About 1,024 views in a run after the commit: some of them split, some outputs.
pub fn near_views(count: usize, out: &mut Inputs) {
    for _ in 0..count {
        let chance = &mut out.chance;
        let due = 1_022 + chance.below(5);
        let (split, written) = (chance.below(4), chance.below(4));
        let whole = (due - 2 * split).saturating_sub(written);
        let mut views = vec![view(3, b"", Some(b"k"), None); split];
        views.extend(vec![view(5, b"z", None, None); whole]);
        let outputs: Vec<Table> = (0..written)
            .map(|number| table(20 + number as u8, b"c", Some(b"c")))
            .collect();
        let completed = chance.percent(70);
        let parts = [part(from_to(b"c", b"d"), completed, &outputs)];
        let (seven, nine) = if chance.percent(60) {
            (views, vec![])
        } else {
            (vec![], views)
        };
        let model = Model::new(&[run(7, &seven), run(9, &nine)], 7, &[7, 9], &parts);
        put(&model, out);
    }
}

/// New images of about 65,536 bytes.
pub fn near_full(count: usize, out: &mut Inputs) {
    for _ in 0..count {
        let chance = &mut out.chance;
        let mut model = random_model(chance, true, true);
        let case = model.case(chance, 6);
        if case.room == 0 {
            continue;
        }
        let length = BUFFER_CEILING - 2 + chance.below(5);
        // The image given must be so long that the new one has this length.
        let given = length + case.image.len() - case.room;
        if given <= BUFFER_CEILING && fill(&mut model.runs, given, chance) {
            put(&model, out);
        }
    }
}

/// About 64 parts and as many sources.
pub fn near_parts(count: usize, out: &mut Inputs) {
    for _ in 0..count {
        let chance = &mut out.chance;
        let parts: Vec<Part> = (0..62 + chance.below(4) as u8)
            .map(|place| small_part(place, chance))
            .collect();
        let views = [
            view(1, b"", None, None),
            view(2, b"\x10", Some(b"\x20"), None),
        ];
        let runs: Vec<Run> = (0..62 + chance.below(3) as u32)
            .map(|id| run(id, &views[..chance.below(3)]))
            .collect();
        let mut sources: Vec<u32> = (0..62 + chance.below(4))
            .map(|_| chance.below(runs.len()) as u32)
            .collect();
        let place = chance.below(sources.len());
        sources[place] = 33;
        put(&Model::new(&runs, 33, &sources, &parts), out);
    }
}

/// The part from one byte to a later one, with a gap or none.
fn small_part(place: u8, chance: &mut Chance) -> Part {
    let (start, end) = (3 * place, 3 * place + 2 + chance.below(2) as u8);
    let inside = vec![start + 1];
    let outputs: Vec<Table> = (0..chance.below(3))
        .map(|_| random_table(chance, &inside, Some(&inside)))
        .collect();
    part(from_to(&[start], &[end]), chance.percent(50), &outputs)
}

/// About 1,024 outputs in a part; all of them whole, or at the last written key.
pub fn near_outputs(count: usize, out: &mut Inputs) {
    for _ in 0..count {
        let chance = &mut out.chance;
        let length = 1_022 + chance.below(4);
        let mut outputs = vec![table(21, b"a", Some(b"a")); length];
        outputs[0] = table(20, b"", Some(b"a"));
        if chance.percent(30) {
            outputs[length - 1].last = Some(b"b".to_vec());
        }
        let views = vec![view(1, b"", None, None); chance.below(3)];
        let range = [EVERYTHING, before(b"c"), from(b"")][chance.below(3)].clone();
        let completed = chance.percent(40);
        let parts = [part(range, completed, &outputs)];
        put(&Model::new(&[run(7, &views)], 7, &[7], &parts), out);
    }
}

/// Keys of about 1,024 bytes and sums of about 2^53, in the job and in the image.
pub fn near_keys(count: usize, out: &mut Inputs) {
    for _ in 0..count {
        let chance = &mut out.chance;
        let mut keys: Vec<Key> = (0..6).map(|_| near_key(chance)).collect();
        keys.sort();
        let mut written = table(20, &keys[2], Some(&keys[3]));
        written.index_offset = (1 << 53) - 70 + chance.below(3) as u64 - 1;
        written.index_len = 70;
        let end = Bound::Excluded(keys[5].clone());
        let range = match chance.below(3) {
            0 => (Bound::Unbounded, end),
            1 => (Bound::Included(keys[1].clone()), end),
            _ => (Bound::Included(keys[1].clone()), Bound::Unbounded),
        };
        let completed = chance.percent(50);
        let views = [
            view(1, &keys[0], Some(&keys[4]), None),
            view(2, &keys[4], None, Some(from_to(&keys[4], &keys[5]))),
        ];
        let views: &[View] = &views[..1 + chance.below(2)];
        let parts = [part(range, completed, &[written])];
        put(&Model::new(&[run(7, views)], 7, &[7], &parts), out);
    }
}

fn near_key(chance: &mut Chance) -> Key {
    let length = match chance.below(3) {
        0 => chance.below(3),
        1 => KEY_CEILING,
        _ => KEY_CEILING - 2 + chance.below(4),
    };
    let mut key = vec![*chance.of(&[0, 0x61, 0xFF]); length];
    if let Some(last) = key.last_mut() {
        *last = *chance.of(&[0, 1, 0x61, 0xFF]);
    }
    key
}

/// With a supply and a buffer of about the length that is needed.
pub fn near_needs(count: usize, out: &mut Inputs) {
    for _ in 0..count {
        let chance = &mut out.chance;
        let tidy = chance.percent(50);
        let model = random_model(chance, true, tidy);
        let mut case = model.case(chance, 20);
        let ids = (case.ids.len() + chance.below(23)).saturating_sub(11);
        case.ids.resize(ids, 5);
        case.room = (case.room + chance.below(5)).saturating_sub(2);
        out.put(&case);
    }
}

fn put(model: &Model, out: &mut Inputs) {
    let chance = &mut out.chance;
    let mut case: Case = model.case(chance, 1);
    if case.room == 0 {
        case.ids = vec![5; 200];
        case.room = 70_000;
    } else if chance.percent(40) {
        vary(&mut case, chance);
    }
    out.put(&case);
}
