//! The odd ones.
use super::{both, two_runs, Inputs, Model};
use crate::answers::commits::{answer, Deeds};
use crate::inputs::{
    before, from, from_to, included, part, run, since, table, tables, until, view, EVERYTHING,
};
use crate::{Table, View};

/// The papers' own cases, and others that a port may take for something else.
pub fn odd(out: &mut Inputs) {
    let mut list: Vec<Model> = vec![];
    let models = &mut list;
    both(models, &old(), &[]);
    both(models, &[], &[]);
    for completed in [false, true] {
        few_outputs(completed, models);
        several_outputs(completed, models);
        empty_keys(completed, models);
        parts_that_touch(completed, models);
        next_keys(completed, models);
    }
    wide_views(models);
    overlapping_views(models);
    equal_starts(models);
    equal_tables(models);
    tables_of_the_image(models);
    counterexamples(models);
    sources(models);
    for model in list {
        let case = model.case(&mut out.chance, 0);
        if answer(&case, &mut Deeds::default()).is_ok() && out.chance.percent(20) {
            out.put_around(&case);
        } else {
            out.put(&case);
        }
    }
}

fn old() -> [View; 1] {
    [view(1, b"a", Some(b"z"), None)]
}

fn letters() -> Vec<Table> {
    tables(
        20,
        &[(b"c", b"d"), (b"d", b"f"), (b"f", b"f"), (b"f", b"h")],
    )
}

/// A part without output; a part whose last written key is its start.
fn few_outputs(completed: bool, models: &mut Vec<Model>) {
    let old = old();
    for range in [EVERYTHING, before(b"c"), from(b"c"), from_to(b"c", b"g")] {
        both(models, &old, &[part(range, completed, &[])]);
    }
    let one = tables(20, &[(b"c", b"c")]);
    both(models, &old, &[part(from_to(b"c", b"g"), completed, &one)]);
    let two = tables(20, &[(b"c", b"c"), (b"c", b"c")]);
    both(models, &old, &[part(from(b"c"), completed, &two)]);
    both(models, &old, &[part(before(b"d"), completed, &one)]);
    // The papers' [a,z] less [c,f), also with a view [c,f].
    let three = tables(20, &[(b"c", b"d"), (b"d", b"e"), (b"e", b"f")]);
    let seven = [&old[..], &[view(3, b"c", Some(b"f"), None)]].concat();
    both(
        models,
        &seven,
        &[part(from_to(b"c", b"g"), completed, &three)],
    );
}

/// Several outputs that end at the last written key, one that holds it alone.
fn several_outputs(completed: bool, models: &mut Vec<Model>) {
    let old = old();
    let letters = letters();
    for count in 1..=letters.len() {
        let range = [from_to(b"c", b"i"), EVERYTHING][count % 2].clone();
        both(models, &old, &[part(range, completed, &letters[..count])]);
    }
    let ends = tables(20, &[(b"c", b"f"), (b"f", b"f"), (b"f", b"f")]);
    both(models, &old, &[part(from(b"b"), completed, &ends)]);
}

/// The empty key: as a planned start, as the last written key, as all that was written.
fn empty_keys(completed: bool, models: &mut Vec<Model>) {
    let old = old();
    let empty = tables(20, &[(b"", b""), (b"", b"")]);
    for range in [EVERYTHING, from(b""), before(b"\0"), from_to(b"", b"c")] {
        both(models, &old, &[part(range.clone(), completed, &empty[..1])]);
        both(models, &old, &[part(range, completed, &empty)]);
    }
    let seven = [view(1, b"", None, None), view(3, b"", Some(b""), None)];
    let more = tables(20, &[(b"", b""), (b"", b"\0")]);
    both(models, &seven, &[part(EVERYTHING, completed, &more)]);
    // The planned range up to, without, the empty key; then one from the empty key on.
    both(models, &seven, &[part(before(b""), completed, &[])]);
    for range in [from(b""), from_to(b"", b"c"), from(b"\0")] {
        let second = part(range, !completed, &tables(20, &[(b"\0", b"a")]));
        both(models, &seven, &[part(before(b""), completed, &[]), second]);
    }
}

/// Parts that touch, with and without a gap of one key.
fn parts_that_touch(completed: bool, models: &mut Vec<Model>) {
    let old = old();
    for start in [&b"e"[..], b"e\0", b"f"] {
        let outputs = tables(20, &[(b"c", b"d")]);
        let first = part(from_to(b"b", b"e"), completed, &outputs);
        let outputs = tables(22, &[(start, b"g")]);
        both(
            models,
            &old,
            &[first, part(from(start), completed, &outputs)],
        );
    }
}

/// Keys k and k00, one after the other.
fn next_keys(completed: bool, models: &mut Vec<Model>) {
    let seven = [
        view(1, b"a", Some(b"a"), None),
        view(3, b"a\0", Some(b"b"), None),
        view(4, b"b", None, Some(from_to(b"b", b"b\0"))),
    ];
    for last in [&b"a"[..], b"a\0", b"a\0\0", b"b"] {
        let outputs = tables(20, &[(b"", last)]);
        both(models, &seven, &[part(EVERYTHING, completed, &outputs)]);
        both(models, &seven, &[part(before(b"b\0"), completed, &outputs)]);
    }
}

/// Visible ranges wider than the table, of a view that keeps all its keys, some or none.
fn wide_views(models: &mut Vec<Model>) {
    let wide = [
        Some(EVERYTHING),
        until(b"zz"),
        Some(included(b"A", b"z")),
        Some(from_to(b"", b"zz")),
        since(b"a"),
    ];
    for visible in wide {
        let seven = [
            view(1, b"a", Some(b"k"), visible.clone()),
            view(3, b"m", None, visible),
        ];
        for range in [
            from_to(b"b", b"c"),
            from_to(b"k\0", b"l"),
            from(b""),
            before(b"l"),
        ] {
            both(models, &seven, &[part(range, true, &[])]);
        }
    }
}

/// Views without a last key that overlap, views twice, and starts that descend afterwards.
fn overlapping_views(models: &mut Vec<Model>) {
    let old = old();
    let overlapping = [
        view(1, b"a", None, None),
        view(3, b"b", None, None),
        view(3, b"b", None, None),
        view(4, b"c", None, Some(from_to(b"d", b"k"))),
    ];
    for parts in [
        &[part(from_to(b"b", b"e"), true, &[])][..],
        &[part(
            from_to(b"c", b"d"),
            true,
            &tables(20, &[(b"c", b"c")]),
        )],
        &[part(EVERYTHING, false, &tables(20, &[(b"", b"e")]))],
        &[
            part(from_to(b"b", b"c"), true, &[]),
            part(
                from_to(b"d", b"e"),
                true,
                &tables(20, &[(b"d", b"d"), (b"d", b"d")]),
            ),
            part(
                from(b"g"),
                false,
                &tables(22, &[(b"g", b"h"), (b"i", b"i")]),
            ),
        ],
    ] {
        both(models, &overlapping, parts);
        models.push(two_runs(&old, &overlapping, parts));
    }
}

/// Outputs that start where a view starts: the output comes after it, and outputs keep
/// their order.
fn equal_starts(models: &mut Vec<Model>) {
    let seven = [
        view(1, b"a", Some(b"c"), None),
        view(3, b"c", Some(b"c"), None),
        view(4, b"c", None, since(b"d")),
    ];
    for completed in [false, true] {
        let outputs = tables(20, &[(b"b", b"c"), (b"c", b"c"), (b"c", b"d")]);
        both(models, &seven, &[part(before(b"d\0"), completed, &outputs)]);
        both(
            models,
            &seven,
            &[part(from_to(b"b", b"k"), completed, &outputs[..2])],
        );
    }
}

/// One table in two parts, and twice in one; the same id with other fields.
fn equal_tables(models: &mut Vec<Model>) {
    let old = old();
    let mut alike = tables(20, &[(b"c", b"c"), (b"c", b"d"), (b"f", b"f")]);
    for number in [1, 2] {
        alike[number].id = alike[0].id;
    }
    for completed in [false, true] {
        both(models, &old, &[part(from(b"b"), completed, &alike)]);
        let twice = [alike[0].clone(), alike[0].clone()];
        both(models, &old, &[part(from(b"b"), completed, &twice)]);
        let second = part(from(b"e"), !completed, &alike[2..]);
        both(
            models,
            &old,
            &[part(from_to(b"b", b"e"), completed, &alike[..2]), second],
        );
    }
}

/// A job's tables that are the image's: views of them that lie inside, that do not, of
/// another run, with another id in the random bits only, and in the time only.
fn tables_of_the_image(models: &mut Vec<Model>) {
    let other = [view(2, b"b", None, None)];
    for completed in [false, true] {
        for (first, last) in [(b"c", b"c"), (b"c", b"e"), (b"b", b"z")] {
            for shown in [None, Some(from_to(b"c", b"d")), Some(included(b"c", b"e"))] {
                let mut seven = [view(20, b"c", Some(b"e"), shown)];
                let outputs = [table(20, first, Some(last))];
                let parts = [part(from_to(b"b", b"zz"), completed, &outputs)];
                both(models, &seven, &parts);
                models.push(two_runs(&other, &seven, &parts));
                seven[0].table.id[0] = 1;
                both(models, &seven, &parts);
                seven[0].table.id = seven[0].id;
                seven[0].id = outputs[0].id;
                both(models, &seven, &parts);
            }
        }
        // In a part without an interval, and left out at the last written key.
        let outputs = tables(20, &[(b"c", b"c")]);
        let seven = [view(20, b"c", Some(b"c"), None), view(3, b"d", None, None)];
        both(models, &seven, &[part(from(b"c"), completed, &outputs)]);
        both(models, &seven, &[part(from(b"b"), completed, &outputs)]);
        both(models, &[], &[part(from(b"c"), completed, &outputs)]);
    }
}

/// The readings' counterexamples (A13, A19, A20).
fn counterexamples(models: &mut Vec<Model>) {
    let old = old();
    let seven = [
        view(2, b"a", Some(b"z"), since(b"c")),
        view(1, b"a", Some(b"z"), since(b"m")),
    ];
    both(models, &seven, &[part(EVERYTHING, false, &[])]);
    both(
        models,
        &seven,
        &[part(EVERYTHING, false, &tables(9, &[(b"a", b"p")]))],
    );
    let outputs = tables(1, &[(b"a", b"c")]);
    both(models, &old, &[part(EVERYTHING, false, &outputs)]);
    let seven = [view(1, b"d", Some(b"e"), None)];
    let outputs = tables(1, &[(b"c", b"c")]);
    both(models, &seven, &[part(from(b"c"), false, &outputs)]);
    for second in [(b"m", b"m"), (b"c", b"c")] {
        let outputs = tables(1, &[(b"a", b"a"), (second.0, second.1)]);
        let seven = [view(5, b"a", Some(b"z"), None)];
        both(models, &seven, &[part(EVERYTHING, false, &outputs)]);
    }
}

/// Sources: twice, in another order, the destination last in the image, runs that are none,
/// runs without views, none at all, one that is not there.
fn sources(models: &mut Vec<Model>) {
    let old = old();
    let letters = letters();
    let nine = [view(2, b"b", None, None), view(6, b"x", Some(b"y"), None)];
    let runs = [run(4, &nine), run(9, &nine), run(0, &[]), run(7, &old)];
    let parts = [part(from_to(b"b", b"k"), false, &letters)];
    for sources in [
        &[7][..],
        &[7, 7],
        &[9, 7],
        &[7, 9, 9, 7, 9],
        &[0, 7],
        &[7, 4, 0, 9],
        &[],
        &[9],
        &[9, 9, 4],
        &[7, 5],
        &[5],
        &[7, u32::MAX],
        &[0x0700, 7],
        &[0x0700_0000],
    ] {
        models.push(Model::new(&runs, 7, sources, &parts));
        models.push(Model::new(&runs[..2], 7, sources, &parts));
        models.push(Model::new(&[], 7, sources, &[]));
    }
    // Stops 8 and 9 of what is not in the image at all, and no runs.
    for (destination, sources) in [(5, vec![]), (5, vec![6]), (5, vec![5]), (5, vec![6, 5])] {
        models.push(Model::new(&runs, destination, &sources, &parts));
    }
}
