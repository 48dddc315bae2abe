//! Shows that wrong answers are seen: each kind of wrong answer of each call is made for a few
//! inputs only, and must be found; and that the input of a difference gets small.
use crate::call::Call;
use crate::commits::judged_lists;
use crate::comparison::{find, Comparison, Difference};
use crate::lent::Lent;
use crate::lists::{committed_alone, list_fault};
use crate::shards::Shards;
use crate::shrink::smallest;
use crate::wrong::{Kind, When, Wrong, KINDS};
use crate::{commits, images, lookups, plans, progress, ranges, sizes};
use oracle::answers::commits::Case;
use oracle::guarded;
use std::panic::{catch_unwind, AssertUnwindSafe};
use std::sync::atomic::AtomicUsize;

/// The shards that ask this call.
fn shards_of(call: Call, seed: u64) -> Shards {
    let mut shards = Shards::new(seed);
    match call {
        Call::Commit => commits::add(&mut shards, false),
        call if call.is_on_ranges() => ranges::add(&mut shards, false),
        call if call.is_of_sizes() => sizes::add(&mut shards, false),
        call if call.is_of_plans() => plans::add(&mut shards, false),
        call if call.is_of_progress() => progress::add(&mut shards, false),
        call if call.lookup().is_some() => lookups::add(&mut shards, false),
        _ => images::add(&mut shards, false),
    }
    shards
}

/// Whether the first difference is a wrong answer that was made.
fn is_found(wrong: Wrong, seed: u64) -> bool {
    let (_, difference) = shards_of(wrong.call, seed).run(Some(wrong), false);
    let Some(Difference::Call(question)) = difference else {
        return false;
    };
    question.call == wrong.call && find(&question, &mut Lent::new(Some(wrong))).is_some()
}

/// The size of the smallest input that the comparison finds for this wrong answer.
fn size_found(wrong: Wrong, seed: u64) -> Option<usize> {
    let (_, difference) = shards_of(wrong.call, seed).run(Some(wrong), false);
    let Some(Difference::Call(question)) = difference else {
        return None;
    };
    Some(smallest(*question, &mut Lent::new(Some(wrong))).size())
}

/// Of what a list left each byte is changed in turn: that is seen but where an id was drawn.
fn each_byte_counts(to: &mut Comparison, alone: &Case, left: &[u8]) -> Option<String> {
    let (_, drawn) = committed_alone(to, alone)?;
    for (place, drawn) in drawn.into_iter().enumerate() {
        let mut other = left.to_vec();
        other[place] ^= 1;
        // A change may leave no image at all.
        let fault = guarded(|| list_fault(to, alone, &other));
        if fault.is_ok_and(|fault| fault.is_none()) != drawn {
            return Some(format!("byte {place} of what a list left"));
        }
    }
    None
}

/// Whether each byte counts of what some lists left.
fn lists_are_judged(seed: u64) -> bool {
    let least = AtomicUsize::new(usize::MAX);
    let mut to = Comparison::new(0, &least, None);
    let outcome = catch_unwind(AssertUnwindSafe(|| {
        judged_lists(&mut to, 30, seed, each_byte_counts)
    }));
    outcome.is_ok() && to.tally.held > 20
}

/// Wrong answers of one input alone, one for each call: of how many inputs it is one, and
/// whether it was found.
fn single_inputs(seed: u64) -> Vec<(Call, bool)> {
    let mut found = vec![];
    for group in [
        Call::Compare,
        Call::CheckImage,
        Call::Commit,
        Call::PartitionPoint,
        Call::VisibleFraction,
        Call::SampleAnchors,
        Call::FromCompaction,
    ] {
        let (tally, _) = shards_of(group, seed).run(None, false);
        found.extend(tally.picked.into_iter().map(|(call, mark)| {
            let wrong = Wrong {
                call,
                kind: Kind::Opposite,
                when: When::Only(mark),
            };
            (call, is_found(wrong, seed))
        }));
    }
    found
}

/// Answers whether everything was found.
pub fn run(seed: u64) -> bool {
    let mut missed = 0;
    let mut check = |is: bool, what: String| {
        println!("{} {what}", if is { "found " } else { "MISSED" });
        missed += usize::from(!is);
    };
    for call in Call::ALL {
        for kind in KINDS {
            let when = When::OneIn(20);
            let wrong = Wrong { call, kind, when };
            if wrong.can_be() {
                let what = format!("{}: {kind:?}, one input in 20", call.name());
                check(is_found(wrong, seed), what);
            }
        }
    }
    for (call, is) in single_inputs(seed) {
        check(is, format!("{}: one input of all", call.name()));
    }
    check(
        lists_are_judged(seed),
        "each byte that a list leaves".into(),
    );
    // A view without keys has 60 bytes, a run's head 6. A commit needs a job besides. A block has 10
    // bytes and its first key, an anchor too; a lookup needs a range besides. A job with
    // a source, a part and an output has 58 bytes; ["", 00) has 6, and the range that it is taken out of 1.
    for (call, length, most) in [
        (Call::Compare, 3, 3),
        (Call::Contains, 4, 4),
        (Call::Intersect, 5, 6),
        (Call::CheckImage, 68, 70),
        (Call::List, 68, 70),
        (Call::Commit, 68, 90),
        (Call::PartitionPoint, 23, 24),
        (Call::PartitionsCoveringRange, 23, 24),
        (Call::CompactedIntersection, 128, 130),
        (Call::VisibleFraction, 68, 70),
        (Call::EstimateRunVisibleSize, 128, 130),
        (Call::SampleAnchors, 23, 24),
        (Call::SelectBoundaries, 23, 24),
        (Call::PlanSubcompactionRanges, 68, 72),
        (Call::FromCompaction, 58, 60),
        (Call::SubtractFrom, 5, 7),
    ] {
        let wrong = Wrong {
            call,
            kind: Kind::Refused,
            when: When::From(length),
        };
        let size = size_found(wrong, seed);
        let is = size.is_some_and(|size| (length..=most).contains(&size));
        let what = format!("{}: from {length} bytes on, smallest {size:?}", call.name());
        check(is, what);
    }
    println!("{missed} missed");
    missed == 0
}
