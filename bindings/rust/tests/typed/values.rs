//! Values, to and from bytes, beside the proved calls on random and damaged inputs.
use crate::common::agree;
use crate::common::random::Chance;
use bilqarush::typed::*;
use std::ops::Bound;

const ROUNDS: u64 = 4000;

/// Bytes of a random value, and damaged copies of them.
fn each(write: impl Fn(&mut Chance) -> Result<Vec<u8>, Stop>, check: impl Fn(&[u8])) {
    let mut written = 0;
    for seed in 0..ROUNDS {
        let mut chance = Chance::new(seed);
        let Ok(bytes) = write(&mut chance) else {
            continue;
        };
        written += 1;
        check(&bytes);
        let mut damaged = bytes;
        for _ in 0..3 {
            damaged = chance.damaged(&damaged);
            check(&damaged);
        }
    }
    // A key over its ceiling is the one reason why a value has no bytes here.
    assert!(written > ROUNDS * 9 / 10);
}

#[test]
fn images() {
    each(|chance| chance.image().to_bytes(), agree::image);
}

#[test]
fn jobs() {
    each(|chance| chance.job().to_bytes(), agree::job);
}

#[test]
fn indexes() {
    each(|chance| chance.index().to_bytes(), agree::index);
}

#[test]
fn indexes_end_to_end() {
    let several = |chance: &mut Chance| {
        let count = chance.below(4);
        let indexes = (0..count).map(|_| chance.index()).collect();
        Indexes { indexes }.to_bytes()
    };
    each(several, agree::indexes);
}

#[test]
fn anchors() {
    each(|chance| chance.anchors().to_bytes(), agree::anchors);
}

#[test]
fn ranges() {
    each(|chance| chance.range().to_bytes(), agree::range);
}

#[test]
fn bytes_of_another_kind() {
    each(|chance| chance.image().to_bytes(), agree::every);
    each(|chance| chance.job().to_bytes(), agree::every);
}

/// Counts the stops that commits of random images and jobs meet.
#[test]
fn commits() {
    let mut met = [0; 17];
    for seed in 0..20 * ROUNDS {
        let mut chance = Chance::new(seed);
        let (Ok(image), Ok(job)) = (chance.image().to_bytes(), chance.job().to_bytes()) else {
            continue;
        };
        let (image, job) = match chance.below(8) {
            0 => (chance.damaged(&image), job),
            1 => (image.clone(), chance.damaged(&job)),
            _ => (image, job),
        };
        let ids = &[5; 20][..10 * chance.below(3)];
        agree::commit(&image, &job, ids);
        let refusal = explain_commit(ImageBytes(&image), JobBytes(&job), ids);
        met[refusal.map_or(0, |refusal| usize::from(refusal.stop.number()))] += 1;
    }
    // Each but 13, which no call answers, 15, which takes a full image, and 16, since there is room.
    let missed: Vec<_> = (0..=14).filter(|&stop| met[stop] == 0).collect();
    assert_eq!(missed, [13], "{met:?}");
}

#[test]
fn plans() {
    for seed in 0..ROUNDS {
        let mut chance = Chance::new(seed);
        let image = chance.image();
        let views = image.runs.iter().map(|run| run.views.len()).sum();
        let indexes = (0..views).map(|_| chance.index().to_bytes());
        let (Ok(bytes), Ok(indexes)) = (image.to_bytes(), indexes.collect::<Result<Vec<_>, _>>())
        else {
            continue;
        };
        let indexes = indexes.concat();
        agree::plan(chance.below(70), &bytes, &indexes);
        agree::plan(2, &bytes, &chance.damaged(&indexes));
    }
}

#[test]
fn what_is_over_a_ceiling_has_no_bytes() {
    let table = Table::new(TableId(1), "a");
    let view = View::new(ViewId(1), table.clone());
    let runs = |count| Image::new((0..count).map(|id| Run::new(id, [])));
    assert_eq!(runs(64).to_bytes().map(|bytes| bytes.len()), Ok(1 + 64 * 6));
    assert_eq!(runs(65).to_bytes(), Err(Stop::Ceiling));
    let views = |count| Image::new([Run::new(7, vec![view.clone(); count])]);
    assert_eq!(views(1025).to_bytes(), Err(Stop::Ceiling));
    assert_eq!(
        views(1024).to_bytes().map(|bytes| bytes.len()),
        Ok(7 + 1024 * 61)
    );
    let of_key = |key| View::new(ViewId(1), Table::new(TableId(1), key));
    let full = |key| Image::new([Run::new(7, vec![of_key(key); 1024])]);
    assert!(full("key").to_bytes().is_ok());
    assert_eq!(full("keys").to_bytes(), Err(Stop::Ceiling)); // 7 bytes over 65,536
    assert_eq!(Job::new(7, 0..65).to_bytes(), Err(Stop::Ceiling));
    let part = Part::new(Range::all());
    let parts = |count| Job {
        parts: vec![part.clone(); count],
        ..Job::new(7, [7])
    };
    assert!(parts(64).to_bytes().is_ok());
    assert_eq!(parts(65).to_bytes(), Err(Stop::Ceiling));
    let outputs = Part {
        outputs: vec![table; 1025],
        ..part
    };
    let job = Job::new(7, [7]).with_part(outputs);
    assert_eq!(job.to_bytes(), Err(Stop::Ceiling));
    let anchors = |count| Anchors::new((0..count).map(|_| ("", 0)));
    assert!(anchors(4096).to_bytes().is_ok());
    assert_eq!(anchors(4097).to_bytes(), Err(Stop::Ceiling));
    let blocks = |count| Index::new((0..count).map(|_| (0, "")));
    assert!(blocks(6553).to_bytes().is_ok());
    assert_eq!(blocks(6554).to_bytes(), Err(Stop::Ceiling));
    assert_eq!(blocks(65537).to_bytes(), Err(Stop::Ceiling));
    let long = Range::new(vec![0; 1025]..);
    assert_eq!(long.to_bytes(), Err(Stop::Ceiling));
}

/// A plan may be over the ceiling of an input buffer.
#[test]
fn a_long_plan() {
    let key = |number: u8| [&[0; 1023][..], &[number]].concat();
    let plan = Plan {
        ranges: (0..64)
            .map(|number| Range::new(key(number)..key(number + 1)))
            .collect(),
    };
    let bytes = plan.to_bytes().unwrap();
    assert_eq!(bytes.len(), 1 + 64 * 2053);
    assert_eq!(Plan::from_bytes(&bytes), Ok(plan));
}

#[test]
fn ranges_from_what_rust_has() {
    assert_eq!(Range::new("a".."c").to_string(), "[61 63)");
    assert_eq!(Range::new("a"..="c").to_string(), "[61 63]");
    assert_eq!(Range::new(.."c").to_string(), "- 63)");
    assert_eq!(Range::new(..="c").to_string(), "- 63]");
    assert_eq!(Range::new("a"..).to_string(), "[61 -");
    assert_eq!(Range::new::<&str>(..).to_string(), "- -");
    assert_eq!(Range::new(String::from("")..).to_string(), "[ -");
    assert_eq!(Range::new(vec![0]..vec![255]).to_string(), "[00 ff)");
    let excluded = Range {
        start: Bound::Excluded("a"),
        end: Bound::Included("b"),
    };
    assert_eq!(excluded.to_string(), "(61 62]");
    assert_eq!(excluded.owned().to_string(), "(61 62]");
    assert_eq!(Range::new::<[u8; 0]>(..), Range::all());
}

/// What the standard library says that a range holds is what the proved call says.
#[test]
fn ranges_hold_the_same_keys() {
    use std::ops::RangeBounds;
    for seed in 0..ROUNDS {
        let mut chance = Chance::new(seed);
        let (range, key) = (chance.range(), chance.key());
        let Ok(bytes) = range.to_bytes() else {
            continue;
        };
        match bilqarush::typed::contains(RangeBytes(&bytes), &key) {
            Ok(is) => assert_eq!(RangeBounds::<[u8]>::contains(&range, &key[..]), is),
            Err(stop) => assert!(stop == Stop::EmptyRange || key.len() > 1024),
        }
    }
}
