//! The second implementation, of values and of places, held to the proved calls on some bytes.
use bilqarush::typed::*;

/// What is asked of each kind of bytes: the proved call's stop, what `from_bytes` and `to_bytes` say, and what `explain` says.
fn held<T>(
    bytes: &[u8],
    judged: Result<(), Stop>,
    read: Result<T, Refusal>,
    write: impl Fn(&T) -> Result<Vec<u8>, Stop>,
    explained: Option<Refusal>,
) {
    assert_eq!(explained.map(|refusal| refusal.stop), judged.err());
    match read {
        Ok(value) => {
            assert_eq!(judged, Ok(()), "{bytes:x?}");
            assert_eq!(write(&value).as_deref(), Ok(bytes));
        }
        Err(refusal) => {
            assert_eq!(judged, Err(refusal.stop), "{bytes:x?}");
            assert_eq!(explained, Some(refusal));
            let place = refusal.place.expect("a reading has a place");
            assert!(
                place.offset <= bytes.len(),
                "{place} of {} bytes",
                bytes.len()
            );
        }
    }
}

fn judged<T>(answer: Result<T, Stop>) -> Result<(), Stop> {
    answer.map(|_| ())
}

pub fn image(bytes: &[u8]) {
    let lent = ImageBytes(bytes);
    let read = Image::from_bytes(bytes);
    decoded(Image::decode(bytes).err(), check_image(lent));
    held(
        bytes,
        check_image(lent),
        read,
        Image::to_bytes,
        explain(lent),
    );
}

pub fn job(bytes: &[u8]) {
    let lent = JobBytes(bytes);
    let stop = judged(from_compaction_to_plan(lent));
    decoded(Job::decode(bytes).err(), stop);
    held(
        bytes,
        stop,
        Job::from_bytes(bytes),
        Job::to_bytes,
        explain(lent),
    );
}

pub fn index(bytes: &[u8]) {
    let lent = IndexBytes(bytes);
    let stop = judged(last_partition_including_key(lent, b"k"));
    decoded(Index::decode(bytes).err(), stop);
    held(
        bytes,
        stop,
        Index::from_bytes(bytes),
        Index::to_bytes,
        explain(lent),
    );
}

/// The planner takes indexes together with an image, so a plan for one view each is asked for.
pub fn indexes(bytes: &[u8]) {
    let explained = explain(IndexesBytes(bytes));
    let read = Indexes::from_bytes(bytes);
    let views = Indexes::decode(bytes).map_or(1024, |all| all.indexes.len());
    if views > 1024 {
        return; // no run has as many views
    }
    let view = View::new(ViewId(0), Table::new(TableId(0), ""));
    let image = Image::new([Run::new(7, vec![view; views])]).to_bytes();
    let plan =
        plan_subcompaction_ranges_to_plan(2, ImageBytes(&image.unwrap()), IndexesBytes(bytes));
    let stop = match plan {
        // Of the anchors that are sampled, and not of the indexes.
        Err(Stop::Size | Stop::ResultCeiling) => Ok(()),
        plan => judged(plan),
    };
    decoded(Indexes::decode(bytes).err(), stop);
    held(bytes, stop, read, Indexes::to_bytes, explained);
}

pub fn anchors(bytes: &[u8]) {
    let lent = AnchorsBytes(bytes);
    let stop = judged(select_boundaries_to_plan(64, 0, lent));
    decoded(Anchors::decode(bytes).err(), stop);
    held(
        bytes,
        stop,
        Anchors::from_bytes(bytes),
        Anchors::to_bytes,
        explain(lent),
    );
}

pub fn range(bytes: &[u8]) {
    let lent = RangeBytes(bytes);
    let stop = judged(as_point(lent));
    decoded(Range::decode(bytes).err(), judged(non_empty(lent)));
    held(
        bytes,
        stop,
        Range::from_bytes(bytes),
        Range::to_bytes,
        explain(lent),
    );
    if Range::decode(bytes).is_ok() {
        assert_eq!(non_empty(lent), Ok(Range::from_bytes(bytes).is_ok()));
    }
}

/// `decode` makes the checks 1 to 3 and no other.
fn decoded(refused: Option<Refusal>, judged: Result<(), Stop>) {
    let layout = judged.err().filter(|stop| stop.number() <= 3);
    assert_eq!(refused.map(|refusal| refusal.stop), layout);
}

/// Any bytes, as each kind.
pub fn every(bytes: &[u8]) {
    image(bytes);
    job(bytes);
    index(bytes);
    indexes(bytes);
    anchors(bytes);
    range(bytes);
}

/// The stop of a commit, and that each up to 12 has a place.
pub fn commit(image: &[u8], job: &[u8], ids: &[u8]) {
    let (image, job) = (ImageBytes(image), JobBytes(job));
    let answer = commit_to_vec(image, job, ids);
    let refusal = explain_commit(image, job, ids);
    assert_eq!(
        refusal.map(|refusal| refusal.stop),
        judged(answer.clone()).err()
    );
    if let Some(Refusal { stop, place }) = refusal {
        assert_eq!(place.is_some(), stop.number() <= 12, "{stop}");
    }
    if let Ok(new) = answer {
        assert_eq!(Image::decode(&new).unwrap().to_bytes().as_ref(), Ok(&new));
    }
}

/// The stop of a plan, and that each up to 6 has a place but that of the setting.
pub fn plan(parts: usize, image: &[u8], indexes: &[u8]) {
    let (image, indexes) = (ImageBytes(image), IndexesBytes(indexes));
    let answer = plan_subcompaction_ranges_to_plan(parts, image, indexes);
    let refusal = explain_plan(parts, image, indexes);
    assert_eq!(refusal.map(|refusal| refusal.stop), judged(answer).err());
    if let Some(Refusal { stop, place }) = refusal {
        assert!(place.is_some() || stop.number() > 6 || parts > 64, "{stop}");
    }
}
