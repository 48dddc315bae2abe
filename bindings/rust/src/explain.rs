//! Where a refusal lies.
use crate::answer::fresh;
use crate::checks;
use crate::reader::Reader;
use crate::refusal::{Buffer, Refusal};
use crate::typed::{
    check_image, commit, contains, from_compaction, partition_point, plan_subcompaction_ranges,
    select_boundaries, AnchorsBytes, ImageBytes, IndexBytes, IndexesBytes, JobBytes, Range,
    RangeBytes, Stop, Test,
};
use crate::values::{Anchors, Image, Index, Indexes, Job};
use crate::{DURABLE_LEN, IMAGE_LEN, PLAN_LEN};
use alloc::vec;
use alloc::vec::Vec;

/// Bytes that [`explain`] takes: what the proved call says of them, and what the second reading says.
pub trait Explained: Copy + sealed::Sealed {}

mod sealed {
    use crate::typed::Refusal;
    use crate::Stop;

    pub trait Sealed {
        /// The stop of the proved call that judges such bytes alone.
        fn judged(self) -> Result<(), Stop>;
        /// The place that the second reading finds.
        fn found(self) -> Result<(), Refusal>;
    }
}

/// Why bytes are refused, and where: none if they are not. The stop is that of a proved call: of an image
/// [`check_image`], of a job [`from_compaction`], of an index or each of several [`partition_point`], of anchors
/// [`select_boundaries`], of a range [`contains`].
///
/// ```
/// use bilqarush::typed::{explain, ImageBytes, Stop};
/// let two_runs_of_one_id = [2, 0, 0, 0, 7, 0, 0, 0, 0, 0, 7, 0, 0];
/// let refusal = explain(ImageBytes(&two_runs_of_one_id)).unwrap();
/// assert_eq!(refusal.stop, Stop::Order);
/// assert_eq!(
///     refusal.place.unwrap().to_string(),
///     "image, run 1: run id, at byte 7: an earlier run has the same id"
/// );
/// assert_eq!(explain(ImageBytes(&[0])), None);
/// ```
#[must_use]
pub fn explain(bytes: impl Explained) -> Option<Refusal> {
    together(bytes.judged(), || bytes.found())
}

/// The proved call's stop, with the place of the second reading if that has the same stop.
fn together(
    judged: Result<(), Stop>,
    found: impl FnOnce() -> Result<(), Refusal>,
) -> Option<Refusal> {
    let stop = judged.err()?;
    let place = match found() {
        Err(refusal) if refusal.stop == stop => refusal.place,
        _ => None,
    };
    Some(Refusal { stop, place })
}

macro_rules! explained {
    ($($bytes:ident: $value:ident, $judged:expr;)*) => {
        $(
            impl Explained for $bytes<'_> {}

            impl sealed::Sealed for $bytes<'_> {
                fn judged(self) -> Result<(), Stop> {
                    $judged(self)
                }

                fn found(self) -> Result<(), Refusal> {
                    $value::from_bytes(self.0).map(|_| ())
                }
            }
        )*
    };
}

explained! {
    ImageBytes: Image, check_image;
    JobBytes: Job, |job| fresh(DURABLE_LEN, |out| from_compaction(job, out)).map(|_| ());
    IndexBytes: Index, |index| partition_point(index, Test::Below, b"").map(|_| ());
    AnchorsBytes: Anchors, |anchors| fresh(PLAN_LEN, |out| select_boundaries(1, 0, anchors, out)).map(|_| ());
    RangeBytes: Range, |range| contains(range, b"").map(|_| ());
}

impl Explained for IndexesBytes<'_> {}

impl sealed::Sealed for IndexesBytes<'_> {
    /// No call takes indexes without their image, so each is given to the call on one. The fields of all come before the order
    /// of first keys.
    fn judged(self) -> Result<(), Stop> {
        let mut order = Ok(());
        for index in one_by_one(self.0) {
            match IndexBytes(index).judged() {
                Err(Stop::Order) => order = Err(Stop::Order),
                judged => judged?,
            }
        }
        order
    }

    fn found(self) -> Result<(), Refusal> {
        Indexes::from_bytes(self.0).map(|_| ())
    }
}

/// The bytes of each index. The last has all that is left if no index ends there, or if there are too many.
fn one_by_one(bytes: &[u8]) -> Vec<&[u8]> {
    let Ok(mut reader) = Reader::new(Buffer::Index, bytes) else {
        return vec![bytes];
    };
    let mut indexes = Vec::new();
    while !reader.at_end() {
        let begin = reader.at();
        match reader.index(indexes.len()) {
            Ok(_) => indexes.push(&bytes[begin..reader.at()]),
            Err(_) => {
                indexes.push(&bytes[begin..]);
                break;
            }
        }
    }
    indexes
}

/// Why a commit with room enough is refused, and where: none if it is not. It commits into a buffer of its own.
#[must_use]
pub fn explain_commit(image: ImageBytes, job: JobBytes, ids: &[u8]) -> Option<Refusal> {
    let judged = fresh(IMAGE_LEN, |out| commit(image, job, ids, out));
    together(judged.map(|_| ()), || {
        let image = Image::decode(image.0)?;
        let job = Job::decode(job.0)?;
        checks::all_of_commit(&image, &job)
    })
}

/// Why a plan with room enough is refused, and where: none if it is not. A setting, and a total over all sampled anchors,
/// has no place.
#[must_use]
pub fn explain_plan(parts: usize, image: ImageBytes, indexes: IndexesBytes) -> Option<Refusal> {
    let judged = fresh(PLAN_LEN, |out| {
        plan_subcompaction_ranges(parts, image, indexes, out)
    });
    together(judged.map(|_| ()), || {
        let image = Image::decode(image.0)?;
        let views = image.runs.iter().map(|run| run.views.len()).sum();
        let mut reader = Reader::new(Buffer::Index, indexes.0)?;
        let indexes = (0..views).map(|place| reader.index(place));
        let indexes = indexes.collect::<Result<Vec<_>, _>>()?;
        reader.end()?;
        checks::all_of_plan(&image, &indexes)
    })
}
