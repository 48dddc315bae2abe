//! Images, their listing, and the commit.
use crate::answer::fresh;
use crate::typed::{ImageBytes, JobBytes, Range};
use crate::{Stop, IMAGE_LEN};
use alloc::string::String;
use alloc::vec::Vec;

/// Whether bytes are an image, which the other calls on images then take.
///
/// # Errors
/// Stops 3 (length), 1 to 3 in the fields of `image`; 4; 5; 6; 7.
pub fn check_image(image: ImageBytes) -> Result<(), Stop> {
    crate::check_image(image.0)
}

/// The effective range of a view: its table's own range, cut by its visible range. Its keys are parts of `image`. `run`
/// is the run's place in the image and `view` the view's place in its run, both from 0.
///
/// # Errors
/// Stops as [`check_image`]; 9.
pub fn compacted_effective_range(
    image: ImageBytes<'_>,
    run: usize,
    view: usize,
) -> Result<Range<&[u8]>, Stop> {
    crate::compacted_effective_range(image.0, run, view)
}

/// Writes the listing of an image, text in ASCII, to the front of `out` and answers that front: a header, then a line for
/// each view with its run's id, its place, its table's id and its effective range.
///
/// # Errors
/// Stops as [`check_image`]; 16. [`LISTING_LEN`](crate::LISTING_LEN) bytes are always enough, and so are 25 and twice
/// the image's length.
///
/// ```
/// use bilqarush::typed::{list, ImageBytes};
/// let no_runs = ImageBytes(&[0]);
/// let mut out = [0; 64];
/// assert_eq!(list(no_runs, &mut out)?, "run view table start end\n");
/// # Ok::<(), bilqarush::Stop>(())
/// ```
pub fn list<'o>(image: ImageBytes, out: &'o mut [u8]) -> Result<&'o str, Stop> {
    let listing = crate::list(image.0, out)?;
    Ok(core::str::from_utf8(listing).expect("a listing is ASCII"))
}

/// [`list`] into a buffer of its own.
///
/// # Errors
/// Stops as [`check_image`].
///
/// ```
/// use bilqarush::typed::{list_to_string, Image, ImageBytes, Run, Table, TableId, View, ViewId};
/// let table = Table::new(TableId(1), "a").with_last_key("c");
/// let image = Image::new([Run::new(7, [View::new(ViewId(1), table)])]);
/// assert_eq!(
///     list_to_string(ImageBytes(&image.to_bytes()?))?,
///     "run view table start end\n7 0 00000000000000000000000000000001 [61 63]\n"
/// );
/// # Ok::<(), bilqarush::Stop>(())
/// ```
pub fn list_to_string(image: ImageBytes) -> Result<String, Stop> {
    // The header, and no line is longer than twice its view.
    let mut out = alloc::vec![0; 25 + 2 * image.0.len()];
    list(image, &mut out).map(String::from)
}

/// The commit of a compaction's record, finished or not. Writes to the front of `out`, and answers, the image in which
/// what is durable of the job shows through its output tables in the destination and no longer through the sources.
/// Durable is the planned range of a completed part; of an unfinished one, its planned range up to, without, the last key
/// of its last output, and nothing if it has no output or that key is its start.
///
/// A new view id keeps the 48 bits of time of the old one and takes the next 10 bytes of `ids`, and 10 more as often as that makes
/// the old id again. Cut outputs draw first, in job order, then the views of source runs, in image order. Give random bytes that
/// are fresh for each commit; [`IDS_LEN`](crate::IDS_LEN) of them are enough. The call takes about 120 KB of stack.
///
/// # Errors
/// Stops 3 (length), 1 to 3 in the fields of `image`, then of `job`; 4, 5, 6 and 7, each over both before the next; 8; 9;
/// 10; 11; 12; 14; 15; 16. [`IMAGE_LEN`](crate::IMAGE_LEN) bytes of `out` are always enough.
///
/// ```
/// use bilqarush::typed::{commit, Image, ImageBytes, Job, JobBytes, Run};
/// // Run 7 without views; a job from it to itself, with no parts.
/// let image = Image::new([Run::new(7, [])]).to_bytes()?;
/// let job = Job::new(7, [7]).to_bytes()?;
/// let mut out = [0; 64];
/// assert_eq!(commit(ImageBytes(&image), JobBytes(&job), &[], &mut out)?, image);
///
/// let no_sources = Job::new(7, []).to_bytes()?;
/// let stop = commit(ImageBytes(&image), JobBytes(&no_sources), &[], &mut out).unwrap_err();
/// assert_eq!(stop.to_string(), "stop 8: the destination is not a source");
/// # Ok::<(), bilqarush::Stop>(())
/// ```
///
/// An image and a job cannot be exchanged:
///
/// ```compile_fail,E0308
/// # use bilqarush::typed::{commit, ImageBytes, JobBytes};
/// # let (image, job, mut out) = ([0], [0], [0; 64]);
/// commit(JobBytes(&job), ImageBytes(&image), &[], &mut out)?;
/// # Ok::<(), bilqarush::Stop>(())
/// ```
pub fn commit<'o>(
    image: ImageBytes,
    job: JobBytes,
    ids: &[u8],
    out: &'o mut [u8],
) -> Result<&'o mut [u8], Stop> {
    crate::commit(image.0, job.0, ids, out)
}

/// [`commit`] into a buffer of its own, which is as long as the new image.
///
/// # Errors
/// Stops as [`commit`], but 16.
///
/// ```
/// use bilqarush::typed::{commit_to_vec, Image, ImageBytes, Job, JobBytes, Part, Range, Run, Table, TableId, View, ViewId};
/// // The old table is from a to z. A worker wrote one from a to m, and stopped: up to m, without m, it is durable.
/// let old = Table::new(TableId(1), "a").with_last_key("z");
/// let image = Image::new([Run::new(7, [View::new(ViewId(1), old)])]);
/// let written = Table::new(TableId(2), "a").with_last_key("m");
/// let job = Job::new(7, [7]).with_part(Part::new(Range::all()).with_output(written));
/// let ids = b"twenty random bytes."; // one id for the output, which is cut, and one for what is left of the old view
/// let after = commit_to_vec(ImageBytes(&image.to_bytes()?), JobBytes(&job.to_bytes()?), ids)?;
/// assert_eq!(
///     bilqarush::typed::list_to_string(ImageBytes(&after))?,
///     "run view table start end\n\
///      7 0 00000000000000000000000000000002 [61 6d)\n\
///      7 1 00000000000000000000000000000001 [6d 7a]\n"
/// );
/// # Ok::<(), bilqarush::Stop>(())
/// ```
pub fn commit_to_vec(image: ImageBytes, job: JobBytes, ids: &[u8]) -> Result<Vec<u8>, Stop> {
    fresh(IMAGE_LEN, |out| commit(image, job, ids, out))
}
