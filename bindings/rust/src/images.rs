//! Images, their listing, and the commit.
use crate::answer::{bound, written};
use crate::raw;
use crate::{Range, Stop};

/// Whether bytes are an image, which the other calls on images then take.
///
/// Stops: 3 (length), 1 to 3 in the fields of `image`; 4; 5; 6; 7.
pub fn check_image(image: &[u8]) -> Result<(), Stop> {
    // SAFETY: the slice is lent whole.
    Stop::told(unsafe { raw::bilqarush_check_image(image.as_ptr(), image.len()) })
}

/// The effective range of a view: its table's own range, cut by its visible range. Its keys are parts of `image`. `run`
/// is the run's place in the image and `view` the view's place in its run, both from 0.
///
/// Stops: as [`check_image`]; 9.
pub fn compacted_effective_range(image: &[u8], run: usize, view: usize) -> Result<Range<'_>, Stop> {
    let mut out = [0; raw::BILQARUSH_VIEW_RANGE_LEN];
    // SAFETY: the slices are lent whole, and what is written is this function's own.
    let answer = written(&mut out, |to, room, length| unsafe {
        raw::bilqarush_compacted_effective_range(
            image.as_ptr(),
            image.len(),
            run,
            view,
            to,
            room,
            length,
        )
    })?;
    Ok(Range {
        start: bound(answer[0], image, &answer[1..17]),
        end: bound(answer[17], image, &answer[18..34]),
    })
}

/// Writes the listing of an image, text in ASCII, to the front of `out` and answers that front: a header, then a line for
/// each view with its run's id, its place, its table's id and its effective range.
///
/// Stops: as [`check_image`]; 16. [`LISTING_LEN`](crate::LISTING_LEN) bytes are always enough, and so are 25 and twice
/// the image's length.
///
/// ```
/// let no_runs = [0];
/// let mut out = [0; 64];
/// let listing = bilqarush::list(&no_runs, &mut out)?;
/// assert_eq!(listing, b"run view table start end\n");
/// # Ok::<(), bilqarush::Stop>(())
/// ```
pub fn list<'o>(image: &[u8], out: &'o mut [u8]) -> Result<&'o mut [u8], Stop> {
    // SAFETY: the slices are lent whole, and `out` is borrowed alone.
    written(out, |to, room, length| unsafe {
        raw::bilqarush_list(image.as_ptr(), image.len(), to, room, length)
    })
}

/// The commit of a compaction's record, finished or not. Writes to the front of `out`, and answers, the image in which
/// what is durable of the job shows through its output tables in the destination and no longer through the sources.
/// Durable is the planned range of a completed part; of an unfinished one, its planned range up to, without, the last key
/// of its last output, and nothing if it has no output or that key is its start.
///
/// A new view id keeps the 48 bits of time of the old one and takes the next 10 bytes of `ids`, and 10 more if that makes
/// the old id again. Cut outputs draw first, in job order, then the views of source runs, in image order. The call takes
/// about 120 KB of stack.
///
/// Stops: 3 (length), 1 to 3 in the fields of `image`, then of `job`; 4, 5, 6 and 7, each over both before the next; 8; 9;
/// 10; 11; 12; 14; 15; 16. [`IMAGE_LEN`](crate::IMAGE_LEN) bytes of `out` are always enough.
///
/// ```
/// // Run 7 without views; a job from it to itself, with no parts.
/// let image = [1, 0, 0, 0, 7, 0, 0];
/// let job = [0, 0, 0, 7, 1, 0, 0, 0, 7, 0];
/// let mut out = [0; 64];
/// assert_eq!(bilqarush::commit(&image, &job, &[], &mut out)?, image);
///
/// let no_sources = [0, 0, 0, 7, 0, 0];
/// let stop = bilqarush::commit(&image, &no_sources, &[], &mut out).unwrap_err();
/// assert_eq!(stop.to_string(), "stop 8: the destination is not a source");
/// # Ok::<(), bilqarush::Stop>(())
/// ```
pub fn commit<'o>(
    image: &[u8],
    job: &[u8],
    ids: &[u8],
    out: &'o mut [u8],
) -> Result<&'o mut [u8], Stop> {
    // SAFETY: the slices are lent whole, and `out` is borrowed alone.
    written(out, |to, room, length| unsafe {
        raw::bilqarush_commit(
            image.as_ptr(),
            image.len(),
            job.as_ptr(),
            job.len(),
            ids.as_ptr(),
            ids.len(),
            to,
            room,
            length,
        )
    })
}
