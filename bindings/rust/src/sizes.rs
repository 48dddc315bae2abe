//! Visible sizes: of a view and of a run in an image.
use crate::raw;
use crate::Stop;

/// How much of its table a view shows.
#[derive(Clone, Copy, Debug, PartialEq)]
pub enum VisibleFraction {
    /// All of it, or so it counts.
    Whole,
    /// A part, from 1e-6 to 1.
    Part(f64),
}

/// How much of its table a view shows. It is whole where the table has no last key, where the view's effective range is the
/// table's own range, and where the effective range has the length 0. Else it is the length of the effective range divided
/// by that of the own range, or by [`f64::EPSILON`] if that is greater; 1e-6 at least and 1 at most. `run` is the run's place
/// in the image and `view` the view's place in its run, both from 0.
///
/// The length of a range is the number of its end's key minus that of its start's. Of a key the bytes after the common
/// prefix of the table's first and last key count, eight at most: the first as 256ths, the next as 256ths of these, and so
/// on. Each step is one of `f64`, in slatedb's order, and the bits of a part are slatedb's.
///
/// Stops: as [`check_image`](crate::check_image); 9.
///
/// ```
/// use bilqarush::{visible_fraction, VisibleFraction};
/// // Run 7 with a view of a table with keys from 00 to 80 and a raw size of 5. Ids are 0.
/// let numbers = [&[0; 39][..], &[5], &[0; 16]].concat();
/// let table = [&[1, 0, 0, 0, 7, 0, 0x10][..], &numbers, b"\x80\0\x01\0\0\x01\x80"].concat();
/// let all = [&table[..], b"\0"].concat();
/// assert_eq!(visible_fraction(&all, 0, 0)?, VisibleFraction::Whole);
/// // From 00 up to, without, 40 is visible.
/// let half = [&table[..], b"\x80\x60\0\x01\0\0\x01\x40"].concat();
/// assert_eq!(visible_fraction(&half, 0, 0)?, VisibleFraction::Part(0.5));
/// # Ok::<(), bilqarush::Stop>(())
/// ```
pub fn visible_fraction(image: &[u8], run: usize, view: usize) -> Result<VisibleFraction, Stop> {
    let (mut part, mut fraction) = (false, 0.0);
    // SAFETY: the slice is lent whole, and the slots are this function's own.
    Stop::told(unsafe {
        raw::bilqarush_visible_fraction(
            image.as_ptr(),
            image.len(),
            run,
            view,
            &mut part,
            &mut fraction,
        )
    })?;
    Ok(if part {
        VisibleFraction::Part(fraction)
    } else {
        VisibleFraction::Whole
    })
}

/// The visible size of a view, in bytes. It is the raw size of its table, `index_offset` + `index_len`, if it has no visible
/// range; else the raw size times the fraction of [`visible_fraction`] (1 if it is whole), rounded to the nearest whole
/// number, a half up, and 1 at least. `run` is the run's place in the image and `view` the view's place in its run, both
/// from 0.
///
/// Stops: as [`check_image`](crate::check_image); 9.
///
/// ```
/// use bilqarush::estimate_visible_size;
/// // Run 7 with a view of a table with keys from 00 to 80 and a raw size of 5. Ids are 0.
/// let numbers = [&[0; 39][..], &[5], &[0; 16]].concat();
/// let table = [&[1, 0, 0, 0, 7, 0, 0x10][..], &numbers, b"\x80\0\x01\0\0\x01\x80"].concat();
/// assert_eq!(estimate_visible_size(&[&table[..], b"\0"].concat(), 0, 0), Ok(5));
/// // From 00 up to, without, 40 is visible: half of it.
/// let half = [&table[..], b"\x80\x60\0\x01\0\0\x01\x40"].concat();
/// assert_eq!(estimate_visible_size(&half, 0, 0), Ok(3));
/// ```
pub fn estimate_visible_size(image: &[u8], run: usize, view: usize) -> Result<u64, Stop> {
    let mut size = 0;
    // SAFETY: the slice is lent whole, and the slot is this function's own.
    Stop::told(unsafe {
        raw::bilqarush_estimate_visible_size(image.as_ptr(), image.len(), run, view, &mut size)
    })?;
    Ok(size)
}

/// The visible size of a run, in bytes: the sum over its views, 0 if it has none. `run` is the run's place in the image, from
/// 0.
///
/// Stops: as [`check_image`](crate::check_image); 9.
///
/// ```
/// use bilqarush::estimate_run_visible_size;
/// // Run 7 with two views of tables from a on, of raw sizes 5 and 6. Ids are 0.
/// let view = |size: u8| [&[0; 39][..], &[size], &[0; 16], b"\0\0\x01a\0"].concat();
/// let image = [&[1, 0, 0, 0, 7, 0, 0x20][..], &view(5), &view(6)].concat();
/// assert_eq!(estimate_run_visible_size(&image, 0), Ok(11));
/// ```
pub fn estimate_run_visible_size(image: &[u8], run: usize) -> Result<u64, Stop> {
    let mut size = 0;
    // SAFETY: the slice is lent whole, and the slot is this function's own.
    Stop::told(unsafe {
        raw::bilqarush_estimate_run_visible_size(image.as_ptr(), image.len(), run, &mut size)
    })?;
    Ok(size)
}
