//! Visible sizes: of a view and of a run in an image.
use crate::typed::ImageBytes;
use crate::{Stop, VisibleFraction};

/// How much of its table a view shows. It is whole where the table has no last key, where the view's effective range is the
/// table's own range, and where the effective range has the length 0. Else it is the length of the effective range divided
/// by that of the own range, or by [`f64::EPSILON`] if that is greater; 1e-6 at least and 1 at most. `run` is the run's place
/// in the image and `view` the view's place in its run, both from 0.
///
/// The length of a range is the number of its end's key minus that of its start's. Of a key the bytes after the common
/// prefix of the table's first and last key count, eight at most: the first as 256ths, the next as 256ths of these, and so
/// on. Each step is one of `f64`, in slatedb's order, and the bits of a part are slatedb's.
///
/// # Errors
/// Stops as [`check_image`](crate::typed::check_image); 9.
///
/// ```
/// use bilqarush::typed::{visible_fraction, VisibleFraction};
/// use bilqarush::typed::{Image, ImageBytes, Range, Run, Table, TableId, View, ViewId};
/// // Run 7 with a view of a table with keys from 00 to 80.
/// let view = View::new(ViewId(1), Table::new(TableId(1), [0x00]).with_last_key([0x80]));
/// let all = Image::new([Run::new(7, [view.clone()])]).to_bytes()?;
/// assert_eq!(visible_fraction(ImageBytes(&all), 0, 0)?, VisibleFraction::Whole);
/// // From 00 up to, without, 40 is visible.
/// let half = Image::new([Run::new(7, [view.with_visible(Range::new([0x00]..[0x40]))])]).to_bytes()?;
/// assert_eq!(visible_fraction(ImageBytes(&half), 0, 0)?, VisibleFraction::Part(0.5));
/// # Ok::<(), bilqarush::Stop>(())
/// ```
pub fn visible_fraction(
    image: ImageBytes,
    run: usize,
    view: usize,
) -> Result<VisibleFraction, Stop> {
    crate::visible_fraction(image.0, run, view)
}

/// The visible size of a view, in bytes. It is the raw size of its table, `index_offset` + `index_len`, if it has no visible
/// range; else the raw size times the fraction of [`visible_fraction`] (1 if it is whole), rounded to the nearest whole
/// number, a half up, and 1 at least. `run` is the run's place in the image and `view` the view's place in its run, both
/// from 0.
///
/// # Errors
/// Stops as [`check_image`](crate::typed::check_image); 9.
///
/// ```
/// use bilqarush::typed::estimate_visible_size;
/// use bilqarush::typed::{Image, ImageBytes, Range, Run, Table, TableId, View, ViewId};
/// // Run 7 with a view of a table with keys from 00 to 80 and a raw size of 5.
/// let table = Table::new(TableId(1), [0x00]).with_last_key([0x80]).with_index(3, 2);
/// let view = View::new(ViewId(1), table);
/// let all = Image::new([Run::new(7, [view.clone()])]).to_bytes()?;
/// assert_eq!(estimate_visible_size(ImageBytes(&all), 0, 0)?, 5);
/// // From 00 up to, without, 40 is visible: half of it.
/// let half = Image::new([Run::new(7, [view.with_visible(Range::new([0x00]..[0x40]))])]).to_bytes()?;
/// assert_eq!(estimate_visible_size(ImageBytes(&half), 0, 0)?, 3);
/// # Ok::<(), bilqarush::Stop>(())
/// ```
pub fn estimate_visible_size(image: ImageBytes, run: usize, view: usize) -> Result<u64, Stop> {
    crate::estimate_visible_size(image.0, run, view)
}

/// The visible size of a run, in bytes: the sum over its views, 0 if it has none. `run` is the run's place in the image, from
/// 0.
///
/// # Errors
/// Stops as [`check_image`](crate::typed::check_image); 9.
///
/// ```
/// use bilqarush::typed::estimate_run_visible_size;
/// use bilqarush::typed::{Image, ImageBytes, Run, Table, TableId, View, ViewId};
/// // Run 7 with two views of tables from a on, of raw sizes 5 and 6.
/// let view = |id, size| View::new(ViewId(id), Table::new(TableId(id), "a").with_index(size, 0));
/// let image = Image::new([Run::new(7, [view(1, 5), view(2, 6)])]).to_bytes()?;
/// assert_eq!(estimate_run_visible_size(ImageBytes(&image), 0)?, 11);
/// # Ok::<(), bilqarush::Stop>(())
/// ```
pub fn estimate_run_visible_size(image: ImageBytes, run: usize) -> Result<u64, Stop> {
    crate::estimate_run_visible_size(image.0, run)
}
