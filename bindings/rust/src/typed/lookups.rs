//! Lookups: partitions in an index, views in an image.
use crate::typed::{ImageBytes, IndexBytes, RangeBytes};
use crate::{Joined, Stop, Test};
use core::ops::{self, Bound};

/// How many of an index's leading first keys satisfy a test with a key; 0 if there are no partitions.
///
/// # Errors
/// Stops 3 (length), 1 and 3 in the fields of `index`; 3 if `key` is over 1,024 bytes; 6.
///
/// ```
/// use bilqarush::typed::{partition_point, Index, IndexBytes, Test};
/// let index = Index::new([(0, "a"), (10, "b"), (20, "b"), (30, "d")]).to_bytes()?;
/// let index = IndexBytes(&index);
/// assert_eq!(partition_point(index, Test::Below, b"b"), Ok(1));
/// assert_eq!(partition_point(index, Test::AtOrBelow, b"b"), Ok(3));
/// # Ok::<(), bilqarush::Stop>(())
/// ```
pub fn partition_point(index: IndexBytes, test: Test, key: &[u8]) -> Result<usize, Stop> {
    crate::partition_point(index.0, test, key)
}

/// The first partition that can hold a key, by its place from 0: the last whose first key is below it, else the first if
/// the key is its first key. None if each first key is above the key, and none with no partitions.
///
/// # Errors
/// Stops as [`partition_point`].
///
/// ```
/// use bilqarush::typed::{first_partition_including_key, Index, IndexBytes};
/// let index = Index::new([(0, "a"), (10, "b"), (20, "b"), (30, "d")]).to_bytes()?;
/// let index = IndexBytes(&index);
/// assert_eq!(first_partition_including_key(index, b"b"), Ok(Some(0)));
/// assert_eq!(first_partition_including_key(index, b"c"), Ok(Some(2)));
/// assert_eq!(first_partition_including_key(index, b"A"), Ok(None));
/// # Ok::<(), bilqarush::Stop>(())
/// ```
pub fn first_partition_including_key(index: IndexBytes, key: &[u8]) -> Result<Option<usize>, Stop> {
    crate::first_partition_including_key(index.0, key)
}

/// The first partition that can hold a key or one after it: that of [`first_partition_including_key`], and 0 where there
/// is none, also with no partitions.
///
/// # Errors
/// Stops as [`partition_point`].
///
/// ```
/// use bilqarush::typed::{first_partition_including_or_after_key, Index, IndexBytes};
/// let index = Index::new([(0, "a"), (10, "b"), (20, "b"), (30, "d")]).to_bytes()?;
/// let index = IndexBytes(&index);
/// assert_eq!(first_partition_including_or_after_key(index, b"e"), Ok(3));
/// assert_eq!(first_partition_including_or_after_key(index, b"A"), Ok(0));
/// # Ok::<(), bilqarush::Stop>(())
/// ```
pub fn first_partition_including_or_after_key(
    index: IndexBytes,
    key: &[u8],
) -> Result<usize, Stop> {
    crate::first_partition_including_or_after_key(index.0, key)
}

/// The last partition that can hold a key, by its place from 0: the last whose first key is at or below it. None if each
/// first key is above the key, and none with no partitions.
///
/// # Errors
/// Stops as [`partition_point`].
///
/// ```
/// use bilqarush::typed::{last_partition_including_key, Index, IndexBytes};
/// let index = Index::new([(0, "a"), (10, "b"), (20, "b"), (30, "d")]).to_bytes()?;
/// let index = IndexBytes(&index);
/// assert_eq!(last_partition_including_key(index, b"b"), Ok(Some(2)));
/// assert_eq!(last_partition_including_key(index, b"A"), Ok(None));
/// # Ok::<(), bilqarush::Stop>(())
/// ```
pub fn last_partition_including_key(index: IndexBytes, key: &[u8]) -> Result<Option<usize>, Stop> {
    crate::last_partition_including_key(index.0, key)
}

/// The places of the partitions that can hold a key of a range; `0..0` with no partitions.
///
/// # Errors
/// Stops 3 (length), 1 and 3 in the fields of `index`; 3 (length), 1 to 3 in the fields of `range`; 4; 6.
///
/// ```
/// use bilqarush::typed::{partitions_covering_range, Index, IndexBytes, Range, RangeBytes};
/// let index = Index::new([(0, "a"), (10, "b"), (20, "b"), (30, "d")]).to_bytes()?;
/// let index = IndexBytes(&index);
/// let point = Range::new("b"..="b").to_bytes()?;
/// assert_eq!(partitions_covering_range(index, RangeBytes(&point))?, 0..3);
/// let before = Range::new(.."b").to_bytes()?;
/// assert_eq!(partitions_covering_range(index, RangeBytes(&before))?, 0..2);
/// # Ok::<(), bilqarush::Stop>(())
/// ```
pub fn partitions_covering_range(
    index: IndexBytes,
    range: RangeBytes,
) -> Result<ops::Range<usize>, Stop> {
    crate::partitions_covering_range(index.0, range.0)
}

/// The places of the views of a run that can hold a key of a range; `0..0` if the run has no views. A view counts up to
/// the next view's effective start, and with that key if its effective range holds it; the last view counts without end.
/// `run` is the run's place in the image, from 0.
///
/// # Errors
/// Stops 3 (length), 1 to 3 in the fields of `image`, then of `range`; 4, of the range or a visible range; 5; 6; 7; 9.
///
/// ```
/// use bilqarush::typed::{table_idx_covering_range, Stop};
/// use bilqarush::typed::{Image, ImageBytes, Range, RangeBytes, Run, Table, TableId, View, ViewId};
/// // Run 7 with two views: of a table from a to c, and of one from d on.
/// let one = Table::new(TableId(1), "a").with_last_key("c");
/// let two = Table::new(TableId(2), "d");
/// let image = Image::new([Run::new(7, [View::new(ViewId(1), one), View::new(ViewId(2), two)])]).to_bytes()?;
/// let image = ImageBytes(&image);
/// let range = Range::new("cc".."d").to_bytes()?;
/// assert_eq!(table_idx_covering_range(image, 0, RangeBytes(&range))?, 0..1);
/// assert_eq!(table_idx_covering_range(image, 1, RangeBytes(&range)), Err(Stop::NotInImage));
/// # Ok::<(), bilqarush::Stop>(())
/// ```
pub fn table_idx_covering_range(
    image: ImageBytes,
    run: usize,
    range: RangeBytes,
) -> Result<ops::Range<usize>, Stop> {
    crate::table_idx_covering_range(image.0, run, range.0)
}

/// Whether a range meets a run's span: from the effective start of its first view to the effective end of its last. It
/// does not if the run has no views. `run` is the run's place in the image, from 0.
///
/// # Errors
/// Stops as [`table_idx_covering_range`].
///
/// ```
/// use bilqarush::typed::overlaps_range;
/// use bilqarush::typed::{Image, ImageBytes, Range, RangeBytes, Run, Table, TableId, View, ViewId};
/// // Run 7 with a view of a table from a to c.
/// let table = Table::new(TableId(1), "a").with_last_key("c");
/// let image = Image::new([Run::new(7, [View::new(ViewId(1), table)])]).to_bytes()?;
/// let image = ImageBytes(&image);
/// assert!(overlaps_range(image, 0, RangeBytes(&Range::new("c"..).to_bytes()?))?);
/// assert!(!overlaps_range(image, 0, RangeBytes(&Range::new("cc"..).to_bytes()?))?);
/// # Ok::<(), bilqarush::Stop>(())
/// ```
pub fn overlaps_range(image: ImageBytes, run: usize, range: RangeBytes) -> Result<bool, Stop> {
    crate::overlaps_range(image.0, run, range.0)
}

/// What a view keeps of a range. Of the last view of a run: the intersection of its effective range and the range. Of
/// another: the intersection of the keys from its effective start up to the next view's (with that key if its effective
/// range holds it, and keys past its last key too) and the range; then, if it has a visible range, the intersection of
/// the result and that. Of equal bounds each takes the second's start and the first's end, in the order said here.
///
/// [`Side::First`](crate::Side) is the image, [`Side::Second`](crate::Side) the range. `run` is the run's place in the
/// image and `view` the view's place in its run, both from 0.
///
/// # Errors
/// Stops as [`table_idx_covering_range`].
///
/// ```
/// use bilqarush::typed::{compacted_intersection, Side};
/// use bilqarush::typed::{Image, ImageBytes, Range, RangeBytes, Run, Table, TableId, View, ViewId};
/// // Run 7 with two views: of a table from a to c, and of one from d on.
/// let one = Table::new(TableId(1), "a").with_last_key("c");
/// let two = Table::new(TableId(2), "d");
/// let image = Image::new([Run::new(7, [View::new(ViewId(1), one), View::new(ViewId(2), two)])]).to_bytes()?;
/// let image = ImageBytes(&image);
/// let range = Range::new("b"..).to_bytes()?;
/// let kept = compacted_intersection(image, 0, 0, RangeBytes(&range))?.unwrap();
/// assert_eq!(kept.range.owned(), Range::new("b".."d"));
/// assert_eq!((kept.start_from, kept.end_from), (Side::Second, Side::First));
/// # Ok::<(), bilqarush::Stop>(())
/// ```
pub fn compacted_intersection<'a>(
    image: ImageBytes<'a>,
    run: usize,
    view: usize,
    range: RangeBytes<'a>,
) -> Result<Option<Joined<'a>>, Stop> {
    crate::compacted_intersection(image.0, run, view, range.0)
}

/// The part of a range that a view is read for: the intersection of the range and its visible range; without one, of the
/// range and its table's own range; and without a last key either, the range as it is. Of equal bounds it takes the
/// image's start and the range's end.
///
/// [`Side::First`](crate::Side) is the image, [`Side::Second`](crate::Side) the range. `run` is the run's place in the
/// image and `view` the view's place in its run, both from 0.
///
/// # Errors
/// Stops as [`table_idx_covering_range`].
///
/// ```
/// use bilqarush::typed::{calculate_view_range, Side};
/// use bilqarush::typed::{Image, ImageBytes, Range, RangeBytes, Run, Table, TableId, View, ViewId};
/// // Run 7 with a view of a table from a to c.
/// let table = Table::new(TableId(1), "a").with_last_key("c");
/// let image = Image::new([Run::new(7, [View::new(ViewId(1), table)])]).to_bytes()?;
/// let image = ImageBytes(&image);
/// let range = Range::new("b"..).to_bytes()?;
/// let part = calculate_view_range(image, 0, 0, RangeBytes(&range))?.unwrap();
/// assert_eq!(part.range.owned(), Range::new("b"..="c"));
/// assert_eq!((part.start_from, part.end_from), (Side::Second, Side::First));
/// # Ok::<(), bilqarush::Stop>(())
/// ```
pub fn calculate_view_range<'a>(
    image: ImageBytes<'a>,
    run: usize,
    view: usize,
    range: RangeBytes<'a>,
) -> Result<Option<Joined<'a>>, Stop> {
    crate::calculate_view_range(image.0, run, view, range.0)
}

/// Whether a range meets a view that counts from its effective start up to an end bound, which stands in place of its own
/// end. It does not where the view's effective range lies behind that bound. `run` is the run's place in the image and
/// `view` the view's place in its run, both from 0.
///
/// # Errors
/// Stops 3 (length), 1 to 3 in the fields of `image`; 3 if the key of `end` is over 1,024 bytes; 3 (length), 1 to 3 in
/// the fields of `range`; 4, of the range or a visible range; 5; 6; 7; 9.
///
/// ```
/// use bilqarush::typed::intersects_range;
/// use bilqarush::typed::{Image, ImageBytes, Range, RangeBytes, Run, Table, TableId, View, ViewId};
/// use std::ops::Bound::{Excluded, Unbounded};
/// // Run 7 with a view of a table from a to c.
/// let table = Table::new(TableId(1), "a").with_last_key("c");
/// let image = Image::new([Run::new(7, [View::new(ViewId(1), table)])]).to_bytes()?;
/// let image = ImageBytes(&image);
/// let range = Range::new("x"..).to_bytes()?;
/// assert!(intersects_range(image, 0, 0, Unbounded, RangeBytes(&range))?);
/// assert!(!intersects_range(image, 0, 0, Excluded(b"d"), RangeBytes(&range))?);
/// # Ok::<(), bilqarush::Stop>(())
/// ```
pub fn intersects_range(
    image: ImageBytes,
    run: usize,
    view: usize,
    end: Bound<&[u8]>,
    range: RangeBytes,
) -> Result<bool, Stop> {
    crate::intersects_range(image.0, run, view, end, range.0)
}
