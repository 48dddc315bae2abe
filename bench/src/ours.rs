//! The proved library's calls, by its C interface: a slice is a pointer and a length, and the
//! number of a stop is returned, 0 if none.
use bilqarush::raw::*;
use oracle::direct::Checked;
use std::ops::Range;

fn answered<T>(stop: u8, answer: T) -> Checked<T> {
    if stop == 0 {
        Ok(answer)
    } else {
        Err(stop)
    }
}

pub fn compare(a: &[u8], b: &[u8]) -> Checked<i8> {
    let mut order = 0;
    let stop = unsafe { bilqarush_compare(a.as_ptr(), a.len(), b.as_ptr(), b.len(), &mut order) };
    answered(stop, order)
}

pub fn cmp_bound(a_kind: u8, a: &[u8], b_kind: u8, b: &[u8], start: bool) -> Checked<i8> {
    let mut order = 0;
    let stop = unsafe {
        bilqarush_cmp_bound(
            a_kind,
            a.as_ptr(),
            a.len(),
            b_kind,
            b.as_ptr(),
            b.len(),
            start,
            &mut order,
        )
    };
    answered(stop, order)
}

pub fn non_empty(range: &[u8]) -> Checked<bool> {
    let mut is = false;
    let stop = unsafe { bilqarush_non_empty(range.as_ptr(), range.len(), &mut is) };
    answered(stop, is)
}

pub fn contains(range: &[u8], key: &[u8]) -> Checked<bool> {
    let mut is = false;
    let stop = unsafe {
        bilqarush_contains(
            range.as_ptr(),
            range.len(),
            key.as_ptr(),
            key.len(),
            &mut is,
        )
    };
    answered(stop, is)
}

pub fn check_image(image: &[u8]) -> Checked<()> {
    answered(
        unsafe { bilqarush_check_image(image.as_ptr(), image.len()) },
        (),
    )
}

pub fn compacted_effective_range(
    image: &[u8],
    run: usize,
    view: usize,
    out: &mut [u8],
) -> Checked<usize> {
    let mut written = 0;
    let stop = unsafe {
        bilqarush_compacted_effective_range(
            image.as_ptr(),
            image.len(),
            run,
            view,
            out.as_mut_ptr(),
            out.len(),
            &mut written,
        )
    };
    answered(stop, written)
}

pub fn commit(image: &[u8], job: &[u8], ids: &[u8], out: &mut [u8]) -> Checked<usize> {
    let mut written = 0;
    let stop = unsafe {
        bilqarush_commit(
            image.as_ptr(),
            image.len(),
            job.as_ptr(),
            job.len(),
            ids.as_ptr(),
            ids.len(),
            out.as_mut_ptr(),
            out.len(),
            &mut written,
        )
    };
    answered(stop, written)
}

/// Calls that read one slice, or two, and write one.
macro_rules! writers {
    (one $($name:ident $symbol:ident),*) => {$(
        pub fn $name(a: &[u8], out: &mut [u8]) -> Checked<usize> {
            let mut written = 0;
            let stop = unsafe {
                $symbol(a.as_ptr(), a.len(), out.as_mut_ptr(), out.len(), &mut written)
            };
            answered(stop, written)
        }
    )*};
    (two $($name:ident $symbol:ident),*) => {$(
        pub fn $name(a: &[u8], b: &[u8], out: &mut [u8]) -> Checked<usize> {
            let mut written = 0;
            let stop = unsafe {
                $symbol(
                    a.as_ptr(),
                    a.len(),
                    b.as_ptr(),
                    b.len(),
                    out.as_mut_ptr(),
                    out.len(),
                    &mut written,
                )
            };
            answered(stop, written)
        }
    )*};
}

writers!(one
    as_point bilqarush_as_point,
    from_prefix bilqarush_from_prefix,
    list bilqarush_list,
    from_compaction bilqarush_from_compaction);
writers!(two
    intersect bilqarush_intersect,
    intersect_start_key bilqarush_intersect_start_key,
    intersect_end_key bilqarush_intersect_end_key,
    union bilqarush_union,
    from_prefix_and_subrange bilqarush_from_prefix_and_subrange,
    subtract_from bilqarush_subtract_from);

pub fn partition_point(index: &[u8], at_or_below: bool, key: &[u8]) -> Checked<usize> {
    let mut count = 0;
    let stop = unsafe {
        bilqarush_partition_point(
            index.as_ptr(),
            index.len(),
            at_or_below,
            key.as_ptr(),
            key.len(),
            &mut count,
        )
    };
    answered(stop, count)
}

pub fn first_partition_including_or_after_key(index: &[u8], key: &[u8]) -> Checked<usize> {
    let mut partition = 0;
    let stop = unsafe {
        bilqarush_first_partition_including_or_after_key(
            index.as_ptr(),
            index.len(),
            key.as_ptr(),
            key.len(),
            &mut partition,
        )
    };
    answered(stop, partition)
}

/// Lookups of a key that may find none.
macro_rules! finders {
    ($($name:ident $symbol:ident),*) => {$(
        pub fn $name(index: &[u8], key: &[u8]) -> Checked<Option<usize>> {
            let (mut found, mut partition) = (false, 0);
            let stop = unsafe {
                $symbol(
                    index.as_ptr(),
                    index.len(),
                    key.as_ptr(),
                    key.len(),
                    &mut found,
                    &mut partition,
                )
            };
            answered(stop, found.then_some(partition))
        }
    )*};
}

finders!(
    first_partition_including_key bilqarush_first_partition_including_key,
    last_partition_including_key bilqarush_last_partition_including_key);

pub fn partitions_covering_range(index: &[u8], range: &[u8]) -> Checked<Range<usize>> {
    let (mut start, mut end) = (0, 0);
    let stop = unsafe {
        bilqarush_partitions_covering_range(
            index.as_ptr(),
            index.len(),
            range.as_ptr(),
            range.len(),
            &mut start,
            &mut end,
        )
    };
    answered(stop, start..end)
}

pub fn table_idx_covering_range(image: &[u8], run: usize, range: &[u8]) -> Checked<Range<usize>> {
    let (mut start, mut end) = (0, 0);
    let stop = unsafe {
        bilqarush_table_idx_covering_range(
            image.as_ptr(),
            image.len(),
            run,
            range.as_ptr(),
            range.len(),
            &mut start,
            &mut end,
        )
    };
    answered(stop, start..end)
}

pub fn overlaps_range(image: &[u8], run: usize, range: &[u8]) -> Checked<bool> {
    let mut is = false;
    let stop = unsafe {
        bilqarush_overlaps_range(
            image.as_ptr(),
            image.len(),
            run,
            range.as_ptr(),
            range.len(),
            &mut is,
        )
    };
    answered(stop, is)
}

/// Calls on a view and a range that write a range.
macro_rules! cutters {
    ($($name:ident $symbol:ident),*) => {$(
        pub fn $name(
            image: &[u8],
            run: usize,
            view: usize,
            range: &[u8],
            out: &mut [u8],
        ) -> Checked<usize> {
            let mut written = 0;
            let stop = unsafe {
                $symbol(
                    image.as_ptr(),
                    image.len(),
                    run,
                    view,
                    range.as_ptr(),
                    range.len(),
                    out.as_mut_ptr(),
                    out.len(),
                    &mut written,
                )
            };
            answered(stop, written)
        }
    )*};
}

cutters!(
    compacted_intersection bilqarush_compacted_intersection,
    calculate_view_range bilqarush_calculate_view_range);

pub fn intersects_range(
    image: &[u8],
    run: usize,
    view: usize,
    end_kind: u8,
    end: &[u8],
    range: &[u8],
) -> Checked<bool> {
    let mut is = false;
    let stop = unsafe {
        bilqarush_intersects_range(
            image.as_ptr(),
            image.len(),
            run,
            view,
            end_kind,
            end.as_ptr(),
            end.len(),
            range.as_ptr(),
            range.len(),
            &mut is,
        )
    };
    answered(stop, is)
}

/// 1.0 where the table is shown whole, as the Rust has it.
pub fn visible_fraction(image: &[u8], run: usize, view: usize) -> Checked<f64> {
    let (mut part, mut fraction) = (false, 1.0);
    let stop = unsafe {
        bilqarush_visible_fraction(
            image.as_ptr(),
            image.len(),
            run,
            view,
            &mut part,
            &mut fraction,
        )
    };
    answered(stop, if part { fraction } else { 1.0 })
}

pub fn estimate_visible_size(image: &[u8], run: usize, view: usize) -> Checked<u64> {
    let mut size = 0;
    let stop = unsafe {
        bilqarush_estimate_visible_size(image.as_ptr(), image.len(), run, view, &mut size)
    };
    answered(stop, size)
}

pub fn estimate_run_visible_size(image: &[u8], run: usize) -> Checked<u64> {
    let mut size = 0;
    let stop =
        unsafe { bilqarush_estimate_run_visible_size(image.as_ptr(), image.len(), run, &mut size) };
    answered(stop, size)
}

pub fn sample_anchors(
    most: usize,
    data_end: u64,
    index: &[u8],
    range: &[u8],
    out: &mut [u8],
) -> Checked<usize> {
    let mut written = 0;
    let stop = unsafe {
        bilqarush_sample_anchors(
            most,
            data_end,
            index.as_ptr(),
            index.len(),
            range.as_ptr(),
            range.len(),
            out.as_mut_ptr(),
            out.len(),
            &mut written,
        )
    };
    answered(stop, written)
}

pub fn select_boundaries(
    parts: usize,
    least: u64,
    anchors: &[u8],
    out: &mut [u8],
) -> Checked<usize> {
    let mut written = 0;
    let stop = unsafe {
        bilqarush_select_boundaries(
            parts,
            least,
            anchors.as_ptr(),
            anchors.len(),
            out.as_mut_ptr(),
            out.len(),
            &mut written,
        )
    };
    answered(stop, written)
}

pub fn plan_subcompaction_ranges(
    parts: usize,
    image: &[u8],
    indexes: &[u8],
    out: &mut [u8],
) -> Checked<usize> {
    let mut written = 0;
    let stop = unsafe {
        bilqarush_plan_subcompaction_ranges(
            parts,
            image.as_ptr(),
            image.len(),
            indexes.as_ptr(),
            indexes.len(),
            out.as_mut_ptr(),
            out.len(),
            &mut written,
        )
    };
    answered(stop, written)
}
