//! The C interface, exactly as `include/bilqarush.h` has it; what each call reads, writes and answers is said there.
//!
//! The pointer of a slice may be null where its length is 0; that of a slot never is. What is written (`out` and the slots
//! `order`, `is`, `written`, `count`, `found`, `partition`, `start`, `end`, `part`, `fraction` and `size`: all that is
//! `*mut`) overlaps nothing else that the call is given, and slots are initialised.

/// The ceiling of a key, in bytes.
pub const BILQARUSH_MAX_KEY: usize = 1024;
/// The ceiling of an input buffer (the id supply apart) and of a written image, in bytes.
pub const BILQARUSH_MAX_BUFFER: usize = 65536;
/// The ceiling of an image's runs.
pub const BILQARUSH_MAX_RUNS: usize = 64;
/// The ceiling of a run's views.
pub const BILQARUSH_MAX_VIEWS: usize = 1024;
/// The ceiling of a job's sources.
pub const BILQARUSH_MAX_SOURCES: usize = 64;
/// The ceiling of a job's parts, and of those that a plan is asked for.
pub const BILQARUSH_MAX_PARTS: usize = 64;
/// The ceiling of a part's outputs.
pub const BILQARUSH_MAX_OUTPUTS: usize = 1024;
/// The ceiling of anchors: given, sampled from all tables, and asked of a table.
pub const BILQARUSH_MAX_ANCHORS: usize = 4096;

/// The kind of an unbounded bound.
pub const BILQARUSH_UNBOUNDED: u8 = 0;
/// The kind of an included bound.
pub const BILQARUSH_INCLUDED: u8 = 1;
/// The kind of an excluded bound.
pub const BILQARUSH_EXCLUDED: u8 = 2;

/// The side of a bound that the first slice supplied.
pub const BILQARUSH_FIRST: u8 = 1;
/// The side of a bound that the second slice supplied.
pub const BILQARUSH_SECOND: u8 = 2;

/// The longest answer of `as_point`.
pub const BILQARUSH_POINT_LEN: usize = 17;
/// The longest answer of `intersect`, `union`, `compacted_intersection` and `calculate_view_range`.
pub const BILQARUSH_JOINED_LEN: usize = 37;
/// The answer of `compacted_effective_range`.
pub const BILQARUSH_VIEW_RANGE_LEN: usize = 34;
/// The longest answer of `intersect_start_key` and `intersect_end_key`.
pub const BILQARUSH_KEY_LEN: usize = 1024;
/// The longest answer of `from_prefix` and `from_prefix_and_subrange`.
pub const BILQARUSH_RANGE_LEN: usize = 2053;
/// No answer of `list` is longer.
pub const BILQARUSH_LISTING_LEN: usize = 131097;
/// The longest answer of `commit`.
pub const BILQARUSH_IMAGE_LEN: usize = 65536;
/// No answer of `sample_anchors` is longer.
pub const BILQARUSH_ANCHORS_LEN: usize = 65536;
/// The longest answer of `select_boundaries` and `plan_subcompaction_ranges`.
pub const BILQARUSH_PLAN_LEN: usize = 129341;
/// No answer of `from_compaction` is longer.
pub const BILQARUSH_DURABLE_LEN: usize = 65536;
/// The longest answer of `subtract_from`.
pub const BILQARUSH_LEFT_LEN: usize = 4107;

/// Bytes of `ids` that are enough for a `commit` that stop 15 does not refuse, while no draw makes the old id again.
pub const BILQARUSH_IDS_LEN: usize = 10920;

unsafe extern "C" {
    /// The order of two keys.
    pub fn bilqarush_compare(
        a: *const u8,
        a_len: usize,
        b: *const u8,
        b_len: usize,
        order: *mut i8,
    ) -> u8;

    /// The order of two bounds.
    pub fn bilqarush_cmp_bound(
        a_kind: u8,
        a: *const u8,
        a_len: usize,
        b_kind: u8,
        b: *const u8,
        b_len: usize,
        start: bool,
        order: *mut i8,
    ) -> u8;

    /// Whether a range passes slatedb's rule.
    pub fn bilqarush_non_empty(range: *const u8, range_len: usize, is: *mut bool) -> u8;

    /// Whether a range holds a key.
    pub fn bilqarush_contains(
        range: *const u8,
        range_len: usize,
        key: *const u8,
        key_len: usize,
        is: *mut bool,
    ) -> u8;

    /// The key of a range that is one point.
    pub fn bilqarush_as_point(
        range: *const u8,
        range_len: usize,
        out: *mut u8,
        out_len: usize,
        written: *mut usize,
    ) -> u8;

    /// The intersection of two ranges.
    pub fn bilqarush_intersect(
        a: *const u8,
        a_len: usize,
        b: *const u8,
        b_len: usize,
        out: *mut u8,
        out_len: usize,
        written: *mut usize,
    ) -> u8;

    /// The key of the intersection's start.
    pub fn bilqarush_intersect_start_key(
        a: *const u8,
        a_len: usize,
        b: *const u8,
        b_len: usize,
        out: *mut u8,
        out_len: usize,
        written: *mut usize,
    ) -> u8;

    /// The key of the intersection's end.
    pub fn bilqarush_intersect_end_key(
        a: *const u8,
        a_len: usize,
        b: *const u8,
        b_len: usize,
        out: *mut u8,
        out_len: usize,
        written: *mut usize,
    ) -> u8;

    /// The union of two ranges.
    pub fn bilqarush_union(
        a: *const u8,
        a_len: usize,
        b: *const u8,
        b_len: usize,
        out: *mut u8,
        out_len: usize,
        written: *mut usize,
    ) -> u8;

    /// The range of the keys that begin with a prefix.
    pub fn bilqarush_from_prefix(
        prefix: *const u8,
        prefix_len: usize,
        out: *mut u8,
        out_len: usize,
        written: *mut usize,
    ) -> u8;

    /// The range of the keys that are a prefix and then a key of a subrange.
    pub fn bilqarush_from_prefix_and_subrange(
        prefix: *const u8,
        prefix_len: usize,
        subrange: *const u8,
        subrange_len: usize,
        out: *mut u8,
        out_len: usize,
        written: *mut usize,
    ) -> u8;

    /// Whether bytes are an image.
    pub fn bilqarush_check_image(image: *const u8, image_len: usize) -> u8;

    /// The effective range of a view.
    pub fn bilqarush_compacted_effective_range(
        image: *const u8,
        image_len: usize,
        run: usize,
        view: usize,
        out: *mut u8,
        out_len: usize,
        written: *mut usize,
    ) -> u8;

    /// The listing of an image.
    pub fn bilqarush_list(
        image: *const u8,
        image_len: usize,
        out: *mut u8,
        out_len: usize,
        written: *mut usize,
    ) -> u8;

    /// The commit of a compaction's record.
    pub fn bilqarush_commit(
        image: *const u8,
        image_len: usize,
        job: *const u8,
        job_len: usize,
        ids: *const u8,
        ids_len: usize,
        out: *mut u8,
        out_len: usize,
        written: *mut usize,
    ) -> u8;

    /// How many of an index's leading first keys satisfy a test.
    pub fn bilqarush_partition_point(
        index: *const u8,
        index_len: usize,
        at_or_below: bool,
        key: *const u8,
        key_len: usize,
        count: *mut usize,
    ) -> u8;

    /// The first partition that can hold a key.
    pub fn bilqarush_first_partition_including_key(
        index: *const u8,
        index_len: usize,
        key: *const u8,
        key_len: usize,
        found: *mut bool,
        partition: *mut usize,
    ) -> u8;

    /// The first partition that can hold a key or one after it.
    pub fn bilqarush_first_partition_including_or_after_key(
        index: *const u8,
        index_len: usize,
        key: *const u8,
        key_len: usize,
        partition: *mut usize,
    ) -> u8;

    /// The last partition that can hold a key.
    pub fn bilqarush_last_partition_including_key(
        index: *const u8,
        index_len: usize,
        key: *const u8,
        key_len: usize,
        found: *mut bool,
        partition: *mut usize,
    ) -> u8;

    /// The partitions that can hold a key of a range.
    pub fn bilqarush_partitions_covering_range(
        index: *const u8,
        index_len: usize,
        range: *const u8,
        range_len: usize,
        start: *mut usize,
        end: *mut usize,
    ) -> u8;

    /// The views of a run that can hold a key of a range.
    pub fn bilqarush_table_idx_covering_range(
        image: *const u8,
        image_len: usize,
        run: usize,
        range: *const u8,
        range_len: usize,
        start: *mut usize,
        end: *mut usize,
    ) -> u8;

    /// Whether a range meets a run's span.
    pub fn bilqarush_overlaps_range(
        image: *const u8,
        image_len: usize,
        run: usize,
        range: *const u8,
        range_len: usize,
        is: *mut bool,
    ) -> u8;

    /// What a view keeps of a range.
    pub fn bilqarush_compacted_intersection(
        image: *const u8,
        image_len: usize,
        run: usize,
        view: usize,
        range: *const u8,
        range_len: usize,
        out: *mut u8,
        out_len: usize,
        written: *mut usize,
    ) -> u8;

    /// The part of a range that a view is read for.
    pub fn bilqarush_calculate_view_range(
        image: *const u8,
        image_len: usize,
        run: usize,
        view: usize,
        range: *const u8,
        range_len: usize,
        out: *mut u8,
        out_len: usize,
        written: *mut usize,
    ) -> u8;

    /// Whether a range meets a view that counts up to an end bound.
    pub fn bilqarush_intersects_range(
        image: *const u8,
        image_len: usize,
        run: usize,
        view: usize,
        end_kind: u8,
        end: *const u8,
        end_len: usize,
        range: *const u8,
        range_len: usize,
        is: *mut bool,
    ) -> u8;

    /// How much of its table a view shows.
    pub fn bilqarush_visible_fraction(
        image: *const u8,
        image_len: usize,
        run: usize,
        view: usize,
        part: *mut bool,
        fraction: *mut f64,
    ) -> u8;

    /// The visible size of a view.
    pub fn bilqarush_estimate_visible_size(
        image: *const u8,
        image_len: usize,
        run: usize,
        view: usize,
        size: *mut u64,
    ) -> u8;

    /// The visible size of a run.
    pub fn bilqarush_estimate_run_visible_size(
        image: *const u8,
        image_len: usize,
        run: usize,
        size: *mut u64,
    ) -> u8;

    /// The anchors of a table.
    pub fn bilqarush_sample_anchors(
        most: usize,
        data_end: u64,
        index: *const u8,
        index_len: usize,
        range: *const u8,
        range_len: usize,
        out: *mut u8,
        out_len: usize,
        written: *mut usize,
    ) -> u8;

    /// The ranges that anchors are planned into.
    pub fn bilqarush_select_boundaries(
        parts: usize,
        least: u64,
        anchors: *const u8,
        anchors_len: usize,
        out: *mut u8,
        out_len: usize,
        written: *mut usize,
    ) -> u8;

    /// The ranges in which the views of an image are compacted.
    pub fn bilqarush_plan_subcompaction_ranges(
        parts: usize,
        image: *const u8,
        image_len: usize,
        indexes: *const u8,
        indexes_len: usize,
        out: *mut u8,
        out_len: usize,
        written: *mut usize,
    ) -> u8;

    /// The durable intervals of a job's parts.
    pub fn bilqarush_from_compaction(
        job: *const u8,
        job_len: usize,
        out: *mut u8,
        out_len: usize,
        written: *mut usize,
    ) -> u8;

    /// What of a range lies outside an interval.
    pub fn bilqarush_subtract_from(
        interval: *const u8,
        interval_len: usize,
        range: *const u8,
        range_len: usize,
        out: *mut u8,
        out_len: usize,
        written: *mut usize,
    ) -> u8;
}
