//! The calls over bytes by what they are meant to be, images, jobs and the like as plain values, and the place of a refusal.
//!
//! # From values to answers
//!
//! [`Image`], [`Job`], [`Index`], [`Anchors`], [`Plan`] and [`Range`] are plain values with `to_bytes` and `from_bytes`.
//! The calls take bytes, by what they are meant to be: [`ImageBytes`], [`JobBytes`] and so on, so that an image and a job
//! cannot be exchanged. A key or a prefix is its bare bytes. The layouts are those of `docs/FORMAT.md`.
//!
//! ```
//! use bilqarush::typed::{check_image, list_to_string, Image, ImageBytes, Run, Table, TableId, View, ViewId};
//!
//! let table = Table::new(TableId(1), "lamp/1").with_last_key("lamp/8");
//! let image = Image::new([Run::new(7, [View::new(ViewId(1), table)])]).to_bytes()?;
//! check_image(ImageBytes(&image))?;
//! print!("{}", list_to_string(ImageBytes(&image))?);
//! # Ok::<(), bilqarush::Stop>(())
//! ```
//!
//! | to do | call | into a buffer of its own |
//! |---|---|---|
//! | hold an image to the checks | [`check_image`] | |
//! | list an image | [`list`] | [`list_to_string`] |
//! | commit a job | [`commit`] | [`commit_to_vec`] |
//! | find tables or blocks | [`table_idx_covering_range`], [`partitions_covering_range`] and others | |
//! | estimate sizes | [`estimate_visible_size`], [`estimate_run_visible_size`] | |
//! | plan a compaction | [`plan_subcompaction_ranges`], [`select_boundaries`], [`sample_anchors`] | [`plan_subcompaction_ranges_to_plan`], [`select_boundaries_to_plan`], [`sample_anchors_to_anchors`] |
//! | see what of a job is durable | [`from_compaction`] | [`from_compaction_to_plan`] |
//! | subtract an interval | [`subtract_from`] | [`subtract_from_to_plan`] |
//! | make a range of a prefix | [`from_prefix`] | [`from_prefix_to_range`] |
//! | learn where a refusal lies | [`explain`], [`explain_commit`], [`explain_plan`] | |
//!
//! The values, and the place that `explain` tells, are a second implementation in Rust that is not proved; tests hold it to
//! the proved calls. Whether bytes are accepted, and every answer, is the proved calls' alone.

mod images;
mod lookups;
mod plans;
mod progress;
mod ranges;
mod sizes;

pub use crate::explain::{explain, explain_commit, explain_plan, Explained};
pub use crate::key_range::Range;
pub use crate::lent::{AnchorsBytes, ImageBytes, IndexBytes, IndexesBytes, JobBytes, RangeBytes};
pub use crate::refusal::{Buffer, Item, Place, Refusal};
pub use crate::stop::Stop;
pub use crate::values::{
    Anchor, Anchors, Block, Image, Index, Indexes, Job, Part, Plan, Run, Table, TableId, View,
    ViewId,
};
pub use crate::{cmp_bound, compare, from_prefix};
pub use crate::{Bounds, Joined, Side, Test, VisibleFraction};
pub use crate::{
    ANCHORS_LEN, DURABLE_LEN, IDS_LEN, IMAGE_LEN, KEY_LEN, LEFT_LEN, LISTING_LEN, PLAN_LEN,
    RANGE_LEN,
};
pub use images::{
    check_image, commit, commit_to_vec, compacted_effective_range, list, list_to_string,
};
pub use lookups::{
    calculate_view_range, compacted_intersection, first_partition_including_key,
    first_partition_including_or_after_key, intersects_range, last_partition_including_key,
    overlaps_range, partition_point, partitions_covering_range, table_idx_covering_range,
};
pub use plans::{
    plan_subcompaction_ranges, plan_subcompaction_ranges_to_plan, sample_anchors,
    sample_anchors_to_anchors, select_boundaries, select_boundaries_to_plan,
};
pub use progress::{
    from_compaction, from_compaction_to_plan, subtract_from, subtract_from_to_plan,
};
pub use ranges::{
    as_point, contains, from_prefix_and_subrange, from_prefix_and_subrange_to_range,
    from_prefix_to_range, intersect, intersect_end_key, intersect_start_key, non_empty, union,
};
pub use sizes::{estimate_run_visible_size, estimate_visible_size, visible_fraction};
