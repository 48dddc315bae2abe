//! Bilqarush: ranges of byte keys, images of runs, lookups in them and in indexes, visible sizes, and the plan, the
//! progress and the commit of a compaction, after slatedb 0.18.0.
//!
//! A safe function for each call of `libbilqarush_c.a`, which is written in Rattle and proved: what each answers, for
//! every input, is stated in `docs/PROMISES.md` of the repository. A call takes any bytes. It answers, or refuses with a
//! [`Stop`], and then every lent buffer is as it was. A call that writes takes `out` and answers the front of it that it
//! wrote; the bytes past that front are as they were. Nothing is allocated but by [`range_image`] and in [`typed`]. The crate does
//! without `std`.
//!
//! [`typed`] has the same calls over bytes by what they are meant to be, images, jobs and the like as plain values, and the place
//! of a refusal.
//!
//! # Use
//!
//! By a path dependency on this folder of a checked-out repository:
//!
//! ```toml
//! [dependencies]
//! bilqarush = { path = "bilqarush/bindings/rust" }
//! ```
//!
//! The archive is looked for in the folder that the variable `BILQARUSH_LIB_DIR` names, else in `target/staticlib` of the
//! repository, where `bindings/archive` is run if it is not there yet. It is for x86-64 Linux.
//!
//! # Arguments
//!
//! A key or a prefix is its bare bytes. A range is a range image, which [`range_image`] makes. Images, jobs, indexes, anchors
//! and plans are laid out as `include/bilqarush.h` and `docs/FORMAT.md` say.
//!
//! ```
//! use bilqarush::{contains, from_prefix, RANGE_LEN};
//!
//! let mut out = [0; RANGE_LEN];
//! let lamps = from_prefix(b"lamp/", &mut out)?;
//! assert!(contains(lamps, b"lamp/7")?);
//! assert!(!contains(lamps, b"mast/7")?);
//! # Ok::<(), bilqarush::Stop>(())
//! ```
#![no_std]
#![warn(missing_docs)]

extern crate alloc;

mod answer;
mod builders;
mod checks;
mod cut;
mod explain;
mod images;
mod key_range;
mod lent;
mod lookups;
mod plans;
mod progress;
mod ranges;
pub mod raw;
mod reader;
mod records;
mod refusal;
mod sizes;
mod stop;
pub mod typed;
mod values;
mod writer;

pub use images::{check_image, commit, compacted_effective_range, list};
pub use lookups::{
    calculate_view_range, compacted_intersection, first_partition_including_key,
    first_partition_including_or_after_key, intersects_range, last_partition_including_key,
    overlaps_range, partition_point, partitions_covering_range, table_idx_covering_range, Test,
};
pub use plans::{plan_subcompaction_ranges, sample_anchors, select_boundaries};
pub use progress::{from_compaction, subtract_from};
pub use ranges::{
    as_point, cmp_bound, compare, contains, from_prefix, from_prefix_and_subrange, intersect,
    intersect_end_key, intersect_start_key, non_empty, range_image, union, Bounds, Joined, Range,
    Side,
};
pub use sizes::{
    estimate_run_visible_size, estimate_visible_size, visible_fraction, VisibleFraction,
};
pub use stop::Stop;

/// The longest key, which `out` of [`intersect_start_key`] and [`intersect_end_key`] has to hold.
pub const KEY_LEN: usize = raw::BILQARUSH_KEY_LEN;
/// The longest range image that [`from_prefix`] and [`from_prefix_and_subrange`] write.
pub const RANGE_LEN: usize = raw::BILQARUSH_RANGE_LEN;
/// No listing that [`list`] writes is longer.
pub const LISTING_LEN: usize = raw::BILQARUSH_LISTING_LEN;
/// The longest image that [`commit`] writes.
pub const IMAGE_LEN: usize = raw::BILQARUSH_IMAGE_LEN;
/// No anchors that [`sample_anchors`] writes are longer.
pub const ANCHORS_LEN: usize = raw::BILQARUSH_ANCHORS_LEN;
/// The longest plan that [`select_boundaries`] and [`plan_subcompaction_ranges`] write.
pub const PLAN_LEN: usize = raw::BILQARUSH_PLAN_LEN;
/// No durable intervals that [`from_compaction`] writes are longer.
pub const DURABLE_LEN: usize = raw::BILQARUSH_DURABLE_LEN;
/// Bytes of ids that are enough for each [`commit`] that can be answered, unless some draw makes the old id again.
pub const IDS_LEN: usize = raw::BILQARUSH_IDS_LEN;
/// The longest answer that [`subtract_from`] writes.
pub const LEFT_LEN: usize = raw::BILQARUSH_LEFT_LEN;
