//! The originals on the bytes that a port is given: decode, call, encode, in the originals' own
//! types. An input is copied once into a `Bytes`, of which every key is a slice. For timing.
//!
//! The checks 1 to 3 are made in decoding; of 4 and 5 those that the originals' constructors
//! make (they panic), but in `check_image`, which makes 4 to 7.
mod commits;
mod decode;
mod encode;
mod images;
mod lookups;
mod plans;
mod progress;
mod ranges;

pub mod borrowed;

pub use commits::{commit, Committed, Given};
pub use images::{check_image, compacted_effective_range, list, Listed};
pub use lookups::{Index, Runs};
pub use plans::{
    plan_subcompaction_ranges, sample_anchors, select_boundaries, Anchors, Plan, Sampling, Sources,
};
pub use progress::{from_compaction, subtract_from, Left, Progress, Recorded, Subtraction};
pub use ranges::{
    as_point, cmp_bound, compare, contains, from_prefix, from_prefix_and_subrange, intersect,
    intersect_end_key, intersect_start_key, non_empty, union,
};

/// The number of the check that stops the call.
pub type Stop = u8;
pub type Checked<T> = Result<T, Stop>;
