//! A second reading of document 01: its checks and ceilings, written from the paper. What a
//! range is, whether two of them meet and where a view starts are the originals'.
mod commits;
mod durable;
mod images;
mod indexes;
mod jobs;
mod lists;
mod lookups;
mod plans;
mod progress;
mod ranges;
mod reader;

pub use commits::*;
pub use durable::*;
pub use images::*;
pub use indexes::*;
pub use jobs::*;
pub use lists::*;
pub use lookups::*;
pub use plans::*;
pub use progress::*;
pub use ranges::*;
pub use reader::*;

/// The number of the check that stops the call.
pub type Stop = u8;
pub type Checked<T> = Result<T, Stop>;

pub const KEY_CEILING: usize = 1_024;
pub const BUFFER_CEILING: usize = 65_536;
pub const RUN_CEILING: u8 = 64;
pub const VIEW_CEILING: u16 = 1_024;
pub const SIZE_CEILING: u128 = 1 << 53;
pub const SOURCE_CEILING: u8 = 64;
pub const PART_CEILING: u8 = 64;
pub const OUTPUT_CEILING: u16 = 1_024;
pub const ANCHOR_CEILING: usize = 4_096;
pub const TOTAL_CEILING: u128 = 1 << 63;
