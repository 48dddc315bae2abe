//! Inputs to try. They are made one after the other and handed to whatever takes them: a
//! writer of records, or the comparison.
mod chance;
pub mod commits;
pub mod images;
mod keys;
pub mod lookups;
pub mod plans;
pub mod progress;
pub mod ranges;
pub mod sizes;
mod tables;
mod writer;

pub use chance::*;
pub use keys::*;
pub use tables::*;
pub use writer::*;
