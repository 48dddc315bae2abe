//! What the calls answer. Values are the originals'; stops are those of `checks`.
pub mod commits;
pub mod images;
pub mod lookups;
pub mod paper;
pub mod plain;
pub mod plans;
pub mod progress;
pub mod ranges;
pub mod sizes;
pub mod steps;
