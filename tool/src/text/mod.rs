//! The text form of images, jobs, indexes, anchors, plans and ranges, which a person can write and read back. `form.txt`
//! tells it in words.
pub mod id;
pub mod key;
mod line;
mod lines;
pub mod range;
pub mod read;
pub mod words;
pub mod write;

pub use line::TextError;
pub use lines::Read;

/// The text form in words, for `bilqarush help text`.
pub const FORM: &str = include_str!("form.txt");
