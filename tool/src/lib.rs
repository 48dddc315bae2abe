//! The command `bilqarush`, and the text form that it reads and writes.
//!
//! Each command answers by a call of the proved library; the text form and the words are this crate's.
pub mod args;
pub mod commands;
pub mod draw;
pub mod failure;
pub mod input;
pub mod kind;
pub mod output;
pub mod text;
