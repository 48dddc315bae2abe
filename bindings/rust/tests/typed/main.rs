//! The calls of `bilqarush::typed`, the values and the places of refusals.
mod common;

mod commits;
mod explain;
mod images;
mod lookups;
mod plans;
mod progress;
mod ranges;
mod replay;
mod sizes;
mod stops;
mod values;
