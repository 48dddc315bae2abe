//! Images, jobs, indexes, anchors and plans as plain values.
//!
//! Each has `to_bytes`, which lays it out, and `from_bytes`, which reads it and makes the checks that the proved call named
//! there makes. Both are a second implementation of docs/FORMAT.md, and are not proved: tests hold them to the proved
//! calls.
use crate::key_range::Range;
use alloc::vec::Vec;
use core::fmt;

/// The id of a table: 48 bits of time, 80 random ones. A table's id and a view's are never compared as if alike.
#[derive(Clone, Copy, Debug, Default, PartialEq, Eq, Hash, PartialOrd, Ord)]
pub struct TableId(pub u128);

/// The id of a view: 48 bits of time, 80 random ones.
#[derive(Clone, Copy, Debug, Default, PartialEq, Eq, Hash, PartialOrd, Ord)]
pub struct ViewId(pub u128);

/// 32 digits in lowercase hexadecimal, as a listing has them.
impl fmt::Display for TableId {
    fn fmt(&self, f: &mut fmt::Formatter) -> fmt::Result {
        write!(f, "{:032x}", self.0)
    }
}

/// 32 digits in lowercase hexadecimal.
impl fmt::Display for ViewId {
    fn fmt(&self, f: &mut fmt::Formatter) -> fmt::Result {
        write!(f, "{:032x}", self.0)
    }
}

/// A sorted table. Its own range is from the first key to the last, both included, and without end if it has no last key.
#[derive(Clone, Debug, Default, PartialEq, Eq, Hash)]
pub struct Table {
    /// Its id.
    pub id: TableId,
    /// Where its index stands in its file.
    pub index_offset: u64,
    /// How long the index is. The raw size of the table is `index_offset` + `index_len`, at most 2^53.
    pub index_len: u64,
    /// Where its filter stands, which is where its data end.
    pub filter_offset: u64,
    /// Its first key.
    pub first_key: Vec<u8>,
    /// Its last key, if it is known.
    pub last_key: Option<Vec<u8>>,
}

/// A table as a run shows it.
#[derive(Clone, Debug, Default, PartialEq, Eq, Hash)]
pub struct View {
    /// Its id.
    pub id: ViewId,
    /// The table.
    pub table: Table,
    /// The range that is visible of the table; all of it if there is none.
    pub visible: Option<Range>,
}

/// A sorted run: views in the order of their keys.
#[derive(Clone, Debug, Default, PartialEq, Eq, Hash)]
pub struct Run {
    /// Its id.
    pub id: u32,
    /// Its views.
    pub views: Vec<View>,
}

/// The sorted runs of a store.
#[derive(Clone, Debug, Default, PartialEq, Eq, Hash)]
pub struct Image {
    /// Its runs.
    pub runs: Vec<Run>,
}

/// A part of a job: a planned range of keys, and how far its worker came.
#[derive(Clone, Debug, PartialEq, Eq, Hash)]
pub struct Part {
    /// The planned range. It starts included or unbounded and ends excluded or unbounded.
    pub range: Range,
    /// Whether the worker has finished.
    pub completed: bool,
    /// The tables that it has written, in the order of their keys.
    pub outputs: Vec<Table>,
}

/// The record of a compaction: which runs become one, in which parts, and what of it is written.
#[derive(Clone, Debug, Default, PartialEq, Eq, Hash)]
pub struct Job {
    /// The id of the run that takes the outputs. It is a source too.
    pub destination: u32,
    /// The ids of the runs that are compacted.
    pub sources: Vec<u32>,
    /// The parts, in the order of their ranges.
    pub parts: Vec<Part>,
}

/// A block of a table, as its index has it.
#[derive(Clone, Debug, Default, PartialEq, Eq, Hash)]
pub struct Block {
    /// Where the block stands in the table's file.
    pub offset: u64,
    /// Its first key.
    pub first_key: Vec<u8>,
}

/// The index of a table.
#[derive(Clone, Debug, Default, PartialEq, Eq, Hash)]
pub struct Index {
    /// The blocks, in the order of their first keys.
    pub blocks: Vec<Block>,
}

/// The indexes that a plan is made from, one for each view of an image, laid end to end.
#[derive(Clone, Debug, Default, PartialEq, Eq, Hash)]
pub struct Indexes {
    /// The indexes, in the order of the views.
    pub indexes: Vec<Index>,
}

/// A key, and the bytes that stand from it on to the next anchor.
#[derive(Clone, Debug, Default, PartialEq, Eq, Hash)]
pub struct Anchor {
    /// The key.
    pub key: Vec<u8>,
    /// The bytes.
    pub bytes: u64,
}

/// Anchors, from which a plan is made.
#[derive(Clone, Debug, Default, PartialEq, Eq, Hash)]
pub struct Anchors {
    /// The anchors, in any order.
    pub anchors: Vec<Anchor>,
}

/// Ranges that a call answered.
#[derive(Clone, Debug, Default, PartialEq, Eq, Hash)]
pub struct Plan {
    /// The ranges, in their order.
    pub ranges: Vec<Range>,
}
