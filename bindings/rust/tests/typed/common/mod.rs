//! Images, jobs, indexes and anchors, field after field as document 01 lays them out, and buffers that are lent to a call.
#![allow(dead_code)]
pub mod agree;
pub mod random;

use bilqarush::typed::{Range, Stop};
use std::ops::Bound;

/// What a lent buffer is filled with.
pub const UNWRITTEN: u8 = 0xA5;

pub fn included(key: &str) -> Bound<&[u8]> {
    Bound::Included(key.as_bytes())
}

pub fn excluded(key: &str) -> Bound<&[u8]> {
    Bound::Excluded(key.as_bytes())
}

pub fn range(start: Bound<&[u8]>, end: Bound<&[u8]>) -> Vec<u8> {
    Range { start, end }.to_bytes().unwrap()
}

/// A key of one byte, repeated.
pub fn key_of(byte: u8, length: usize) -> Vec<u8> {
    vec![byte; length]
}

fn key(key: &str) -> Vec<u8> {
    [&(key.len() as u16).to_be_bytes(), key.as_bytes()].concat()
}

/// A table with the index at an offset and of a length.
pub fn sized_table(id: u128, first: &str, last: Option<&str>, index: [u64; 2]) -> Vec<u8> {
    ended_table(id, first, last, index, 3840)
}

/// The same, with the filter at an offset, where the data end.
pub fn ended_table(
    id: u128,
    first: &str,
    last: Option<&str>,
    index: [u64; 2],
    filter_offset: u64,
) -> Vec<u8> {
    let mut table = id.to_be_bytes().to_vec();
    table.extend(index[0].to_be_bytes());
    table.extend(index[1].to_be_bytes());
    table.extend(filter_offset.to_be_bytes());
    table.push(if last.is_some() { 0x80 } else { 0 });
    table.extend(key(first));
    table.extend(last.map_or(vec![], key));
    table
}

pub fn table(id: u128, first: &str, last: &str) -> Vec<u8> {
    sized_table(id, first, Some(last), [4096, 256])
}

pub fn open_table(id: u128, first: &str) -> Vec<u8> {
    sized_table(id, first, None, [4096, 256])
}

/// A view that shows all of its table.
pub fn whole_view(id: u128, table: Vec<u8>) -> Vec<u8> {
    [&id.to_be_bytes()[..], &table, &[0]].concat()
}

/// A view that shows a range of its table.
pub fn cut_view(id: u128, table: Vec<u8>, visible: Vec<u8>) -> Vec<u8> {
    [&id.to_be_bytes()[..], &table, &[0x80], &visible].concat()
}

pub fn run(id: u32, views: &[Vec<u8>]) -> Vec<u8> {
    let count = (views.len() as u16) << 4;
    [&id.to_be_bytes()[..], &count.to_be_bytes(), &views.concat()].concat()
}

pub fn image(runs: &[Vec<u8>]) -> Vec<u8> {
    [vec![runs.len() as u8], runs.concat()].concat()
}

pub fn part(range: Vec<u8>, completed: bool, outputs: &[Vec<u8>]) -> Vec<u8> {
    let flag_and_count = (u16::from(completed) << 15) | outputs.len() as u16;
    [
        range,
        flag_and_count.to_be_bytes().to_vec(),
        outputs.concat(),
    ]
    .concat()
}

pub fn job(destination: u32, sources: &[u32], parts: &[Vec<u8>]) -> Vec<u8> {
    let mut job = destination.to_be_bytes().to_vec();
    job.push(sources.len() as u8);
    job.extend(sources.iter().flat_map(|id| id.to_be_bytes()));
    job.push(parts.len() as u8);
    job.extend(parts.concat());
    job
}

/// An index of blocks with these first keys.
pub fn index(first_keys: &[&str]) -> Vec<u8> {
    let offsets = (0u64..).step_by(4096);
    let blocks: Vec<(u64, &str)> = offsets.zip(first_keys.iter().copied()).collect();
    placed_index(&blocks)
}

/// An index of blocks with these offsets and first keys.
pub fn placed_index(blocks: &[(u64, &str)]) -> Vec<u8> {
    let mut index = (blocks.len() as u16).to_be_bytes().to_vec();
    for (offset, first) in blocks {
        index.extend(offset.to_be_bytes());
        index.extend(key(first));
    }
    index
}

/// Anchors with these keys and bytes.
pub fn anchors(list: &[(&str, u64)]) -> Vec<u8> {
    let mut anchors = (list.len() as u16).to_be_bytes().to_vec();
    for (name, bytes) in list {
        anchors.extend(key(name));
        anchors.extend(bytes.to_be_bytes());
    }
    anchors
}

/// The plan whose ranges meet at these keys.
pub fn plan(boundaries: &[&str]) -> Vec<u8> {
    let starts = [Bound::Unbounded].into_iter();
    let starts = starts.chain(boundaries.iter().map(|key| included(key)));
    let ends = boundaries.iter().map(|key| excluded(key));
    let ends = ends.chain([Bound::Unbounded]);
    let mut plan = vec![boundaries.len() as u8 + 1];
    plan.extend(starts.zip(ends).flat_map(|(start, end)| range(start, end)));
    plan
}

/// Document 01's example: run 7 with table 1 (first a, last c) and table 2 (first d, no last).
pub fn example() -> Vec<u8> {
    let views = [
        whole_view(1, table(1, "a", "c")),
        whole_view(2, open_table(2, "d")),
    ];
    image(&[run(7, &views)])
}

/// Lends a filled buffer to a call and answers what it wrote, or the number of its stop. The rest of the buffer must be
/// as it was.
pub fn lend(
    room: usize,
    call: impl FnOnce(&mut [u8]) -> Result<&mut [u8], Stop>,
) -> Result<Vec<u8>, u8> {
    let mut out = vec![UNWRITTEN; room];
    let answer = call(&mut out).map(|front| front.to_vec());
    untouched(&out, answer)
}

/// The same of a call that writes text.
pub fn lend_text(
    room: usize,
    call: impl FnOnce(&mut [u8]) -> Result<&str, Stop>,
) -> Result<Vec<u8>, u8> {
    let mut out = vec![UNWRITTEN; room];
    let answer = call(&mut out).map(|front| front.as_bytes().to_vec());
    untouched(&out, answer)
}

fn untouched(out: &[u8], answer: Result<Vec<u8>, Stop>) -> Result<Vec<u8>, u8> {
    let length = answer.as_ref().map_or(0, Vec::len);
    assert!(out[length..].iter().all(|&byte| byte == UNWRITTEN));
    answer.map_err(Stop::number)
}

/// The number of a stop.
pub fn refused<T: std::fmt::Debug>(answer: Result<T, Stop>) -> u8 {
    answer.unwrap_err().number()
}
