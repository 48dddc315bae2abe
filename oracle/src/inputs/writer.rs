//! Writes ranges, images, jobs, indexes, anchors and plans, and keeps where each field begins.
use crate::{key_of, kind_of, Block, Job, Key, Range, Run, Table, View};

pub fn range_image(range: &Range) -> Vec<u8> {
    let mut bytes = vec![kind_of(&range.0) << 6 | kind_of(&range.1) << 4];
    for key in [key_of(&range.0), key_of(&range.1)].into_iter().flatten() {
        bytes.extend((key.len() as u16).to_be_bytes());
        bytes.extend(key);
    }
    bytes
}

#[derive(Clone, Copy, Debug, PartialEq, Eq)]
pub enum Field {
    RunCount,
    RunId,
    ViewCount,
    ViewId,
    TableId,
    IndexOffset,
    IndexLen,
    FilterOffset,
    LastFlag,
    FirstLength,
    First,
    LastLength,
    Last,
    VisibleFlag,
    Head,
    StartLength,
    Start,
    EndLength,
    End,
    Destination,
    SourceCount,
    Source,
    PartCount,
    /// With the completed flag before it.
    OutputCount,
    BlockCount,
    Offset,
    AnchorCount,
    KeyLength,
    Key,
    Bytes,
}

/// Where a field begins. Counts and kinds share their byte with what follows them. In a job
/// a part stands for a run and its outputs for views, in an index blocks do for views, in anchors each one.
#[derive(Clone, Copy)]
pub struct Mark {
    pub field: Field,
    pub run: usize,
    pub view: usize,
    pub at: usize,
}

#[derive(Default)]
pub struct Writer {
    pub bytes: Vec<u8>,
    pub marks: Vec<Mark>,
    pub run: usize,
    pub view: usize,
}

impl Writer {
    pub fn put(&mut self, field: Field, bytes: &[u8]) {
        self.marks.push(Mark {
            field,
            run: self.run,
            view: self.view,
            at: self.bytes.len(),
        });
        self.bytes.extend(bytes);
    }

    fn key(&mut self, length: Field, field: Field, key: &[u8]) {
        self.put(length, &(key.len() as u16).to_be_bytes());
        self.put(field, key);
    }

    pub fn table(&mut self, table: &Table) {
        self.put(Field::TableId, &table.id);
        self.put(Field::IndexOffset, &table.index_offset.to_be_bytes());
        self.put(Field::IndexLen, &table.index_len.to_be_bytes());
        self.put(Field::FilterOffset, &table.filter_offset.to_be_bytes());
        self.put(Field::LastFlag, &[u8::from(table.last.is_some()) << 7]);
        self.key(Field::FirstLength, Field::First, &table.first);
        if let Some(last) = &table.last {
            self.key(Field::LastLength, Field::Last, last);
        }
    }

    pub fn range(&mut self, (start, end): &Range) {
        self.put(Field::Head, &[kind_of(start) << 6 | kind_of(end) << 4]);
        if let Some(key) = key_of(start) {
            self.key(Field::StartLength, Field::Start, key);
        }
        if let Some(key) = key_of(end) {
            self.key(Field::EndLength, Field::End, key);
        }
    }

    fn view(&mut self, view: &View) {
        self.put(Field::ViewId, &view.id);
        self.table(&view.table);
        self.put(Field::VisibleFlag, &[u8::from(view.visible.is_some()) << 7]);
        if let Some(range) = &view.visible {
            self.range(range);
        }
    }
}

/// An image's bytes and marks. A run count is cut to 8 bits, a view count to 12.
pub fn write_image(runs: &[Run]) -> (Vec<u8>, Vec<Mark>) {
    let mut writer = Writer::default();
    writer.put(Field::RunCount, &[runs.len() as u8]);
    for (place, run) in runs.iter().enumerate() {
        writer.run = place;
        writer.view = 0;
        writer.put(Field::RunId, &run.id.to_be_bytes());
        writer.put(
            Field::ViewCount,
            &((run.views.len() as u16) << 4).to_be_bytes(),
        );
        for (place, view) in run.views.iter().enumerate() {
            writer.view = place;
            writer.view(view);
        }
    }
    (writer.bytes, writer.marks)
}

pub fn image(runs: &[Run]) -> Vec<u8> {
    write_image(runs).0
}

/// A job's bytes and marks. A count of sources or parts is cut to 8 bits, one of outputs to 15.
pub fn write_job(job: &Job) -> (Vec<u8>, Vec<Mark>) {
    let mut writer = Writer::default();
    writer.put(Field::Destination, &job.destination.to_be_bytes());
    writer.put(Field::SourceCount, &[job.sources.len() as u8]);
    for source in &job.sources {
        writer.put(Field::Source, &source.to_be_bytes());
    }
    writer.put(Field::PartCount, &[job.parts.len() as u8]);
    for (place, part) in job.parts.iter().enumerate() {
        writer.run = place;
        writer.view = 0;
        writer.range(&part.range);
        let count = u16::from(part.completed) << 15 | part.outputs.len() as u16 & 0x7FFF;
        writer.put(Field::OutputCount, &count.to_be_bytes());
        for (place, table) in part.outputs.iter().enumerate() {
            writer.view = place;
            writer.table(table);
        }
    }
    (writer.bytes, writer.marks)
}

/// An index's bytes and marks. The count is cut to 16 bits.
pub fn write_index(blocks: &[Block]) -> (Vec<u8>, Vec<Mark>) {
    let mut writer = Writer::default();
    writer.put(Field::BlockCount, &(blocks.len() as u16).to_be_bytes());
    for (place, block) in blocks.iter().enumerate() {
        writer.view = place;
        writer.put(Field::Offset, &block.offset.to_be_bytes());
        writer.key(Field::FirstLength, Field::First, &block.first);
    }
    (writer.bytes, writer.marks)
}

/// Blocks of 4,096 bytes with these first keys.
pub fn blocks(first_keys: &[Key]) -> Vec<Block> {
    let offsets = (0..).step_by(4_096);
    let blocks = first_keys.iter().zip(offsets).map(|(first, offset)| Block {
        offset,
        first: first.clone(),
    });
    blocks.collect()
}

pub fn index(first_keys: &[Key]) -> Vec<u8> {
    write_index(&blocks(first_keys)).0
}

/// The bytes and marks of anchors. The count is cut to 16 bits.
pub fn write_anchors(anchors: &[(Key, u64)]) -> (Vec<u8>, Vec<Mark>) {
    let mut writer = Writer::default();
    writer.put(Field::AnchorCount, &(anchors.len() as u16).to_be_bytes());
    for (place, (key, bytes)) in anchors.iter().enumerate() {
        writer.view = place;
        writer.key(Field::KeyLength, Field::Key, key);
        writer.put(Field::Bytes, &bytes.to_be_bytes());
    }
    (writer.bytes, writer.marks)
}

pub fn anchors(anchors: &[(Key, u64)]) -> Vec<u8> {
    write_anchors(anchors).0
}

pub fn plan(ranges: &[Range]) -> Vec<u8> {
    let ranges: Vec<Vec<u8>> = ranges.iter().map(range_image).collect();
    [vec![ranges.len() as u8], ranges.concat()].concat()
}
