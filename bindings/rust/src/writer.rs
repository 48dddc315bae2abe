//! The layouts of docs/FORMAT.md, written from values.
use crate::raw::*;
use crate::typed::Range;
use crate::values::*;
use crate::Stop;
use alloc::vec::Vec;
use core::ops::Bound;

/// Writes fields one after the other, each held to its ceiling.
pub(crate) struct Writer {
    bytes: Vec<u8>,
}

impl Writer {
    pub(crate) fn new() -> Writer {
        Writer { bytes: Vec::new() }
    }

    /// The bytes, if they are no more than an input buffer has.
    pub(crate) fn finish(self) -> Result<Vec<u8>, Stop> {
        Writer::count(self.bytes.len(), BILQARUSH_MAX_BUFFER)?;
        Ok(self.bytes)
    }

    /// The bytes of a plan, which has no ceiling of its own.
    pub(crate) fn finish_plan(self) -> Vec<u8> {
        self.bytes
    }

    fn count(count: usize, most: usize) -> Result<(), Stop> {
        match count <= most {
            true => Ok(()),
            false => Err(Stop::Ceiling),
        }
    }

    fn count_in_1(&mut self, count: usize, most: usize) -> Result<(), Stop> {
        Writer::count(count, most)?;
        self.bytes.push(count as u8);
        Ok(())
    }

    fn count_in_2(&mut self, count: usize, most: usize) -> Result<(), Stop> {
        Writer::count(count, most)?;
        self.bytes.extend((count as u16).to_be_bytes());
        Ok(())
    }

    fn flag(&mut self, flag: bool) {
        self.bytes.push(if flag { 0x80 } else { 0 });
    }

    fn key(&mut self, key: &[u8]) -> Result<(), Stop> {
        self.count_in_2(key.len(), BILQARUSH_MAX_KEY)?;
        self.bytes.extend(key);
        Ok(())
    }

    pub(crate) fn range(&mut self, range: Range<&[u8]>) -> Result<(), Stop> {
        let (start_kind, start) = kind_and_key(range.start);
        let (end_kind, end) = kind_and_key(range.end);
        self.bytes.push(start_kind << 6 | end_kind << 4);
        for (kind, key) in [(start_kind, start), (end_kind, end)] {
            if kind != BILQARUSH_UNBOUNDED {
                self.key(key)?;
            }
        }
        Ok(())
    }

    fn table(&mut self, table: &Table) -> Result<(), Stop> {
        self.bytes.extend(table.id.0.to_be_bytes());
        for number in [table.index_offset, table.index_len, table.filter_offset] {
            self.bytes.extend(number.to_be_bytes());
        }
        self.flag(table.last_key.is_some());
        self.key(&table.first_key)?;
        match &table.last_key {
            Some(key) => self.key(key),
            None => Ok(()),
        }
    }

    fn view(&mut self, view: &View) -> Result<(), Stop> {
        self.bytes.extend(view.id.0.to_be_bytes());
        self.table(&view.table)?;
        self.flag(view.visible.is_some());
        match &view.visible {
            Some(range) => self.range(range.borrowed()),
            None => Ok(()),
        }
    }

    pub(crate) fn image(&mut self, image: &Image) -> Result<(), Stop> {
        self.count_in_1(image.runs.len(), BILQARUSH_MAX_RUNS)?;
        for run in &image.runs {
            self.bytes.extend(run.id.to_be_bytes());
            Writer::count(run.views.len(), BILQARUSH_MAX_VIEWS)?;
            self.bytes
                .extend(((run.views.len() as u16) << 4).to_be_bytes());
            run.views.iter().try_for_each(|view| self.view(view))?;
        }
        Ok(())
    }

    pub(crate) fn job(&mut self, job: &Job) -> Result<(), Stop> {
        self.bytes.extend(job.destination.to_be_bytes());
        self.count_in_1(job.sources.len(), BILQARUSH_MAX_SOURCES)?;
        self.bytes
            .extend(job.sources.iter().flat_map(|id| id.to_be_bytes()));
        self.count_in_1(job.parts.len(), BILQARUSH_MAX_PARTS)?;
        for part in &job.parts {
            self.range(part.range.borrowed())?;
            Writer::count(part.outputs.len(), BILQARUSH_MAX_OUTPUTS)?;
            let flag_and_count = u16::from(part.completed) << 15 | part.outputs.len() as u16;
            self.bytes.extend(flag_and_count.to_be_bytes());
            part.outputs
                .iter()
                .try_for_each(|table| self.table(table))?;
        }
        Ok(())
    }

    pub(crate) fn index(&mut self, index: &Index) -> Result<(), Stop> {
        self.count_in_2(index.blocks.len(), usize::from(u16::MAX))?;
        for block in &index.blocks {
            self.bytes.extend(block.offset.to_be_bytes());
            self.key(&block.first_key)?;
        }
        Ok(())
    }

    pub(crate) fn anchors(&mut self, anchors: &Anchors) -> Result<(), Stop> {
        self.count_in_2(anchors.anchors.len(), BILQARUSH_MAX_ANCHORS)?;
        for anchor in &anchors.anchors {
            self.key(&anchor.key)?;
            self.bytes.extend(anchor.bytes.to_be_bytes());
        }
        Ok(())
    }

    pub(crate) fn plan(&mut self, plan: &Plan) -> Result<(), Stop> {
        self.count_in_1(plan.ranges.len(), BILQARUSH_MAX_PARTS)?;
        plan.ranges
            .iter()
            .try_for_each(|range| self.range(range.borrowed()))
    }
}

/// A bound as its kind and its key, none for an unbounded one.
pub(crate) fn kind_and_key(bound: Bound<&[u8]>) -> (u8, &[u8]) {
    match bound {
        Bound::Unbounded => (BILQARUSH_UNBOUNDED, &[]),
        Bound::Included(key) => (BILQARUSH_INCLUDED, key),
        Bound::Excluded(key) => (BILQARUSH_EXCLUDED, key),
    }
}
