//! The layouts of docs/FORMAT.md, read into values.
use crate::raw::*;
use crate::refusal::{Buffer, Item, Place, Refusal};
use crate::typed::Range;
use crate::values::*;
use crate::Stop;
use alloc::vec::Vec;
use core::ops::Bound;

/// Reads fields one after the other. Each is tested by the checks 1 to 3 before the next is read.
pub(crate) struct Reader<'a> {
    buffer: Buffer,
    bytes: &'a [u8],
    at: usize,
    item: Item,
}

impl<'a> Reader<'a> {
    pub(crate) fn new(buffer: Buffer, bytes: &'a [u8]) -> Result<Reader<'a>, Refusal> {
        let reader = Reader {
            buffer,
            bytes,
            at: 0,
            item: Item::Whole,
        };
        if bytes.len() > BILQARUSH_MAX_BUFFER {
            return Err(reader.refuse(Stop::Ceiling, "length", 0, "it is over 65,536 bytes"));
        }
        Ok(reader)
    }

    fn refuse(
        &self,
        stop: Stop,
        field: &'static str,
        offset: usize,
        what: &'static str,
    ) -> Refusal {
        Refusal::at(
            stop,
            Place {
                buffer: self.buffer,
                item: self.item,
                field,
                offset,
                what,
            },
        )
    }

    pub(crate) fn at_end(&self) -> bool {
        self.at == self.bytes.len()
    }

    /// Where the next field begins.
    pub(crate) fn at(&self) -> usize {
        self.at
    }

    /// That no bytes remain.
    pub(crate) fn end(mut self) -> Result<(), Refusal> {
        self.item = Item::Whole;
        match !self.at_end() {
            true => Err(self.refuse(
                Stop::InputEnd,
                "end",
                self.at,
                "bytes remain after the last field",
            )),
            false => Ok(()),
        }
    }

    fn take(&mut self, field: &'static str, length: usize) -> Result<&'a [u8], Refusal> {
        match self.bytes[self.at..].get(..length) {
            Some(bytes) => {
                self.at += length;
                Ok(bytes)
            }
            None => Err(self.refuse(Stop::InputEnd, field, self.at, "the input ends inside it")),
        }
    }

    /// A number of some bytes, most significant first.
    fn number(&mut self, field: &'static str, width: usize) -> Result<u64, Refusal> {
        let bytes = self.take(field, width)?;
        Ok(bytes
            .iter()
            .fold(0, |sum, &byte| sum << 8 | u64::from(byte)))
    }

    fn id(&mut self, field: &'static str) -> Result<u128, Refusal> {
        let bytes = self.take(field, 16)?;
        Ok(bytes
            .iter()
            .fold(0, |sum, &byte| sum << 8 | u128::from(byte)))
    }

    /// A number that was read up to here, held to its ceiling.
    fn at_most(
        &self,
        field: &'static str,
        width: usize,
        number: u64,
        most: usize,
    ) -> Result<usize, Refusal> {
        match usize::try_from(number) {
            Ok(number) if number <= most => Ok(number),
            _ => Err(self.refuse(
                Stop::Ceiling,
                field,
                self.at - width,
                "it is over its ceiling",
            )),
        }
    }

    fn count(&mut self, field: &'static str, width: usize, most: usize) -> Result<usize, Refusal> {
        let number = self.number(field, width)?;
        self.at_most(field, width, number, most)
    }

    /// A flag, and 7 bits of padding.
    fn flag(&mut self, field: &'static str) -> Result<bool, Refusal> {
        let byte = self.number(field, 1)?;
        self.padding(byte & 0x7F)?;
        Ok(byte == 0x80)
    }

    /// Padding in the byte that was read last.
    fn padding(&self, bits: u64) -> Result<(), Refusal> {
        match bits {
            0 => Ok(()),
            _ => Err(self.refuse(
                Stop::PaddingOrKind,
                "padding",
                self.at - 1,
                "a bit of it is set",
            )),
        }
    }

    fn key(&mut self, length: &'static str, key: &'static str) -> Result<Vec<u8>, Refusal> {
        let length = self.count(length, 2, BILQARUSH_MAX_KEY)?;
        Ok(self.take(key, length)?.to_vec())
    }

    pub(crate) fn range(&mut self) -> Result<Range, Refusal> {
        let head = self.number("start kind", 1)?;
        let (start, end) = (head >> 6, head >> 4 & 3);
        for (field, kind) in [("start kind", start), ("end kind", end)] {
            if kind == 3 {
                return Err(self.refuse(Stop::PaddingOrKind, field, self.at - 1, "it is 3"));
            }
        }
        self.padding(head & 15)?;
        Ok(Range {
            start: self.bound(start, "start key length", "start key")?,
            end: self.bound(end, "end key length", "end key")?,
        })
    }

    fn bound(
        &mut self,
        kind: u64,
        length: &'static str,
        key: &'static str,
    ) -> Result<Bound<Vec<u8>>, Refusal> {
        Ok(match kind {
            0 => Bound::Unbounded,
            1 => Bound::Included(self.key(length, key)?),
            _ => Bound::Excluded(self.key(length, key)?),
        })
    }

    fn table(&mut self) -> Result<Table, Refusal> {
        let id = TableId(self.id("table id")?);
        let index_offset = self.number("index_offset", 8)?;
        let index_len = self.number("index_len", 8)?;
        let filter_offset = self.number("filter_offset", 8)?;
        let has_last = self.flag("last-key flag")?;
        let first_key = self.key("first key length", "first key")?;
        let last_key = match has_last {
            true => Some(self.key("last key length", "last key")?),
            false => None,
        };
        Ok(Table {
            id,
            index_offset,
            index_len,
            filter_offset,
            first_key,
            last_key,
        })
    }

    fn view(&mut self) -> Result<View, Refusal> {
        let id = ViewId(self.id("view id")?);
        let table = self.table()?;
        let visible = match self.flag("visible flag")? {
            true => Some(self.range()?),
            false => None,
        };
        Ok(View { id, table, visible })
    }

    fn run(&mut self, run: usize) -> Result<Run, Refusal> {
        self.item = Item::Run(run);
        let id = self.number("run id", 4)? as u32;
        let count_and_padding = self.number("view count", 2)?;
        let count = self.at_most("view count", 2, count_and_padding >> 4, BILQARUSH_MAX_VIEWS)?;
        self.padding(count_and_padding & 15)?;
        let views = (0..count).map(|view| {
            self.item = Item::View { run, view };
            self.view()
        });
        let views = views.collect::<Result<_, _>>()?;
        Ok(Run { id, views })
    }

    pub(crate) fn image(&mut self) -> Result<Image, Refusal> {
        let count = self.count("run count", 1, BILQARUSH_MAX_RUNS)?;
        let runs = (0..count)
            .map(|run| self.run(run))
            .collect::<Result<_, _>>()?;
        Ok(Image { runs })
    }

    fn part(&mut self, part: usize) -> Result<Part, Refusal> {
        self.item = Item::Part(part);
        let range = self.range()?;
        let flag_and_count = self.number("output count", 2)?;
        let count = self.at_most(
            "output count",
            2,
            flag_and_count & 0x7FFF,
            BILQARUSH_MAX_OUTPUTS,
        )?;
        let outputs = (0..count).map(|output| {
            self.item = Item::Output { part, output };
            self.table()
        });
        let outputs = outputs.collect::<Result<_, _>>()?;
        Ok(Part {
            range,
            completed: flag_and_count >> 15 == 1,
            outputs,
        })
    }

    pub(crate) fn job(&mut self) -> Result<Job, Refusal> {
        let destination = self.number("destination", 4)? as u32;
        let count = self.count("source count", 1, BILQARUSH_MAX_SOURCES)?;
        let sources = (0..count).map(|source| {
            self.item = Item::Source(source);
            Ok(self.number("source id", 4)? as u32)
        });
        let sources = sources.collect::<Result<_, _>>()?;
        self.item = Item::Whole;
        let count = self.count("part count", 1, BILQARUSH_MAX_PARTS)?;
        let parts = (0..count)
            .map(|part| self.part(part))
            .collect::<Result<_, _>>()?;
        Ok(Job {
            destination,
            sources,
            parts,
        })
    }

    pub(crate) fn index(&mut self, index: usize) -> Result<Index, Refusal> {
        self.item = Item::Index(index);
        let count = self.count("block count", 2, usize::from(u16::MAX))?;
        let blocks = (0..count).map(|block| {
            self.item = Item::Block { index, block };
            Ok(Block {
                offset: self.number("offset", 8)?,
                first_key: self.key("first key length", "first key")?,
            })
        });
        let blocks = blocks.collect::<Result<_, _>>()?;
        Ok(Index { blocks })
    }

    pub(crate) fn anchors(&mut self) -> Result<Anchors, Refusal> {
        let count = self.count("anchor count", 2, BILQARUSH_MAX_ANCHORS)?;
        let anchors = (0..count).map(|anchor| {
            self.item = Item::Anchor(anchor);
            Ok(Anchor {
                key: self.key("key length", "key")?,
                bytes: self.number("bytes", 8)?,
            })
        });
        let anchors = anchors.collect::<Result<_, _>>()?;
        Ok(Anchors { anchors })
    }

    pub(crate) fn plan(&mut self) -> Result<Plan, Refusal> {
        let count = self.count("range count", 1, BILQARUSH_MAX_PARTS)?;
        let ranges = (0..count).map(|range| {
            self.item = Item::Range(range);
            self.range()
        });
        let ranges = ranges.collect::<Result<_, _>>()?;
        Ok(Plan { ranges })
    }

    /// A plan may be longer than an input buffer: it is only answered.
    pub(crate) fn of_plan(bytes: &'a [u8]) -> Reader<'a> {
        Reader {
            buffer: Buffer::Plan,
            bytes,
            at: 0,
            item: Item::Whole,
        }
    }
}
