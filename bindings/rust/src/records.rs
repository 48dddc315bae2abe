//! Values to and from bytes.
use crate::checks;
use crate::reader::Reader;
use crate::refusal::{Buffer, Refusal};
use crate::values::*;
use crate::writer::Writer;
use crate::Stop;
use alloc::vec::Vec;

impl Image {
    /// The image that bytes are, if [`check_image`](crate::typed::check_image) takes them.
    ///
    /// # Errors
    /// The stops of [`check_image`](crate::typed::check_image), with their place.
    pub fn from_bytes(bytes: &[u8]) -> Result<Image, Refusal> {
        let image = Image::decode(bytes)?;
        checks::all_of_image(&image)?;
        Ok(image)
    }

    /// The image that bytes are by their layout, whether or not the checks 4 to 7 refuse it. A commit can write one whose
    /// view starts descend, where views overlap.
    ///
    /// # Errors
    /// 3 (length), 1 to 3 in the fields.
    pub fn decode(bytes: &[u8]) -> Result<Image, Refusal> {
        let mut reader = Reader::new(Buffer::Image, bytes)?;
        let image = reader.image()?;
        reader.end()?;
        Ok(image)
    }

    /// Its bytes, for [`ImageBytes`](crate::typed::ImageBytes). The checks 4 to 7 are not made.
    ///
    /// # Errors
    /// 3 if a count, a key or all of it is over its ceiling.
    pub fn to_bytes(&self) -> Result<Vec<u8>, Stop> {
        let mut writer = Writer::new();
        writer.image(self)?;
        writer.finish()
    }
}

impl Job {
    /// The job that bytes are, if [`from_compaction`](crate::typed::from_compaction) takes them.
    ///
    /// # Errors
    /// The stops of [`from_compaction`](crate::typed::from_compaction) but 16, with their place.
    pub fn from_bytes(bytes: &[u8]) -> Result<Job, Refusal> {
        let job = Job::decode(bytes)?;
        checks::all_of_job(&job)?;
        Ok(job)
    }

    /// The job that bytes are by their layout, whether or not a check from 4 on refuses it.
    ///
    /// # Errors
    /// 3 (length), 1 to 3 in the fields.
    pub fn decode(bytes: &[u8]) -> Result<Job, Refusal> {
        let mut reader = Reader::new(Buffer::Job, bytes)?;
        let job = reader.job()?;
        reader.end()?;
        Ok(job)
    }

    /// Its bytes, for [`JobBytes`](crate::typed::JobBytes). The checks from 4 on are not made.
    ///
    /// # Errors
    /// 3 if a count, a key or all of it is over its ceiling.
    pub fn to_bytes(&self) -> Result<Vec<u8>, Stop> {
        let mut writer = Writer::new();
        writer.job(self)?;
        writer.finish()
    }
}

impl Index {
    /// The index that bytes are, if [`partition_point`](crate::typed::partition_point) takes them.
    ///
    /// # Errors
    /// 3 (length), 1 and 3 in the fields; 6.
    pub fn from_bytes(bytes: &[u8]) -> Result<Index, Refusal> {
        let index = Index::decode(bytes)?;
        checks::all_of_index(&index)?;
        Ok(index)
    }

    /// The index that bytes are by their layout, also if its first keys descend.
    ///
    /// # Errors
    /// 3 (length), 1 and 3 in the fields.
    pub fn decode(bytes: &[u8]) -> Result<Index, Refusal> {
        let mut reader = Reader::new(Buffer::Index, bytes)?;
        let index = reader.index(0)?;
        reader.end()?;
        Ok(index)
    }

    /// Its bytes, for [`IndexBytes`](crate::typed::IndexBytes). Check 6 is not made.
    ///
    /// # Errors
    /// 3 if a count, a key or all of it is over its ceiling.
    pub fn to_bytes(&self) -> Result<Vec<u8>, Stop> {
        let mut writer = Writer::new();
        writer.index(self)?;
        writer.finish()
    }
}

impl Indexes {
    /// The indexes that bytes are, as many as stand there end to end, if [`partition_point`](crate::typed::partition_point) takes each
    /// of them. Whether an image has as many views is not looked at.
    ///
    /// # Errors
    /// 3 (length), 1 and 3 in the fields; 6.
    pub fn from_bytes(bytes: &[u8]) -> Result<Indexes, Refusal> {
        let indexes = Indexes::decode(bytes)?;
        checks::all_of_indexes(&indexes.indexes)?;
        Ok(indexes)
    }

    /// The indexes that bytes are by their layout, also if first keys descend.
    ///
    /// # Errors
    /// 3 (length), 1 and 3 in the fields.
    pub fn decode(bytes: &[u8]) -> Result<Indexes, Refusal> {
        let mut reader = Reader::new(Buffer::Index, bytes)?;
        let mut indexes = Vec::new();
        while !reader.at_end() {
            indexes.push(reader.index(indexes.len())?);
        }
        Ok(Indexes { indexes })
    }

    /// Their bytes, for [`IndexesBytes`](crate::typed::IndexesBytes). Check 6 is not made.
    ///
    /// # Errors
    /// 3 if a count, a key or all of it is over its ceiling.
    pub fn to_bytes(&self) -> Result<Vec<u8>, Stop> {
        let mut writer = Writer::new();
        self.indexes
            .iter()
            .try_for_each(|index| writer.index(index))?;
        writer.finish()
    }
}

impl Anchors {
    /// The anchors that bytes are, if [`select_boundaries`](crate::typed::select_boundaries) takes them.
    ///
    /// # Errors
    /// 3 (length), 1 and 3 in the fields; 7.
    pub fn from_bytes(bytes: &[u8]) -> Result<Anchors, Refusal> {
        let anchors = Anchors::decode(bytes)?;
        checks::all_of_anchors(&anchors)?;
        Ok(anchors)
    }

    /// The anchors that bytes are by their layout, also if their bytes total 2^63 or more.
    ///
    /// # Errors
    /// 3 (length), 1 and 3 in the fields.
    pub fn decode(bytes: &[u8]) -> Result<Anchors, Refusal> {
        let mut reader = Reader::new(Buffer::Anchors, bytes)?;
        let anchors = reader.anchors()?;
        reader.end()?;
        Ok(anchors)
    }

    /// Their bytes, for [`AnchorsBytes`](crate::typed::AnchorsBytes). Check 7 is not made.
    ///
    /// # Errors
    /// 3 if a count, a key or all of it is over its ceiling.
    pub fn to_bytes(&self) -> Result<Vec<u8>, Stop> {
        let mut writer = Writer::new();
        writer.anchors(self)?;
        writer.finish()
    }
}

impl Plan {
    /// The plan that bytes are, as [`select_boundaries`](crate::typed::select_boundaries),
    /// [`plan_subcompaction_ranges`](crate::typed::plan_subcompaction_ranges), [`from_compaction`](crate::typed::from_compaction) and
    /// [`subtract_from`](crate::typed::subtract_from) write one. No call reads a plan, and it may be over 65,536 bytes.
    ///
    /// # Errors
    /// 1 to 3 in the fields.
    pub fn from_bytes(bytes: &[u8]) -> Result<Plan, Refusal> {
        let mut reader = Reader::of_plan(bytes);
        let plan = reader.plan()?;
        reader.end()?;
        Ok(plan)
    }

    /// Its bytes.
    ///
    /// # Errors
    /// 3 if the count or a key is over its ceiling.
    pub fn to_bytes(&self) -> Result<Vec<u8>, Stop> {
        let mut writer = Writer::new();
        writer.plan(self)?;
        Ok(writer.finish_plan())
    }
}
