//! The checks 1 to 3 of jobs.
use super::{number, read_table, Checked, Reader, OUTPUT_CEILING, PART_CEILING, SOURCE_CEILING};
use crate::{Job, Part, Table};

fn read_part(reader: &mut Reader) -> Checked<Part> {
    let range = reader.range()?;
    // A flag, then 15 bits.
    let count = number(reader.take(2)?) as u16;
    let (completed, count) = (count >> 15 == 1, count & 0x7FFF);
    if count > OUTPUT_CEILING {
        return Err(3);
    }
    let outputs = (0..count).map(|_| Ok(read_table(reader)?.0));
    Ok(Part {
        range,
        completed,
        outputs: outputs.collect::<Checked<_>>()?,
    })
}

pub fn read_job(buffer: &[u8]) -> Checked<Job> {
    let mut reader = Reader::new(buffer)?;
    let destination = number(reader.take(4)?) as u32;
    let count = reader.take(1)?[0];
    if count > SOURCE_CEILING {
        return Err(3);
    }
    let sources = (0..count).map(|_| Ok(number(reader.take(4)?) as u32));
    let sources = sources.collect::<Checked<_>>()?;
    let count = reader.take(1)?[0];
    if count > PART_CEILING {
        return Err(3);
    }
    let parts = (0..count).map(|_| read_part(&mut reader));
    let parts = parts.collect::<Checked<_>>()?;
    reader.end()?;
    Ok(Job {
        destination,
        sources,
        parts,
    })
}

pub fn outputs(job: &Job) -> impl Iterator<Item = &Table> {
    job.parts.iter().flat_map(|part| &part.outputs)
}
