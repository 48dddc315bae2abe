//! The checks of indexes: 1 and 3, then 6.
use super::{number, Checked, Reader};
use crate::{Block, Index};

/// The blocks of one index. A block count has no ceiling of its own.
fn read_blocks(reader: &mut Reader) -> Checked<Index> {
    let count = number(reader.take(2)?);
    let mut blocks = vec![];
    for _ in 0..count {
        blocks.push(Block {
            offset: number(reader.take(8)?),
            first: reader.key()?,
        });
    }
    Ok(blocks)
}

/// Checks 1 and 3 of a buffer that holds one index, its rest included.
pub fn read_index(buffer: &[u8]) -> Checked<Index> {
    let mut reader = Reader::new(buffer)?;
    let blocks = read_blocks(&mut reader)?;
    reader.end()?;
    Ok(blocks)
}

/// Checks 1 and 3 of a buffer that holds so many indexes, end to end. Its rest is tested after the last.
pub fn read_indexes(buffer: &[u8], count: usize) -> Checked<Vec<Index>> {
    let mut reader = Reader::new(buffer)?;
    let indexes = (0..count).map(|_| read_blocks(&mut reader));
    let indexes = indexes.collect::<Checked<_>>()?;
    reader.end()?;
    Ok(indexes)
}

/// Check 6: first keys do not descend.
pub fn ascending(index: &[Block]) -> Checked<()> {
    if index.windows(2).any(|pair| pair[0].first > pair[1].first) {
        return Err(6);
    }
    Ok(())
}
