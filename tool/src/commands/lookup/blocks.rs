//! The blocks of an index that can hold a key of a range.
use super::{Command, TEXT};
use crate::args::Args;
use crate::failure::{refused, Failure};
use crate::input::Inputs;
use crate::kind::Kind;
use crate::output::Answer;
use crate::text::key;
use bilqarush::typed::{partitions_covering_range, Index, IndexBytes, RangeBytes, Stop};

pub const COMMAND: Command = Command {
    name: "lookup blocks",
    usage: "INDEX RANGE [--text]",
    line: "the blocks of an index that can hold a key of a range",
    about: "\
First their places in the index, from the first up to, without, the last number; then a line each: the place, the offset, the
first key.
",
    options: &[TEXT],
    example: "  $ bilqarush lookup blocks index.txt - 'b)'\n  blocks 0..2\n  0 block 0 a\n  1 block 10 b\n",
    run,
};

fn run(args: &Args) -> Result<Answer, Failure> {
    args.between(2, 3)?;
    let range = args.range(1)?;
    let index = Inputs::new(args.has("--text")).read(Kind::Index, args.file(0))?;
    told(&index.bytes, &range.bytes)
        .map(Answer::text)
        .map_err(|stop| refused(stop, &[&index, &range], None))
}

fn told(index: &[u8], range: &[u8]) -> Result<String, Stop> {
    let places = partitions_covering_range(IndexBytes(index), RangeBytes(range))?;
    let blocks = Index::decode(index)?.blocks;
    let mut text = format!("blocks {}..{}\n", places.start, places.end);
    for place in places {
        let block = &blocks[place];
        let first = key::write(&block.first_key);
        text += &format!("{place} block {} {first}\n", block.offset);
    }
    Ok(text)
}
