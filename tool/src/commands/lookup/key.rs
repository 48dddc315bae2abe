//! The blocks of an index that can hold a key.
use super::{Command, TEXT};
use crate::args::Args;
use crate::failure::{long_key, refused, Failure};
use crate::input::{self, Inputs};
use crate::kind::Kind;
use crate::output::Answer;
use bilqarush::typed::{
    first_partition_including_key, first_partition_including_or_after_key,
    last_partition_including_key, partition_point, IndexBytes, Stop, Test,
};

pub const COMMAND: Command = Command {
    name: "lookup key",
    usage: "INDEX KEY [--text]",
    line: "the blocks of an index that can hold a key",
    about: "\
What each lookup by a key answers, by the name of its call: the place of a block from 0, or none. The last two lines count
the first keys that are below KEY, and those that are at or below it.
",
    options: &[TEXT],
    example: "  $ bilqarush lookup key index.txt b\n  first_partition_including_key 0\n  \
        first_partition_including_or_after_key 0\n  last_partition_including_key 2\n  \
        partition_point_below 1\n  partition_point_at_or_below 3\n",
    run,
};

fn run(args: &Args) -> Result<Answer, Failure> {
    args.between(2, 2)?;
    let [key] = args.lexed(1)?[..] else {
        return Err(Failure::Usage("KEY is one word".to_string()));
    };
    let key = input::key(key)?;
    let index = Inputs::new(args.has("--text")).read(Kind::Index, args.file(0))?;
    told(IndexBytes(&index.bytes), &key)
        .map(Answer::text)
        .map_err(|stop| refused(stop, &[&index], long_key(stop)))
}

fn told(index: IndexBytes, key: &[u8]) -> Result<String, Stop> {
    let found = |place: Option<usize>| place.map_or("none".to_string(), |place| place.to_string());
    Ok(format!(
        "first_partition_including_key {}\nfirst_partition_including_or_after_key {}\n\
         last_partition_including_key {}\npartition_point_below {}\npartition_point_at_or_below {}\n",
        found(first_partition_including_key(index, key)?),
        first_partition_including_or_after_key(index, key)?,
        found(last_partition_including_key(index, key)?),
        partition_point(index, Test::Below, key)?,
        partition_point(index, Test::AtOrBelow, key)?,
    ))
}
