//! The anchors of a table.
use super::{Command, OUT, TEXT};
use crate::args::{Args, Opt};
use crate::failure::{refused, Failure};
use crate::input::{Input, Inputs};
use crate::kind::Kind;
use crate::output::{self, Answer};
use bilqarush::typed::{sample_anchors_to_anchors, IndexBytes, Range, RangeBytes, Stop};

pub const COMMAND: Command = Command {
    name: "sample",
    usage: "INDEX [RANGE] --data-end N [--most N] [-o OUT] [--text]",
    line: "the anchors of a table, from its index",
    about: "\
Keys, each with the bytes that it stands for; those alone that RANGE holds, if there is one. Prints the text of the anchors.
",
    options: &[
        Opt {
            name: "--data-end",
            value: Some("N"),
            about: "the data of the table end at the offset N",
        },
        Opt {
            name: "--most",
            value: Some("N"),
            about: "ask for N anchors at most, 0 to 4096; 0 acts as 1; 128 if it is not given",
        },
        OUT,
        TEXT,
    ],
    example: "  $ bilqarush sample index.txt --data-end 100 --most 2\n  anchors\n    anchor a 20\n    anchor b 80\n",
    run,
};

fn run(args: &Args) -> Result<Answer, Failure> {
    args.between(1, 3)?;
    let data_end = args.number("--data-end")?;
    let data_end = data_end.ok_or_else(|| Failure::Usage("--data-end is needed".to_string()))?;
    let most = args.number("--most")?.unwrap_or(128);
    let range = match args.words().len() {
        1 => Input::of_range(&Range::all())?,
        _ => args.range(1)?,
    };
    let index = Inputs::new(args.has("--text")).read(Kind::Index, args.file(0))?;
    let (given, within) = (IndexBytes(&index.bytes), RangeBytes(&range.bytes));
    let anchors = sample_anchors_to_anchors(most, data_end, given, within);
    let laid = anchors.and_then(|anchors| anchors.to_bytes());
    let laid = laid.map_err(|stop| {
        let most = (stop == Stop::Ceiling).then(|| "--most is at most 4096".to_string());
        match args.words().len() {
            1 => refused(stop, &[&index], most),
            _ => refused(stop, &[&index, &range], most),
        }
    })?;
    output::text_or_bytes(Kind::Anchors, laid, args.value("-o"))
}
