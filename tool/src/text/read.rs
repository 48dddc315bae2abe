//! Values from their text form.
use super::line::{Line, TextError};
use super::lines::{Lines, Read};
use bilqarush::raw::*;
use bilqarush::typed::{
    Anchor, Anchors, Block, Image, Index, Indexes, Item, Job, Part, Plan, Range, Run, Table,
    TableId, View, ViewId,
};

const RUN_ID: &str = "a run id (0 to 4294967295)";
const NUMBER: &str = "a number (0 to 18446744073709551615)";

pub fn image(text: &[u8]) -> Result<Read<Image>, TextError> {
    let mut lines = Lines::new(text)?;
    lines.expect("image")?.end("")?;
    let mut image = Image::default();
    while let Some(line) = lines.take("run") {
        let run = image.runs.len();
        line.room(run, BILQARUSH_MAX_RUNS, "runs")?;
        lines.note(Item::Run(run), &line);
        image.runs.push(read_run(&mut lines, line, run)?);
    }
    let views = image.runs.last().map_or("", |_| "view or ");
    lines.end(image, &format!("a line with {views}run"))
}

fn read_run(lines: &mut Lines, mut head: Line, run: usize) -> Result<Run, TextError> {
    let id = head.number(RUN_ID)?;
    head.end("")?;
    let mut views = Vec::new();
    while let Some(line) = lines.take("view") {
        let view = views.len();
        line.room(view, BILQARUSH_MAX_VIEWS, "views of a run")?;
        lines.note(Item::View { run, view }, &line);
        views.push(read_view(line)?);
    }
    Ok(Run { id, views })
}

fn read_view(mut line: Line) -> Result<View, TextError> {
    let id = ViewId(line.id()?);
    line.word("table")?;
    let table = read_table(&mut line)?;
    let visible = match line.accept("visible") {
        true => Some(line.range()?),
        false => None,
    };
    line.end(match visible {
        None => "index, filter and visible in this order, or ",
        Some(_) => "",
    })?;
    Ok(View { id, table, visible })
}

fn read_table(line: &mut Line) -> Result<Table, TextError> {
    let id = TableId(line.id()?);
    let first_key = line.key()?;
    let last_key = line.last_key()?;
    let (mut index_offset, mut index_len, mut filter_offset) = (0, 0, 0);
    if line.accept("index") {
        index_offset = line.number(NUMBER)?;
        index_len = line.number(NUMBER)?;
    }
    if line.accept("filter") {
        filter_offset = line.number(NUMBER)?;
    }
    Ok(Table {
        id,
        index_offset,
        index_len,
        filter_offset,
        first_key,
        last_key,
    })
}

pub fn job(text: &[u8]) -> Result<Read<Job>, TextError> {
    let mut lines = Lines::new(text)?;
    let mut head = lines.expect("job")?;
    head.word("destination")?;
    let mut job = Job::new(head.number(RUN_ID)?, []);
    head.word("sources")?;
    while head.next().is_some() {
        let source = job.sources.len();
        head.room(source, BILQARUSH_MAX_SOURCES, "sources")?;
        lines.note(Item::Source(source), &head);
        job.sources.push(head.number(RUN_ID)?);
    }
    lines.note(Item::Whole, &head);
    while let Some(line) = lines.take("part") {
        let part = job.parts.len();
        line.room(part, BILQARUSH_MAX_PARTS, "parts")?;
        lines.note(Item::Part(part), &line);
        job.parts.push(read_part(&mut lines, line, part)?);
    }
    let outputs = job.parts.last().map_or("", |_| "output or ");
    lines.end(job, &format!("a line with {outputs}part"))
}

fn read_part(lines: &mut Lines, mut head: Line, part: usize) -> Result<Part, TextError> {
    let mut read = Part::new(head.range()?);
    read.completed = head.accept("completed");
    if !read.completed && !head.accept("unfinished") {
        return Err(head.expected("completed or unfinished"));
    }
    head.end("")?;
    while let Some(mut line) = lines.take("output") {
        let output = read.outputs.len();
        line.room(output, BILQARUSH_MAX_OUTPUTS, "outputs of a part")?;
        lines.note(Item::Output { part, output }, &line);
        read.outputs.push(read_table(&mut line)?);
        line.end("index and filter in this order, or ")?;
    }
    Ok(read)
}

pub fn index(text: &[u8]) -> Result<Read<Index>, TextError> {
    let mut lines = Lines::new(text)?;
    let head = lines.expect("index")?;
    let index = read_index(&mut lines, head, 0)?;
    lines.end(index, "a line with block")
}

/// Several indexes, one after the other.
pub fn indexes(text: &[u8]) -> Result<Read<Indexes>, TextError> {
    let mut lines = Lines::new(text)?;
    let mut indexes = Vec::new();
    while let Some(head) = lines.take("index") {
        indexes.push(read_index(&mut lines, head, indexes.len())?);
    }
    let blocks = indexes.last().map_or("", |_| "block or ");
    let what = format!("a line with {blocks}index");
    lines.end(Indexes { indexes }, &what)
}

fn read_index(lines: &mut Lines, head: Line, place: usize) -> Result<Index, TextError> {
    head.end("")?;
    lines.note(Item::Index(place), &head);
    let mut index = Index::default();
    while let Some(mut line) = lines.take("block") {
        let block = index.blocks.len();
        line.room(block, usize::from(u16::MAX), "blocks")?;
        let item = Item::Block {
            index: place,
            block,
        };
        lines.note(item, &line);
        index.blocks.push(Block {
            offset: line.number(NUMBER)?,
            first_key: line.key()?,
        });
        line.end("")?;
    }
    Ok(index)
}

pub fn anchors(text: &[u8]) -> Result<Read<Anchors>, TextError> {
    let mut lines = Lines::new(text)?;
    lines.expect("anchors")?.end("")?;
    let mut anchors = Anchors::default();
    while let Some(mut line) = lines.take("anchor") {
        let anchor = anchors.anchors.len();
        line.room(anchor, BILQARUSH_MAX_ANCHORS, "anchors")?;
        lines.note(Item::Anchor(anchor), &line);
        anchors.anchors.push(Anchor {
            key: line.key()?,
            bytes: line.number(NUMBER)?,
        });
        line.end("")?;
    }
    lines.end(anchors, "a line with anchor")
}

pub fn plan(text: &[u8]) -> Result<Read<Plan>, TextError> {
    let mut lines = Lines::new(text)?;
    lines.expect("plan")?.end("")?;
    let mut plan = Plan::default();
    while let Some(mut line) = lines.take("range") {
        let range = plan.ranges.len();
        line.room(range, BILQARUSH_MAX_PARTS, "ranges")?;
        lines.note(Item::Range(range), &line);
        plan.ranges.push(line.range()?);
        line.end("")?;
    }
    lines.end(plan, "a line with range")
}

/// A range by itself is a line with its two words. The word `range` before them, as in a plan, does no harm.
pub fn range(text: &[u8]) -> Result<Read<Range>, TextError> {
    let mut lines = Lines::new(text)?;
    let mut line = lines.any(super::range::EXPECTED)?;
    line.accept("range");
    lines.note(Item::Whole, &line);
    let range = line.range()?;
    line.end("")?;
    lines.end(range, "a comment")
}
