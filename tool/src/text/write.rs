//! Values in their text form.
use super::{id, key, range};
use bilqarush::typed::{Anchors, Image, Index, Indexes, Job, Plan, Range, Table};

/// The numbers of a table are left out if all are 0, as a person does who has none.
fn table(table: &Table) -> String {
    let first = key::write(&table.first_key);
    let last = table
        .last_key
        .as_deref()
        .map_or("-".to_string(), key::write);
    let mut text = format!("{} {first} {last}", id::write(table.id.0));
    let numbers = [table.index_offset, table.index_len, table.filter_offset];
    if numbers != [0; 3] {
        let [offset, len, filter] = numbers;
        text += &format!(" index {offset} {len} filter {filter}");
    }
    text
}

pub fn image(image: &Image) -> String {
    let mut text = "image\n".to_string();
    for run in &image.runs {
        text += &format!("run {}\n", run.id);
        for view in &run.views {
            text += &format!(
                "  view {} table {}",
                id::write(view.id.0),
                table(&view.table)
            );
            if let Some(visible) = &view.visible {
                text += &format!(" visible {}", range::write(visible));
            }
            text += "\n";
        }
    }
    text
}

pub fn job(job: &Job) -> String {
    let mut text = format!("job destination {} sources", job.destination);
    text.extend(job.sources.iter().map(|source| format!(" {source}")));
    text += "\n";
    for part in &job.parts {
        let state = match part.completed {
            true => "completed",
            false => "unfinished",
        };
        text += &format!("part {} {state}\n", range::write(&part.range));
        let outputs = part.outputs.iter();
        text.extend(outputs.map(|output| format!("  output {}\n", table(output))));
    }
    text
}

pub fn index(index: &Index) -> String {
    let blocks = index.blocks.iter();
    let lines = blocks.map(|block| {
        format!(
            "  block {} {}\n",
            block.offset,
            key::write(&block.first_key)
        )
    });
    format!("index\n{}", lines.collect::<String>())
}

pub fn indexes(indexes: &Indexes) -> String {
    indexes.indexes.iter().map(index).collect()
}

pub fn anchors(anchors: &Anchors) -> String {
    let anchors = anchors.anchors.iter();
    let lines =
        anchors.map(|anchor| format!("  anchor {} {}\n", key::write(&anchor.key), anchor.bytes));
    format!("anchors\n{}", lines.collect::<String>())
}

pub fn plan(plan: &Plan) -> String {
    let ranges = plan.ranges.iter();
    let lines = ranges.map(|range| format!("  range {}\n", range::write(range)));
    format!("plan\n{}", lines.collect::<String>())
}

/// A line with the two words.
pub fn range<K: AsRef<[u8]>>(value: &Range<K>) -> String {
    range::write(value) + "\n"
}
