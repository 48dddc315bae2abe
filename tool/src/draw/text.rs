//! The picture in plain text. A key has a column: an included bound stands in it, an excluded one just beside it.
use super::sheet::{Bar, Block, Kind, Row, Sheet, ABOUT_JOB};
use std::ops::Bound;

/// A picture is stretched to about this many columns. With many keys it is wider.
const PAGE: usize = 90;
/// Room left of the first key for a range without a start.
const BEFORE: usize = 3;

const LEGEND: &str = "\
Keys stand in their order, not to scale.
[ ] with that key   ) ( without it   * one key alone   < > without a bound   . not this key
";

pub(super) fn draw(sheet: &Sheet) -> String {
    let page = Page::new(sheet);
    let mut out = String::new();
    for block in &sheet.scenes {
        page.block(block, &mut out);
        page.marks(&mut out);
        notes(block, &mut out);
    }
    if let Some(block) = &sheet.job {
        page.block(block, &mut out);
        page.last_written(&mut out);
        notes(block, &mut out);
    }
    out.push_str(LEGEND);
    if sheet.job.is_some() {
        out.push_str(&format!("{ABOUT_JOB}\n"));
    }
    for (label, id) in sheet.tables.legend() {
        out.push_str(&format!("{label} = table {id}\n"));
    }
    for (number, name) in sheet.axis.legend() {
        out.push_str(&format!("{number} = key {name}\n"));
    }
    out
}

fn notes(block: &Block, out: &mut String) {
    for note in &block.notes {
        out.push_str(&format!("{note}\n"));
    }
    out.push('\n');
}

struct Page<'a> {
    sheet: &'a Sheet,
    /// The column of the first key.
    origin: usize,
    cell: usize,
}

impl Page<'_> {
    fn new(sheet: &Sheet) -> Page<'_> {
        let blocks = sheet.scenes.iter().chain(&sheet.job);
        let heads = blocks
            .flat_map(|block| &block.rows)
            .map(|row| row.head.len());
        let head = heads.chain([MARKS.len()]).max().unwrap_or(0);
        let origin = head + 1 + BEFORE;
        let name = sheet.axis.names().iter().map(String::len).max();
        // A bar from a key up to the next one, without it, has room for a label.
        let least = (name.unwrap_or(0) + 1).max(sheet.tables.widest() + 2);
        let even = PAGE.saturating_sub(origin) / sheet.axis.len().max(1);
        let cell = even.max(least).clamp(3, 8);
        Page {
            sheet,
            origin,
            cell,
        }
    }

    fn column(&self, key: usize) -> usize {
        self.origin + key * self.cell
    }

    /// Where unbounded ends stand.
    fn right(&self) -> usize {
        self.column(self.sheet.axis.len().max(1)) - 1
    }

    fn block(&self, block: &Block, out: &mut String) {
        out.push_str(&format!("{}\n\n", block.title));
        let mut line = Line::default();
        for (key, name) in self.sheet.axis.names().iter().enumerate() {
            line.put(self.column(key), name);
        }
        line.end_if_any(out);
        for key in 0..self.sheet.axis.len() {
            line.put(self.column(key), "|");
        }
        line.end_if_any(out);
        for row in &block.rows {
            self.row(row, out);
        }
    }

    fn row(&self, row: &Row, out: &mut String) {
        let mut line = Line::default();
        line.put(0, &row.head);
        if row.lines.is_empty() {
            line.put(self.origin, row.instead);
            line.end(out);
        }
        for bars in &row.lines {
            for key in 0..self.sheet.axis.len() {
                line.put(self.column(key), ".");
            }
            for bar in bars {
                self.bar(bar, &mut line);
            }
            line.end(out);
        }
    }

    fn bar(&self, bar: &Bar, line: &mut Line) {
        let (start, first) = match bar.span.start {
            Bound::Unbounded => (self.origin - BEFORE, "<"),
            Bound::Included(key) => (self.column(key), "["),
            Bound::Excluded(key) => (self.column(key) + 1, "("),
        };
        let (end, last) = match bar.span.end {
            Bound::Unbounded => (self.right(), ">"),
            Bound::Included(key) => (self.column(key), "]"),
            Bound::Excluded(key) => (self.column(key) - 1, ")"),
        };
        let label = self.label(bar);
        if start == end {
            // No other bar of this line comes before the next key.
            line.put(start, "*");
            line.put(start + 1, label);
            return;
        }
        line.put(start, &"=".repeat(end - start));
        line.put(start, first);
        line.put(end, last);
        let room = end - start - 1;
        if label.len() <= room {
            let at = start + 1 + usize::from(label.len() + 2 <= room);
            line.put(at, label);
        }
    }

    fn label(&self, bar: &Bar) -> &str {
        match bar.kind {
            Kind::Table(id) => &self.sheet.tables.of(id).label,
            Kind::Planned => "planned",
            Kind::Durable => "",
        }
    }

    /// The last written keys below a scene.
    fn marks(&self, out: &mut String) {
        let mut line = Line::default();
        for &key in &self.sheet.marks {
            line.put(0, MARKS);
            line.put(self.column(key), "^");
        }
        line.end_if_any(out);
    }

    /// The last written keys below the job, in words.
    fn last_written(&self, out: &mut String) {
        for &key in &self.sheet.marks {
            let name = &self.sheet.axis.names()[key];
            let mut line = Line::default();
            line.put(
                self.column(key),
                &format!("^ last written: {name}, not yet durable"),
            );
            line.end(out);
        }
    }
}

const MARKS: &str = "last written";

/// A line that is filled in any order.
#[derive(Default)]
struct Line(Vec<u8>);

impl Line {
    fn put(&mut self, at: usize, text: &str) {
        let end = at + text.len();
        if self.0.len() < end {
            self.0.resize(end, b' ');
        }
        self.0[at..end].copy_from_slice(text.as_bytes());
    }

    fn end(&mut self, out: &mut String) {
        let line = String::from_utf8_lossy(&self.0);
        out.push_str(line.trim_end());
        out.push('\n');
        self.0.clear();
    }

    fn end_if_any(&mut self, out: &mut String) {
        if !self.0.is_empty() {
            self.end(out);
        }
    }
}
