//! Rows of bars.
use super::super::sheet::{Bar, Kind, Row};
use super::colours::{of_table, Colour, DURABLE, PLANNED};
use super::shapes::{escape, outline, words};
use super::{Page, BEYOND, EDGE, HEAD, KEY, LINE};
use std::ops::Bound;

const TALL: usize = 20;

/// How a bar is painted, and what stands on it.
struct Paint<'a> {
    colour: Colour,
    pattern: Option<&'static str>,
    label: &'a str,
}

impl<'a> Page<'a> {
    pub(super) fn row(&mut self, row: &Row) {
        self.y += 3;
        let head = row.head.trim_start();
        let indent = 6 * (row.head.len() - head.len());
        self.out += &words(EDGE + indent, self.y + 17, HEAD, head);
        if row.lines.is_empty() {
            self.out += &words(self.left + 4, self.y + 17, HEAD, row.instead);
        }
        for (line, bars) in row.lines.iter().enumerate() {
            let top = self.y + line * LINE + 2;
            for bar in bars {
                self.bar(bar, top);
            }
        }
        self.y += row.lines.len().max(1) * LINE + 3;
    }

    fn bar(&mut self, bar: &Bar, top: usize) {
        let (from, to) = self.edges(bar);
        let open = (
            bar.span.start == Bound::Unbounded,
            bar.span.end == Bound::Unbounded,
        );
        let path = outline(from + 1, to - 1, top, TALL, open);
        let paint = self.paint(bar.kind);
        let (title, fill) = (escape(&bar.title), paint.colour.fill);
        let mut out = format!(
            "<g><title>{title}</title>\n<path d=\"{path}\" fill=\"{fill}\" stroke=\"#222\"/>\n"
        );
        if let Some(pattern) = paint.pattern {
            out += &format!("<path d=\"{path}\" fill=\"url(#{pattern})\"/>\n");
        }
        let label = self.label(&paint, from, to, top);
        self.out += &(out + "</g>\n");
        self.labels += &label;
    }

    /// The label of a bar, where no dashed line runs if there is such a place. Stripes do not run through it.
    fn label(&self, paint: &Paint, from: usize, to: usize, top: usize) -> String {
        let Colour { fill, ink } = paint.colour;
        let wide = 8 * paint.label.len() + 4;
        if wide + 2 > to - from {
            return String::new();
        }
        let mut middle = self.free(from, to);
        if middle < from + wide / 2 + 1 || middle + wide / 2 + 1 > to {
            middle = (from + to) / 2;
        }
        let (x, y) = (middle - wide / 2, top + 2);
        let behind =
            format!("<rect x=\"{x}\" y=\"{y}\" width=\"{wide}\" height=\"16\" fill=\"{fill}\"/>\n");
        let how = format!("{KEY} fill=\"{ink}\"");
        let label = words(middle, top + 15, &how, paint.label);
        format!("<g pointer-events=\"none\">{behind}{label}</g>\n")
    }

    /// The middle of the widest stretch of a bar between dashed lines.
    fn free(&self, from: usize, to: usize) -> usize {
        let marks = self.sheet.marks.iter().map(|key| self.middle(*key));
        let mut cuts: Vec<usize> = marks.filter(|x| from < *x && *x < to).collect();
        cuts.extend([from, to]);
        cuts.sort();
        let widest = cuts.windows(2).rev().max_by_key(|pair| pair[1] - pair[0]);
        widest.map_or(from, |pair| (pair[0] + pair[1]) / 2)
    }

    fn edges(&self, bar: &Bar) -> (usize, usize) {
        let from = match bar.span.start {
            Bound::Unbounded => self.left - BEYOND,
            Bound::Included(key) => self.of_key(key),
            Bound::Excluded(key) => self.of_key(key) + self.column,
        };
        let to = match bar.span.end {
            Bound::Unbounded => self.right(),
            Bound::Included(key) => self.of_key(key) + self.column,
            Bound::Excluded(key) => self.of_key(key),
        };
        (from, to)
    }

    fn paint(&self, kind: Kind) -> Paint<'a> {
        let (colour, pattern, label) = match kind {
            Kind::Table(id) => {
                let named = self.sheet.tables.of(id);
                let (colour, pattern) = of_table(named);
                (colour, pattern, named.label.as_str())
            }
            Kind::Planned => (PLANNED, None, "planned"),
            Kind::Durable => (DURABLE, None, "durable"),
        };
        Paint {
            colour,
            pattern,
            label,
        }
    }
}
