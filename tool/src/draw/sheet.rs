//! What a picture has in it, whether it is drawn as text or as SVG.
use super::axis::{full_words, Axis, Span};
use super::facts::{Facts, Progress, Shown, ShownRun};
use super::missing::missing;
use super::names::Tables;
use super::{Picture, Scene};
use bilqarush::typed::{Part, Range, Stop, TableId};
use std::ops::Bound;

/// What the rows of a job mean.
pub(super) const ABOUT_JOB: &str =
    "Durable: the job's tables have all that is left there. A last written key is not durable \
    yet, as more of it may follow.";

pub(super) struct Sheet {
    pub(super) axis: Axis,
    pub(super) tables: Tables,
    pub(super) scenes: Vec<Block>,
    pub(super) job: Option<Block>,
    /// The last written keys of the unfinished parts, by their places on the axis.
    pub(super) marks: Vec<usize>,
}

pub(super) struct Block {
    pub(super) title: String,
    pub(super) rows: Vec<Row>,
    pub(super) notes: Vec<String>,
}

pub(super) struct Row {
    pub(super) head: String,
    /// Bars that do not meet stand in one line.
    pub(super) lines: Vec<Vec<Bar>>,
    /// What stands in place of bars, if there are none.
    pub(super) instead: &'static str,
}

pub(super) struct Bar {
    pub(super) span: Span,
    pub(super) kind: Kind,
    /// All of it, in words.
    pub(super) title: String,
}

#[derive(Clone, Copy)]
pub(super) enum Kind {
    Table(TableId),
    Planned,
    Durable,
}

impl Sheet {
    pub(super) fn new(picture: &Picture) -> Result<Sheet, Stop> {
        let facts = Facts::new(picture)?;
        let axis = Axis::new(&facts.ranges());
        let mut sheet = Sheet {
            tables: Tables::new(&facts),
            scenes: Vec::new(),
            job: None,
            marks: Vec::new(),
            axis,
        };
        for (scene, runs) in picture.scenes.iter().zip(&facts.scenes) {
            sheet.scenes.push(sheet.scene(scene, runs, &facts));
        }
        if let Some(progress) = &facts.progress {
            let last = progress.job.parts.iter().filter_map(last_written);
            sheet.marks = last.map(|key| sheet.axis.place(key)).collect();
            sheet.job = Some(sheet.job(progress));
        }
        Ok(sheet)
    }

    fn scene(&self, scene: &Scene, runs: &[ShownRun], facts: &Facts) -> Block {
        let mut rows: Vec<Row> = runs.iter().map(|run| self.run(run)).collect();
        let mut notes = Vec::new();
        if runs.is_empty() {
            notes.push("no runs".into());
        }
        if let Some(progress) = &facts.progress {
            rows.push(self.durable(progress));
            if let Some(first) = facts.scenes.first().filter(|_| !self.scenes.is_empty()) {
                notes.extend(missing(&self.axis, first, runs, progress));
            }
        }
        Block {
            title: plain(scene.title),
            rows,
            notes,
        }
    }

    fn run(&self, run: &ShownRun) -> Row {
        let place = format!("in run {}", run.id);
        let bars = run.views.iter().map(|view| self.table(view, &place));
        self.row(format!("run {}", run.id), bars, "no views")
    }

    fn table(&self, shown: &Shown, place: &str) -> Bar {
        let words = full_words(&shown.range);
        Bar {
            span: self.axis.span(&shown.range),
            kind: Kind::Table(shown.table),
            title: format!("table {}: {words} {place}", shown.table),
        }
    }

    fn durable(&self, progress: &Progress) -> Row {
        let ranges = progress.durable.iter();
        let bars = ranges.filter_map(|range| self.bar(range, Kind::Durable, "durable"));
        self.row("durable".into(), bars, "nothing")
    }

    /// A bar that is no table's, if its range holds a key. The one below the empty key does not.
    fn bar(&self, range: &Range, kind: Kind, what: &str) -> Option<Bar> {
        let below_all = matches!(&range.end, Bound::Excluded(key) if key.is_empty());
        let title = format!("{what}: {}", full_words(range));
        let span = self.axis.span(range);
        (!below_all).then_some(Bar { span, kind, title })
    }

    /// Bars in their order, each in the first line where it meets none.
    fn row(&self, head: String, bars: impl Iterator<Item = Bar>, instead: &'static str) -> Row {
        let mut lines: Vec<Vec<Bar>> = Vec::new();
        let mut ends: Vec<usize> = Vec::new();
        for bar in bars {
            let (from, to) = self.axis.stretches(bar.span).into_inner();
            match ends.iter().position(|end| *end < from) {
                Some(line) => {
                    lines[line].push(bar);
                    ends[line] = to;
                }
                None => {
                    lines.push(vec![bar]);
                    ends.push(to);
                }
            }
        }
        Row {
            head,
            lines,
            instead,
        }
    }

    fn job(&self, progress: &Progress) -> Block {
        let job = progress.job;
        let mut rows = Vec::new();
        for (place, part) in job.parts.iter().enumerate() {
            rows.extend(self.part(place, part, &progress.outputs[place]));
        }
        rows.push(self.durable(progress));
        let no_parts = job.parts.is_empty().then(|| "no parts".into());
        let sources: Vec<String> = job.sources.iter().map(u32::to_string).collect();
        let runs = if sources.len() == 1 { "run" } else { "runs" };
        Block {
            title: format!(
                "job: {runs} {} into run {}",
                sources.join(", "),
                job.destination
            ),
            rows,
            notes: no_parts.into_iter().collect(),
        }
    }

    /// The planned range, and below it the tables that are written.
    fn part(&self, place: usize, part: &Part, outputs: &[Shown]) -> [Row; 2] {
        let planned = self.bar(&part.range, Kind::Planned, "planned");
        let of_part = format!("written by part {place}");
        let written = outputs.iter().map(|output| self.table(output, &of_part));
        let (state, nothing) = match part.completed {
            true => ("  completed", "nothing written"),
            false => ("  unfinished", "nothing written yet"),
        };
        [
            self.row(format!("part {place}"), planned.into_iter(), "no key"),
            self.row(state.into(), written, nothing),
        ]
    }
}

fn last_written(part: &Part) -> Option<&[u8]> {
    let last = part.outputs.last().filter(|_| !part.completed)?;
    last.last_key.as_deref()
}

/// A title in one line, without characters that steer a terminal or that XML does not have.
fn plain(title: &str) -> String {
    let steers = |c: char| c.is_control() || matches!(c, '\u{fffe}' | '\u{ffff}');
    title
        .chars()
        .map(|c| if steers(c) { ' ' } else { c })
        .collect()
}
