//! A text picture, read back from its characters alone.

pub(super) struct Block<'t> {
    pub(super) title: &'t str,
    /// The column of each key.
    pub(super) columns: Vec<usize>,
    pub(super) rows: Vec<(&'t str, Vec<Bar<'t>>)>,
    pub(super) notes: Vec<&'t str>,
    /// The columns of the last written keys.
    pub(super) marks: Vec<usize>,
}

/// A bar by its columns, both with it.
pub(super) struct Bar<'t> {
    pub(super) label: &'t str,
    pub(super) start: usize,
    pub(super) end: usize,
}

/// The blocks that stand above the legend.
pub(super) fn blocks(text: &str) -> Vec<Block<'_>> {
    let (blocks, _) = text.split_once("Keys stand in their order").unwrap();
    let lines: Vec<&str> = blocks.lines().collect();
    let mut found = Vec::new();
    let mut at = 0;
    while at < lines.len() {
        let rows = lines[at + 2..].iter().position(|line| line.is_empty());
        let end = at + 2 + rows.unwrap();
        found.push(block(&lines[at..end]));
        at = end + 1;
    }
    found
}

fn block<'t>(lines: &[&'t str]) -> Block<'t> {
    let mut block = Block {
        title: lines[0],
        columns: lines.get(3).map_or(Vec::new(), |line| columns(line, '|')),
        rows: Vec::new(),
        notes: Vec::new(),
        marks: Vec::new(),
    };
    let rows = if block.columns.is_empty() { 2 } else { 4 };
    for line in &lines[rows..] {
        let (head, rest) = line.split_at(line.len().min(12));
        if line.contains('^') {
            block.marks.extend(columns(line, '^'));
        } else if !rest.starts_with([' ', '<']) || line.ends_with('.') && line.contains("durable,")
        {
            block.notes.push(line);
        } else if head.trim().is_empty() {
            block.rows.last_mut().unwrap().1.extend(bars(line));
        } else {
            block.rows.push((head.trim(), bars(line)));
        }
    }
    block
}

fn columns(line: &str, sign: char) -> Vec<usize> {
    line.match_indices(sign).map(|(column, _)| column).collect()
}

fn bars(line: &str) -> Vec<Bar<'_>> {
    let mut bars = Vec::new();
    let mut from = 0;
    while let Some(start) = line[from..].find(['[', '(', '<', '*']) {
        let start = from + start;
        let rest = &line[start + 1..];
        let (end, label) = match line[start..].starts_with('*') {
            true => (
                start,
                rest.split(|c: char| !c.is_ascii_alphanumeric())
                    .next()
                    .unwrap(),
            ),
            false => {
                let inner = rest.find([']', ')', '>']).unwrap();
                (start + 1 + inner, rest[..inner].trim_matches('='))
            }
        };
        bars.push(Bar { label, start, end });
        from = end + 1;
    }
    bars
}
