//! The picture as SVG. A key has a column: a bar that holds the key fills the column, one that does not stops at its edge.
use super::sheet::{Block, Sheet};
use shapes::{escape, words, wrap};

mod bars;
mod colours;
mod legend;
mod marks;
mod shapes;

/// The width that a picture is stretched to. With many keys it is wider.
const PAGE: usize = 960;
const EDGE: usize = 14;
/// How far a bar without a bound reaches beyond the outermost keys.
const BEYOND: usize = 26;
/// From a line of bars to the next, and from a line of small words to the next.
const LINE: usize = 24;
const WORDS: usize = 17;

const TITLE: &str = " font-size=\"16\" font-weight=\"bold\"";
const HEAD: &str = " font-size=\"13\"";
const KEY: &str =
    " font-size=\"13\" font-weight=\"bold\" font-family=\"monospace\" text-anchor=\"middle\"";
const NOTE: &str = " font-size=\"12\"";

pub(super) fn draw(sheet: &Sheet) -> String {
    let mut page = Page::new(sheet);
    for block in &sheet.scenes {
        page.block(block, "");
    }
    if let Some(block) = &sheet.job {
        page.block(block, marks::NOT_YET);
    }
    page.legend();
    page.finish()
}

struct Page<'a> {
    sheet: &'a Sheet,
    out: String,
    /// Labels of bars, which stand above the dashed lines.
    labels: String,
    y: usize,
    /// The left edge of the first key's column.
    left: usize,
    /// From one key's column to the next.
    step: usize,
    /// The width of a key's column.
    column: usize,
    width: usize,
}

impl Page<'_> {
    fn new(sheet: &Sheet) -> Page<'_> {
        let blocks = sheet.scenes.iter().chain(&sheet.job);
        let heads = blocks.flat_map(|block| &block.rows);
        let head = heads.map(|row| row.head.len()).max().unwrap_or(0);
        let name = sheet.axis.names().iter().map(String::len).max();
        // A point has room for a label, and each key for its name.
        let column = (8 * sheet.tables.widest() + 6).max(22);
        let least = (8 * name.unwrap_or(0) + 8).max(column + 16);
        let mut page = Page {
            sheet,
            out: String::new(),
            labels: String::new(),
            y: 0,
            left: EDGE + 8 * head + BEYOND,
            step: 100.max(least),
            column,
            width: PAGE,
        };
        while page.step > least && page.needed() > PAGE {
            page.step -= 1;
        }
        page.width = page.needed().max(PAGE);
        page
    }

    fn needed(&self) -> usize {
        self.right().max(self.marks_end()) + EDGE
    }

    fn of_key(&self, key: usize) -> usize {
        self.left + key * self.step
    }

    fn middle(&self, key: usize) -> usize {
        self.of_key(key) + self.column / 2
    }

    /// Where bars without an end stop.
    fn right(&self) -> usize {
        let last = self.sheet.axis.len().saturating_sub(1);
        self.of_key(last) + self.column + BEYOND
    }

    /// Text in as many lines as it takes. A character of a title is about 9 wide, another 6.
    fn lines(&mut self, how: &str, step: usize, text: &str) {
        let wide = if how == TITLE { 9 } else { 6 };
        for line in wrap(text, (self.width - 2 * EDGE) / wide) {
            self.y += step;
            self.out += &words(EDGE, self.y, how, &line);
        }
    }

    /// A title, the keys with their columns, the rows, the last written keys and the notes.
    fn block(&mut self, block: &Block, of_mark: &str) {
        self.lines(TITLE, 24, &block.title);
        self.y += 22;
        for (key, name) in self.sheet.axis.names().iter().enumerate() {
            self.out += &words(self.middle(key), self.y, KEY, name);
        }
        self.y += 6;
        let top = self.y;
        self.columns(block);
        for row in &block.rows {
            self.row(row);
        }
        self.marks(top, of_mark);
        self.out += &std::mem::take(&mut self.labels);
        for note in &block.notes {
            self.lines(NOTE, WORDS, note);
        }
        self.y += 18;
    }

    fn columns(&mut self, block: &Block) {
        let lines = block.rows.iter().map(|row| row.lines.len().max(1));
        let tall = lines.sum::<usize>() * LINE + 6 * block.rows.len();
        let (y, wide) = (self.y, self.column);
        for key in 0..self.sheet.axis.len() {
            let x = self.of_key(key);
            self.out += &format!(
                "<rect x=\"{x}\" y=\"{y}\" width=\"{wide}\" height=\"{tall}\" fill=\"#e4e7eb\"/>\n"
            );
        }
    }

    fn finish(self) -> String {
        let blocks = self.sheet.scenes.iter().chain(&self.sheet.job);
        let titles: Vec<&str> = blocks.map(|block| block.title.as_str()).collect();
        let about = escape(&format!("Tables over keys. {}", titles.join(". ")));
        let (width, height, patterns) = (self.width, self.y + EDGE, colours::PATTERNS);
        format!(
            "<svg xmlns=\"http://www.w3.org/2000/svg\" role=\"img\" aria-label=\"{about}\" width=\"{width}\" \
             height=\"{height}\" viewBox=\"0 0 {width} {height}\" font-family=\"sans-serif\">\n{patterns}\
             <rect width=\"{width}\" height=\"{height}\" fill=\"#fff\"/>\n{}</svg>\n",
            self.out
        )
    }
}
