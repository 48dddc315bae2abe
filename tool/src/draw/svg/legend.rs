//! What stands below the picture.
use super::super::sheet::ABOUT_JOB;
use super::colours::{of_table, Colour, SAMPLES};
use super::shapes::{escape, words};
use super::{Page, EDGE, NOTE, WORDS};

const BARS: &str = "Keys stand in their order, not to scale. A bar that fills a key's grey column has that key; one that \
    stops at its edge has not. A pointed end has no bound.";

impl Page<'_> {
    pub(super) fn legend(&mut self) {
        self.lines(NOTE, WORDS, BARS);
        if self.sheet.job.is_some() {
            self.lines(NOTE, WORDS, ABOUT_JOB);
        }
        self.kinds();
        let top = self.y;
        for (label, id) in self.sheet.tables.legend() {
            let (colour, pattern) = of_table(self.sheet.tables.of(id));
            self.sample(colour, pattern, &format!("{label}: table {id}"));
        }
        // Keys stand beside tables.
        let tables = std::mem::replace(&mut self.y, top);
        let x = if tables > top { self.width / 2 } else { EDGE };
        for (number, name) in self.sheet.axis.legend() {
            self.key(x, number, name);
        }
        self.y = self.y.max(tables);
    }

    fn kinds(&mut self) {
        let (new, old) = match self.sheet.job.is_some() {
            true => (
                "tables that the job wrote",
                "tables that the job did not write",
            ),
            false => ("tables that came later", "tables of the first image"),
        };
        if self.sheet.tables.kinds() == (true, true) {
            self.sample(SAMPLES[0], None, &format!("blue and green: {old}"));
            self.sample(SAMPLES[1], None, &format!("yellow to red: {new}"));
        }
    }

    fn sample(&mut self, colour: Colour, pattern: Option<&str>, text: &str) {
        self.y += WORDS + 1;
        let y = self.y - 11;
        let fill = pattern.map(|pattern| format!("url(#{pattern})"));
        for fill in [Some(colour.fill.into()), fill].into_iter().flatten() {
            self.out += &format!(
                "<rect x=\"{EDGE}\" y=\"{y}\" width=\"22\" height=\"13\" fill=\"{fill}\" stroke=\"#222\"/>\n"
            );
        }
        self.out += &words(EDGE + 30, self.y, NOTE, text);
    }

    /// A long key. What does not fit is left out in the middle; the whole of it is its title.
    fn key(&mut self, x: usize, number: &str, name: &str) {
        self.y += WORDS + 1;
        let room = (self.width - EDGE - x) / 8 - 12;
        let text = match name.len() > room {
            true => format!("{} ... {}", &name[..room - 21], &name[name.len() - 16..]),
            false => name.into(),
        };
        let text = words(x, self.y, NOTE, &format!("{number}: key {text}"));
        self.out += &format!("<g><title>key {}</title>{text}</g>\n", escape(name));
    }
}
