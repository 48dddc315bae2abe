//! Dashed lines at the last written keys.
use super::shapes::words;
use super::{Page, NOTE, WORDS};

pub(super) const NOT_YET: &str = ", not yet durable";

impl Page<'_> {
    /// Lines from the top of a block's rows down to their words. These stand to the right of their line, so the last key
    /// has the highest place, and no line runs through words.
    pub(super) fn marks(&mut self, top: usize, more: &str) {
        // Where the words of each height begin, by now.
        let mut heights: Vec<usize> = Vec::new();
        for &key in self.sheet.marks.iter().rev() {
            let text = self.mark(key, more);
            let (x, end) = (self.middle(key), self.middle(key) + wide(&text));
            let height = heights.iter().position(|begin| end < *begin);
            let height = height.unwrap_or(heights.len());
            match heights.get_mut(height) {
                Some(begin) => *begin = x,
                None => heights.push(x),
            }
            let y = self.y + (height + 1) * WORDS;
            self.dashed(x, top, y);
            self.out += &words(x + 5, y, NOTE, &text);
        }
        self.y += heights.len() * WORDS;
    }

    /// White below the dashes, to be seen on every colour.
    fn dashed(&mut self, x: usize, top: usize, bottom: usize) {
        for how in [
            "stroke=\"#fff\" stroke-width=\"4\" stroke-opacity=\"0.75\"",
            "stroke=\"#000\" stroke-width=\"2\" stroke-dasharray=\"5 4\"",
        ] {
            self.out += &format!("<path d=\"M{x} {top}V{bottom}\" {how}/>\n");
        }
    }

    fn mark(&self, key: usize, more: &str) -> String {
        format!("last written: {}{more}", self.sheet.axis.names()[key])
    }

    /// Where the longest words at the last of the keys end.
    pub(super) fn marks_end(&self) -> usize {
        let ends = self.sheet.marks.iter();
        let ends = ends.map(|&key| self.middle(key) + wide(&self.mark(key, NOT_YET)));
        ends.max().unwrap_or(0)
    }
}

/// About as wide as words of the small type are, and some room.
fn wide(text: &str) -> usize {
    6 * text.len() + 16
}
