//! Elements of an SVG, and words in lines.

/// A line of text with its baseline at a point. `how` has further attributes.
pub(super) fn words(x: usize, y: usize, how: &str, text: &str) -> String {
    let text = escape(text);
    format!("<text x=\"{x}\" y=\"{y}\"{how}>{text}</text>\n")
}

/// The outline of a bar, with a point where it has no bound.
pub(super) fn outline(
    from: usize,
    to: usize,
    top: usize,
    tall: usize,
    open: (bool, bool),
) -> String {
    let (bottom, middle) = (top + tall, top + tall / 2);
    let left = match open.0 {
        true => format!("M{} {top}L{from} {middle}L{} {bottom}", from + 9, from + 9),
        false => format!("M{from} {top}V{bottom}"),
    };
    let right = match open.1 {
        true => format!("H{}L{to} {middle}L{} {top}Z", to - 9, to - 9),
        false => format!("H{to}V{top}Z"),
    };
    left + &right
}

pub(super) fn escape(text: &str) -> String {
    let mut out = String::new();
    for c in text.chars() {
        match c {
            '&' => out.push_str("&amp;"),
            '<' => out.push_str("&lt;"),
            '>' => out.push_str("&gt;"),
            '"' => out.push_str("&quot;"),
            '\'' => out.push_str("&#39;"),
            _ => out.push(c),
        }
    }
    out
}

/// Text in lines of at most some characters, broken at spaces where there are any.
pub(super) fn wrap(text: &str, most: usize) -> Vec<String> {
    let mut lines = Vec::new();
    let mut rest: Vec<char> = text.chars().collect();
    while rest.len() > most {
        let space = rest[..=most].iter().rposition(|c| *c == ' ');
        let at = space.filter(|at| *at > 0).unwrap_or(most);
        let next = rest.split_off(at);
        lines.push(rest.into_iter().collect());
        rest = next;
        if rest[0] == ' ' {
            rest.remove(0);
        }
    }
    lines.push(rest.into_iter().collect());
    lines
}
