//! The rows that were measured, as Markdown.
use crate::clock::{Clock, Side};

/// A case that was timed, in nanoseconds a call.
pub struct Row {
    pub call: &'static str,
    pub shape: String,
    pub size: Option<usize>,
    counts: String,
    bytes: usize,
    ours: f64,
    rust: f64,
    copy: f64,
    more: Vec<f64>,
    aims: Vec<Aim>,
}

/// Ours divided by the further side at a place, as a column.
pub struct Quotient {
    pub name: &'static str,
    pub side: usize,
}

/// Ours divided by the further side at a place is to be at most so much.
#[derive(Clone, Copy, PartialEq)]
pub struct Aim {
    pub what: &'static str,
    pub side: usize,
    pub most: f64,
}

impl Row {
    pub fn ratio(&self) -> f64 {
        self.ours / self.rust
    }

    pub fn with_aims(mut self, aims: Vec<Aim>) -> Row {
        self.aims = aims;
        self
    }

    /// Ours divided by a further side.
    fn divided(&self, side: usize) -> f64 {
        self.ours / self.more[side]
    }

    /// The lesser of the times of the same case in two passes.
    pub fn or_less(mut self, again: Row) -> Row {
        self.ours = self.ours.min(again.ours);
        self.rust = self.rust.min(again.rust);
        self.copy = self.copy.min(again.copy);
        for (time, again) in self.more.iter_mut().zip(again.more) {
            *time = time.min(again);
        }
        self
    }

    fn case(&self) -> String {
        case_name(&self.shape, &self.counts)
    }

    fn ours_a_byte(&self) -> f64 {
        self.ours / self.bytes as f64
    }

    fn rust_a_byte(&self) -> f64 {
        self.rust / self.bytes as f64
    }
}

fn case_name(shape: &str, counts: &str) -> String {
    if counts.is_empty() {
        shape.into()
    } else {
        format!("{shape}: {counts}")
    }
}

/// A case to time. Its sides are ours, the Rust's, the copy of the bytes, and what else its
/// table has.
pub struct Case<'a> {
    pub call: &'static str,
    pub shape: String,
    /// The size that the image was made for.
    pub size: Option<usize>,
    pub counts: String,
    /// Of the image, or of all that is read where there is none.
    pub bytes: usize,
    /// Calls in a round.
    pub calls: usize,
    pub sides: Vec<Side<'a>>,
}

impl Case<'_> {
    /// None if the case is not wanted.
    pub fn timed(mut self, clock: &Clock) -> Option<Row> {
        let name = format!("{}: {}", self.call, case_name(&self.shape, &self.counts));
        if !name.contains(&clock.wanted) {
            return None;
        }
        let least = clock.least(&mut self.sides);
        let a_call = |place: usize| least[place] / self.calls as f64;
        let row = Row {
            call: self.call,
            shape: self.shape,
            size: self.size,
            counts: self.counts,
            bytes: self.bytes,
            ours: a_call(0),
            rust: a_call(1),
            copy: a_call(2),
            more: (3..least.len()).map(a_call).collect(),
            aims: Vec::new(),
        };
        eprintln!("{:.2} {name}", row.ratio());
        Some(row)
    }
}

fn ns(time: f64) -> String {
    if time < 100.0 {
        format!("{time:.1}")
    } else {
        format!("{time:.0}")
    }
}

/// The first two sides and their quotient.
const SIDES: [&str; 3] = ["ours", "Rust", "ours / Rust"];

/// `more` names the further sides.
pub fn print(title: &str, more: &[&str], rows: &[Row]) {
    print_all(title, SIDES, more, &[], rows);
}

/// The first two sides and their quotient have these names.
pub fn print_sides(title: &str, names: [&str; 3], rows: &[Row]) {
    print_all(title, names, &[], &[], rows);
}

/// Beside the further sides, ours divided by some of them.
pub fn print_divided(title: &str, more: &[&str], quotients: &[Quotient], rows: &[Row]) {
    print_all(title, SIDES, more, quotients, rows);
}

fn print_all(title: &str, names: [&str; 3], more: &[&str], quotients: &[Quotient], rows: &[Row]) {
    println!("\n## {title}\n");
    let [first, second, quotient] = names;
    let columns = ["call", "case", "bytes", first, second, quotient, "copy"];
    let last: Vec<&str> = quotients.iter().map(|quotient| quotient.name).collect();
    let columns = [&columns[..], more, &last].concat();
    println!("| {} |", columns.join(" | "));
    println!("|---|---|{}", "--:|".repeat(columns.len() - 2));
    for row in rows {
        let mut cells = vec![
            format!("`{}`", row.call),
            row.case(),
            row.bytes.to_string(),
            ns(row.ours),
            ns(row.rust),
            format!("{:.2}", row.ratio()),
            ns(row.copy),
        ];
        cells
            .extend((0..more.len()).map(|place| row.more.get(place).map_or("".into(), |t| ns(*t))));
        let divided = |quotient: &Quotient| format!("{:.2}", row.divided(quotient.side));
        cells.extend(quotients.iter().map(divided));
        println!("| {} |", cells.join(" | "));
    }
}

/// Nanoseconds for each byte of the image, a line for each shape.
pub fn print_by_size(rows: &[Row], sizes: &[usize]) {
    println!("\n## For each byte of the image\n");
    let head: Vec<String> = sizes
        .iter()
        .map(|size| format!("{} KiB", size / 1_024))
        .collect();
    let (ours, rust) = (head.join(" | ours, "), head.join(" | Rust, "));
    println!("| call | case | ours, {ours} | Rust, {rust} | last / middle, ours |");
    println!("|---|---|{}", "--:|".repeat(2 * sizes.len() + 1));
    let mut shapes: Vec<(&str, &str)> = Vec::new();
    for row in rows {
        if !shapes.contains(&(row.call, &row.shape)) {
            shapes.push((row.call, &row.shape));
        }
    }
    for (call, shape) in shapes {
        let of_size = |size: &usize| {
            rows.iter()
                .find(|row| (row.call, row.shape.as_str(), row.size) == (call, shape, Some(*size)))
        };
        let found: Vec<Option<&Row>> = sizes.iter().map(of_size).collect();
        let cells = |time: fn(&Row) -> f64| -> String {
            let cell =
                |row: &Option<&Row>| row.map_or("".into(), |row| format!("{:.3}", time(row)));
            found.iter().map(cell).collect::<Vec<_>>().join(" | ")
        };
        let growth = match found[..] {
            [.., Some(middle), Some(last)] => {
                format!("{:.2}", last.ours_a_byte() / middle.ours_a_byte())
            }
            _ => "".into(),
        };
        let (ours, rust) = (cells(Row::ours_a_byte), cells(Row::rust_a_byte));
        println!("| `{call}` | {shape} | {ours} | {rust} | {growth} |");
    }
}

/// How many cases miss each aim, and which, the worst first.
pub fn print_aims(aims: &[Aim], rows: &[Row]) {
    println!("\n### Aims");
    for aim in aims {
        let with_aim = rows.iter().filter(|row| row.aims.contains(aim));
        let mut cases: Vec<(f64, &Row)> =
            with_aim.map(|row| (row.divided(aim.side), row)).collect();
        let all = cases.len();
        cases.retain(|(quotient, _)| *quotient > aim.most);
        cases.sort_by(|a, b| b.0.total_cmp(&a.0));
        let (most, what, missed) = (aim.most, aim.what, cases.len());
        println!("\nAt most {most} {what}: {missed} of {all} cases miss it.");
        if missed > 0 {
            println!();
        }
        for (quotient, row) in cases {
            println!("- {quotient:.2} `{}`, {}", row.call, row.case());
        }
    }
}

/// The cases in which ours takes longer, the worst first.
pub fn print_above(rows: &[Row]) {
    let mut above: Vec<&Row> = rows.iter().filter(|row| row.ratio() > 1.0).collect();
    above.sort_by(|a, b| b.ratio().total_cmp(&a.ratio()));
    println!("\n## Above 1.0: {} of {}\n", above.len(), rows.len());
    for row in above {
        println!("- {:.2} `{}`, {}", row.ratio(), row.call, row.case());
    }
}
