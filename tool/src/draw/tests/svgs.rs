//! SVG pictures: well formed, the same each time, and with bars over the columns of their keys.
use super::random::{bound_keys, random_image, shows};
use super::samples::{before, committed, half_way, table, whole, Random};
use super::{of_image, svg, with_job};
use bilqarush::typed::{Image, Run, View};

/// Each tag is closed in its turn, and `&` only begins a name that XML has.
fn well_formed(svg: &str) {
    let mut open = Vec::new();
    for piece in svg.split('<').skip(1) {
        let (tag, words) = piece.split_once('>').unwrap();
        assert!(!words.contains('>'), "{piece}");
        let name = tag.split([' ', '/']).find(|name| !name.is_empty()).unwrap();
        match (tag.starts_with('/'), tag.ends_with('/')) {
            (true, _) => assert_eq!(open.pop(), Some(name)),
            (false, false) => open.push(name),
            (false, true) => {}
        }
    }
    assert!(open.is_empty());
    let names = ["amp;", "lt;", "gt;", "quot;", "#39;"];
    let fit = |rest: &str| names.iter().any(|name| rest.starts_with(name));
    assert!(svg.split('&').skip(1).all(fit));
}

fn number(text: &str, name: &str) -> usize {
    let (_, rest) = text.split_once(&format!("{name}=\"")).unwrap();
    rest.split('"').next().unwrap().parse().unwrap()
}

/// The edges of the keys' columns.
fn columns(svg: &str) -> Vec<(usize, usize)> {
    let lines = svg.lines().filter(|line| line.contains("fill=\"#e4e7eb\""));
    lines
        .map(|line| {
            (
                number(line, " x"),
                number(line, " x") + number(line, "width"),
            )
        })
        .collect()
}

/// The words of each bar, and its edges.
fn bars(svg: &str) -> Vec<(&str, usize, usize)> {
    let bars = svg.split("<g><title>table ").skip(1).map(|rest| {
        let (title, rest) = rest.split_once("</title>\n<path d=\"").unwrap();
        let path = rest.split('"').next().unwrap();
        let signs = |c: char| !c.is_ascii_digit();
        let from = path[1..].split(signs).next().unwrap().parse().unwrap();
        // After H come the right edge or, before a point, where that begins.
        let to = path
            .split('H')
            .nth(1)
            .unwrap()
            .split(signs)
            .next()
            .unwrap()
            .parse()
            .unwrap();
        (title, from, to)
    });
    bars.collect()
}

/// The tables whose bars fill the column of each key are those of the views that show it.
fn agree(svg: &str, image: &Image) {
    let mut keys = bound_keys(image);
    keys.sort();
    keys.dedup();
    let (columns, bars) = (columns(svg), bars(svg));
    assert_eq!(columns.len(), keys.len());
    let views = |run: &Run| {
        run.views
            .iter()
            .map(|view| (run.id, view.clone()))
            .collect::<Vec<_>>()
    };
    let views: Vec<(u32, View)> = image.runs.iter().flat_map(views).collect();
    assert_eq!(bars.len(), views.len());
    for (key, (left, right)) in keys.iter().zip(columns) {
        for (run, view) in &views {
            let (id, of_run) = (view.table.id.to_string(), format!(" in run {run}"));
            let mut own = bars
                .iter()
                .filter(|bar| bar.0.starts_with(&id) && bar.0.ends_with(&of_run));
            let (_, from, to) = own.next().unwrap();
            let fills = *from <= left + 1 && right - 1 <= *to;
            let touches = *from < right && left < *to;
            assert_eq!(fills, shows(view, key), "{key:?} {id}");
            assert_eq!(fills, touches, "{key:?} {id}");
        }
    }
}

#[test]
fn bars_fill_the_columns_of_their_keys() {
    let mut random = Random(2718281828459045);
    for _ in 0..1_000 {
        let image = random_image(&mut random, 10);
        let svg = svg(&of_image(&image)).unwrap();
        well_formed(&svg);
        agree(&svg, &image);
    }
}

#[test]
fn the_demo_as_svg() {
    let (image, job) = (before(), half_way());
    let after = committed(&image, &job).unwrap();
    let picture = with_job(&[("before & <after>", &image), ("after", &after)], &job);
    let drawn = svg(&picture).unwrap();
    assert_eq!(svg(&picture).unwrap(), drawn);
    well_formed(&drawn);
    let about = "Tables over keys. before &amp; &lt;after&gt;. after. job: runs 7, 9 into run 7";
    let start = format!("<svg xmlns=\"http://www.w3.org/2000/svg\" role=\"img\" aria-label=\"{about}\" width=\"960\"");
    assert!(drawn.starts_with(&start), "{drawn}");
    for words in [
        ">last written: h</text>",
        ">last written: p, not yet durable</text>",
        "<title>table 00000000000000000000000000000012: [f h) in run 7</title>",
        "<title>table 00000000000000000000000000000001: [h m) in run 7</title>",
        "<title>table 00000000000000000000000000000012: [f h] written by part 0</title>",
        "stroke-dasharray",
    ] {
        assert!(drawn.contains(words), "{words}");
    }
    for other in ["script", "http:", "https:", "url(h", "@import", "href"] {
        let found = drawn.matches(other).count();
        assert_eq!(found, usize::from(other == "http:"), "{other}");
    }
}

/// The dashed lines run through the columns of h and p, in both scenes and in the job.
#[test]
fn the_last_written_keys_have_lines() {
    let (image, job) = (before(), half_way());
    let after = committed(&image, &job).unwrap();
    let drawn = svg(&with_job(&[("before", &image), ("after", &after)], &job)).unwrap();
    let lines = drawn
        .lines()
        .filter(|line| line.contains("stroke-dasharray"));
    let at: Vec<usize> = lines
        .map(|line| {
            line["<path d=\"M".len()..]
                .split(' ')
                .next()
                .unwrap()
                .parse()
                .unwrap()
        })
        .collect();
    let (h, p) = (columns(&drawn)[4], columns(&drawn)[6]);
    let middle = |column: (usize, usize)| (column.0 + column.1) / 2;
    assert_eq!(at, [middle(p), middle(h)].repeat(3));
}

/// What the job wrote is yellow to red, in every scene.
#[test]
fn new_tables_have_colours_of_their_own() {
    let (image, job) = (before(), half_way());
    let after = committed(&image, &job).unwrap();
    let drawn = svg(&with_job(&[("before", &image), ("after", &after)], &job)).unwrap();
    for (table, fill) in [
        ("01: ", "#123f6e"),
        ("02: ", "#9cc9e8"),
        ("11: ", "#ffd166"),
    ] {
        let bars: Vec<&str> = drawn.split("<g><title>table ").skip(1).collect();
        let own = bars.iter().filter(|bar| bar[30..].starts_with(table));
        let fills: Vec<bool> = own
            .map(|bar| bar.split("fill=").nth(1).unwrap().contains(fill))
            .collect();
        assert!(
            !fills.is_empty() && fills.iter().all(|same| *same),
            "{table}"
        );
    }
}

#[test]
fn long_keys_are_cut_only_below() {
    let (a, b) = ("a".repeat(1024), "b".repeat(1024));
    let image = Image::new([Run::new(7, [whole(table(1, &a, &b))])]);
    let drawn = svg(&of_image(&image)).unwrap();
    well_formed(&drawn);
    assert!(drawn.contains(&format!("<title>key {a}</title>")));
    assert!(drawn.contains(&format!("[{a} {b}] in run 7</title>")));
    assert!(drawn.contains("aaaa ... aaaa"));
}
