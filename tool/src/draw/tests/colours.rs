//! Colours can be told apart by their lightness, and labels can be read on them.
use super::samples::{table, whole};
use super::svg;
use super::{Picture, Scene};
use bilqarush::typed::{Image, Run};

/// The share of light of a colour `#rrggbb`, as WCAG 2 counts it.
fn light(colour: &str) -> f64 {
    let part = |at: usize| {
        let part = u8::from_str_radix(&colour[at..at + 2], 16).unwrap();
        let part = f64::from(part) / 255.0;
        match part <= 0.04045 {
            true => part / 12.92,
            false => ((part + 0.055) / 1.055).powf(2.4),
        }
    };
    0.2126 * part(1) + 0.7152 * part(3) + 0.0722 * part(5)
}

/// The colours of tables as they come, each with the ink of its label.
fn colours(svg: &str) -> Vec<(String, String)> {
    let value = |piece: &str| piece.split('"').next().unwrap().to_string();
    let bars = svg.split("<g><title>table").skip(1);
    let fills = bars.map(|bar| value(bar.split("fill=\"").nth(1).unwrap()));
    let labels = svg.split("<g pointer-events").skip(1);
    let inks = labels.map(|label| value(label.rsplit("fill=\"").next().unwrap()));
    fills.zip(inks).collect()
}

fn of_tables(from: u8, count: u8) -> Image {
    let views = (from..from + count).map(|id| whole(table(u128::from(id), [id], [id])));
    Image::new([Run::new(7, views)])
}

#[test]
fn colours_differ_in_lightness() {
    let (old, new) = (of_tables(65, 5), of_tables(80, 6));
    let scenes = [&old, &new].map(|image| Scene { title: "", image });
    let picture = Picture {
        scenes: scenes.to_vec(),
        job: None,
    };
    let colours = colours(&svg(&picture).unwrap());
    assert_eq!(colours.len(), 11);
    for kind in [&colours[..5], &colours[5..]] {
        let mut lightness: Vec<f64> = kind
            .iter()
            .map(|(fill, _)| 116.0 * light(fill).cbrt() - 16.0)
            .collect();
        lightness.sort_by(f64::total_cmp);
        assert!(
            lightness.windows(2).all(|pair| pair[1] - pair[0] > 6.0),
            "{lightness:?}"
        );
    }
    for (fill, ink) in &colours {
        let ink = if ink == "#fff" { 1.0 } else { 0.0 };
        let (more, less) = (light(fill).max(ink), light(fill).min(ink));
        assert!((more + 0.05) / (less + 0.05) >= 4.5, "{fill}");
    }
}

#[test]
fn a_colour_that_comes_again_has_stripes() {
    let image = of_tables(65, 20);
    let picture = super::of_image(&image);
    let drawn = svg(&picture).unwrap();
    for pattern in ["up", "down", "level"] {
        assert_eq!(drawn.matches(&format!("url(#{pattern})")).count(), 5);
    }
}
