//! Colours of bars. Those of one kind differ in lightness too, for print and for those who see few colours.
use super::super::names::Named;

#[derive(Clone, Copy, Debug, PartialEq, Eq)]
pub(super) struct Colour {
    pub(super) fill: &'static str,
    /// What can be read on it.
    pub(super) ink: &'static str,
}

const fn light(fill: &'static str) -> Colour {
    let ink = "#000";
    Colour { fill, ink }
}

const fn dark(fill: &'static str) -> Colour {
    let ink = "#fff";
    Colour { fill, ink }
}

/// Blue and green.
const OLD: [Colour; 5] = [
    dark("#123f6e"),
    light("#9cc9e8"),
    dark("#2f6b4c"),
    light("#d8ecd8"),
    light("#6f9bcc"),
];

/// Yellow to red.
const NEW: [Colour; 6] = [
    light("#ffd166"),
    dark("#c44d1c"),
    light("#f4933f"),
    dark("#6e1a3c"),
    light("#fbe9b7"),
    light("#d27aa0"),
];

pub(super) const PLANNED: Colour = light("#fff");
pub(super) const DURABLE: Colour = dark("#666");
/// The tables that were there, and the new ones, in a legend.
pub(super) const SAMPLES: [Colour; 2] = [OLD[0], NEW[0]];

/// Stripes for the tables whose colour was used before: dark and light ones, to be seen on every colour.
pub(super) const PATTERNS: &str = "<defs>\
<pattern id=\"up\" width=\"8\" height=\"8\" patternUnits=\"userSpaceOnUse\">\
<path d=\"M-2 10L10 -2\" stroke=\"#000\" stroke-opacity=\"0.6\"/>\
<path d=\"M-2 6L6 -2M2 10L10 2\" stroke=\"#fff\" stroke-opacity=\"0.6\"/></pattern>\
<pattern id=\"down\" width=\"8\" height=\"8\" patternUnits=\"userSpaceOnUse\">\
<path d=\"M-2 -2L10 10\" stroke=\"#000\" stroke-opacity=\"0.6\"/>\
<path d=\"M2 -2L10 6M-2 2L6 10\" stroke=\"#fff\" stroke-opacity=\"0.6\"/></pattern>\
<pattern id=\"level\" width=\"8\" height=\"8\" patternUnits=\"userSpaceOnUse\">\
<path d=\"M0 2H8\" stroke=\"#000\" stroke-opacity=\"0.6\"/>\
<path d=\"M0 6H8\" stroke=\"#fff\" stroke-opacity=\"0.6\"/></pattern></defs>\n";

/// The colour of a table, and the pattern on it if it has one.
pub(super) fn of_table(named: &Named) -> (Colour, Option<&'static str>) {
    let colours: &[Colour] = if named.new { &NEW } else { &OLD };
    let colour = colours[named.turn % colours.len()];
    let patterns = [None, Some("up"), Some("down"), Some("level")];
    (
        colour,
        patterns[named.turn / colours.len() % patterns.len()],
    )
}
