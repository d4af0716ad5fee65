//! A difference, for people.

use crate::norrabist::Norrabist;
use crate::runs::Run;
use judge::case::Case;
use judge::text;

/// The smallest case that differs, and what both say to it.
pub fn smallest<P: Norrabist>(run: &mut Run<P>, case: &Case) -> String {
    let (small, tls_parser, norrabist) = run.smallest(case);
    let length = small.length.map_or("-".into(), |n| n.to_string());
    let input = format!("{} ({} bytes)", text::input(&small.input), small.input.len());
    let rows = [
        ("function", small.function),
        ("length", &length),
        ("input", &input),
        ("tls-parser", &tls_parser),
        ("Norrabist", &norrabist),
    ];
    rows.map(|(name, value)| format!("  {name:<12}{value}")).join("\n")
}
