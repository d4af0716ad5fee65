//! That docs/DIFFERENCES.md has what the program takes as listed.

use crate::listed::ALL;

const DIFFERENCES: &str = include_str!("../../../docs/DIFFERENCES.md");

/// The first difference that it has not, by heading and item.
pub fn missing() -> Option<String> {
    ALL.into_iter().map(|listed| listed.place()).find_map(|(heading, item)| {
        let there = section(heading).is_some_and(|text| text.contains(&item.to_lowercase()));
        (!there).then(|| format!("docs/DIFFERENCES.md, \"{heading}\", does not list: {item}"))
    })
}

/// The text under a heading in small letters, with one blank between words.
fn section(heading: &str) -> Option<String> {
    let sections = DIFFERENCES.split("\n## ");
    let text = sections.into_iter().find_map(|section| section.strip_prefix(heading)?.strip_prefix('\n'))?;
    Some(text.to_lowercase().split_whitespace().collect::<Vec<_>>().join(" "))
}
