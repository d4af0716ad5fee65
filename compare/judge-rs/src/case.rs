//! A case: a function, its length argument if it takes one, and its input.

use crate::{table, text};
use std::fmt;
use std::str::FromStr;

#[derive(Clone, PartialEq, Eq, Hash)]
pub struct Case {
    pub function: &'static str,
    pub length: Option<u64>,
    pub input: Vec<u8>,
}

impl fmt::Display for Case {
    fn fmt(&self, f: &mut fmt::Formatter) -> fmt::Result {
        let length = self.length.map_or("-".into(), |n| n.to_string());
        write!(f, "{} {length} {}", self.function, text::input(&self.input))
    }
}

impl FromStr for Case {
    type Err = String;

    /// Reads a line; an answer behind ` = ` is left aside.
    fn from_str(line: &str) -> Result<Self, String> {
        let case = line.split(" = ").next().unwrap_or(line);
        let mut words = case.split(' ');
        let name = words.next().unwrap_or("");
        let function = table::known(name).ok_or(format!("no function {name}"))?;
        let length = match words.next() {
            Some("-") => None,
            word => Some(word.and_then(|w| w.parse().ok()).ok_or("no length")?),
        };
        if length.is_some() != table::is_sized(function) {
            return Err("a length where none goes, or none".into());
        }
        if length > Some(table::longest(function)) {
            return Err("a length that is too large".into());
        }
        Ok(Case { function, length, input: text::read_input(words)? })
    }
}
