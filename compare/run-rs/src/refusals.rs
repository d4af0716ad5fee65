//! The refusals by their numbers (RULES 1).

/// A number that is none has no name.
pub const NAMES: [&str; 13] = [
    "accepted",
    "Incomplete",
    "Complete",
    "Verify",
    "LengthValue",
    "Tag",
    "Switch",
    "TooLarge",
    "BadLength",
    "NoRoom",
    "",
    "NoSuch",
    "NotYetImplemented",
];

pub fn told(number: u64) -> String {
    let name = usize::try_from(number).ok().and_then(|k| NAMES.get(k)).filter(|name| !name.is_empty());
    format!("refused with {number}, {}", name.unwrap_or(&"no such number"))
}
