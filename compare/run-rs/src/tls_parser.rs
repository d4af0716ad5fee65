//! What tls-parser writes.

use crate::guard::{caught, last_panic};
use crate::{cut, refusals};
use judge::case::Case;
use judge::table::refusal::CANNOT_HOLD;
use judge::{answer::wrote as wrote_numbers, text, write};

#[derive(Default)]
pub enum Answer {
    Wrote(Vec<u8>),
    /// The number of the refusal.
    Refused(u64),
    /// Its types cannot hold the value.
    #[default]
    CannotHold,
    /// A panic, or a text that is not the listed one.
    Amiss(String),
}

/// For a value that may be written.
pub fn asked(case: &Case) -> Answer {
    match caught(|| write::text(case)) {
        Some(Ok(text)) => Answer::Wrote(text),
        Some(Err(CANNOT_HOLD)) => Answer::CannotHold,
        Some(Err(number)) => Answer::Refused(number),
        None => Answer::Amiss(format!("a panic: {}", last_panic())),
    }
}

/// For one that may not: it writes lengths that are cut, as the list says.
pub fn asked_outside(case: &Case) -> Answer {
    let Some(listed) = cut::written(case) else { return Answer::CannotHold };
    match asked(case) {
        Answer::Wrote(text) if text != listed => {
            Answer::Amiss(format!("{}, which is not as listed", wrote(&text)))
        }
        Answer::Refused(number) => Answer::Amiss(refusals::told(number)),
        as_listed => as_listed,
    }
}

fn wrote(bytes: &[u8]) -> String {
    format!("wrote {} bytes: {}", bytes.len(), text::input(bytes))
}

impl Answer {
    /// Its numbers; none where it is amiss.
    pub fn numbers(&self) -> Option<Vec<u64>> {
        let mut numbers = Vec::new();
        match self {
            Answer::Wrote(text) => wrote_numbers(&mut numbers, Ok(text.clone())),
            Answer::Refused(number) => wrote_numbers(&mut numbers, Err(*number)),
            Answer::CannotHold => wrote_numbers(&mut numbers, Err(CANNOT_HOLD)),
            Answer::Amiss(_) => return None,
        }
        Some(numbers)
    }

    pub fn told(&self) -> String {
        match self {
            Answer::Wrote(text) => wrote(text),
            Answer::Refused(number) => refusals::told(*number),
            Answer::CannotHold => "cannot hold the value".into(),
            Answer::Amiss(what) => what.clone(),
        }
    }
}
