//! An input as its numbers and parts, so that one can be changed and all lengths follow.

use judge::bytes::{be, join};
use judge::case::Case;
use judge::table::*;

#[derive(Clone)]
pub struct Parts {
    /// The bytes before the lengths.
    pub numbers: Vec<u8>,
    pub parts: Vec<Part>,
    form: Form,
}

/// How an input says its parts.
#[derive(Clone, Copy)]
enum Form {
    /// It has one, without a length.
    One,
    /// Their lengths first, then all of them.
    Lengths,
    /// Each behind three bytes of its own and its length.
    Values,
}

#[derive(Clone)]
pub struct Part {
    /// What stands before its length.
    head: Vec<u8>,
    pub bytes: Vec<u8>,
    pub optional: bool,
    pub there: bool,
}

/// How many bytes of numbers an input has, and which of its parts are optional; no
/// parts where it is one without a length.
fn layout(function: &str) -> (usize, &'static [bool]) {
    match function {
        GEN_CLIENT_HELLO => (2, &[false, true, false, false, true]),
        GEN_SERVER_HELLO => (5, &[false, true, true]),
        GEN_DRAFT_18 => (4, &[false, true]),
        GEN_CLIENT_KEY => (1, &[]),
        GEN_PLAINTEXT => (3, &[]),
        GEN_ANY | GEN_SERVER_NAME => (1, &[]),
        _ => (0, &[]),
    }
}

impl Parts {
    pub fn split(case: &Case) -> Parts {
        let (width, optionals) = layout(case.function);
        let (numbers, rest) = case.input.split_at(width.min(case.input.len()));
        let (parts, form) = match (case.function, optionals) {
            (GEN_EXTENSION, _) => (values(rest, false), Form::Values),
            (GEN_EXTENSIONS, _) => (values(rest, true), Form::Values),
            (_, []) => (vec![Part::new(&[], rest, false, true)], Form::One),
            _ => (lengths(rest, optionals), Form::Lengths),
        };
        Parts { numbers: numbers.to_vec(), parts, form }
    }

    pub fn input(&self) -> Vec<u8> {
        let mut out = self.numbers.clone();
        match self.form {
            Form::One => {}
            Form::Lengths => self.parts.iter().for_each(|part| {
                out.extend(part.optional.then_some(u8::from(part.there)));
                out.extend(be(4, part.bytes.len()));
            }),
            Form::Values => {
                let values = self.parts.iter().filter(|part| part.there);
                let said = values.map(|part| join(&[&part.head, &be(4, part.bytes.len()), &part.bytes]));
                return said.collect::<Vec<_>>().concat();
            }
        }
        self.parts.iter().for_each(|part| out.extend(&part.bytes));
        out
    }
}

impl Part {
    fn new(head: &[u8], bytes: &[u8], optional: bool, there: bool) -> Part {
        Part { head: head.to_vec(), bytes: bytes.to_vec(), optional, there }
    }
}

/// The values of extensions, all of which can be left out if one can.
fn values(mut rest: &[u8], optional: bool) -> Vec<Part> {
    let mut parts = Vec::new();
    while let Some((head, behind)) = rest.split_at_checked(7) {
        let n = head[3..].iter().fold(0, |n, b| n << 8 | usize::from(*b));
        let (bytes, next) = behind.split_at(n);
        parts.push(Part::new(&head[..3], bytes, optional, true));
        rest = next;
    }
    parts
}

/// The parts behind their lengths, which stand behind each other.
fn lengths(rest: &[u8], optionals: &[bool]) -> Vec<Part> {
    let heads: usize = optionals.iter().map(|optional| 4 + usize::from(*optional)).sum();
    let (mut heads, mut bytes) = rest.split_at(heads);
    let mut parts = Vec::new();
    for optional in optionals.iter().copied() {
        let (head, next) = heads.split_at(4 + usize::from(optional));
        let n = head[head.len() - 4..].iter().fold(0, |n, b| n << 8 | usize::from(*b));
        let (part, behind) = bytes.split_at(n);
        parts.push(Part::new(&[], part, optional, !optional || head[0] == 1));
        (heads, bytes) = (next, behind);
    }
    parts
}
