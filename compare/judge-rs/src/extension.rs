//! Extensions to be written, and the bytes by which a case says them: for each a byte, 1 where it is
//! opened and 0 where it is raw, type 2, length 4 and its bytes.

use crate::account::extensions::{MAX_FRAGMENT_LENGTH, SERVER_NAME, SUPPORTED_GROUPS};
use crate::account::extensions_written::Value;
use crate::bytes::{be, join};

/// A case that says one value.
pub struct One;

/// A case that says a row of values.
pub struct Row;

/// A case that says an entry of a list of names: its type, and the name.
#[derive(Clone, Copy)]
pub struct Name<'a> {
    pub of: u8,
    pub name: &'a [u8],
}

impl One {
    pub fn read(i: &[u8]) -> Value<'_> {
        one(i).expect("a value")
    }
}

impl Row {
    pub fn read(i: &[u8]) -> Vec<Value<'_>> {
        row(i).expect("values")
    }
}

impl<'a> Name<'a> {
    pub fn read(i: &'a [u8]) -> Self {
        let (of, name) = i.split_first().expect("a type");
        Name { of: *of, name }
    }

    pub fn bytes(&self) -> Vec<u8> {
        join(&[&[self.of], self.name])
    }
}

/// The bytes that say a value.
pub fn said(value: &Value) -> Vec<u8> {
    let (opened, of, bytes) = match value {
        Value::Names(list) => (1, SERVER_NAME, *list),
        Value::Fragment(value) => (1, MAX_FRAGMENT_LENGTH, std::slice::from_ref(value)),
        Value::Groups(list) => (1, SUPPORTED_GROUPS, *list),
        Value::Raw(of, data) => (0, *of, *data),
    };
    join(&[&[opened], &of.to_be_bytes(), &be(4, bytes.len()), bytes])
}

/// The bytes that say a row of values.
pub fn said_row(values: &[Value]) -> Vec<u8> {
    values.iter().flat_map(said).collect()
}

/// The value that the bytes say, and what stands behind it.
fn first(i: &[u8]) -> Option<(Value<'_>, &[u8])> {
    let (head, behind) = i.split_at_checked(7)?;
    let of = u16::from_be_bytes([head[1], head[2]]);
    let len = u32::from_be_bytes([head[3], head[4], head[5], head[6]]) as usize;
    let (bytes, rest) = behind.split_at_checked(len)?;
    let value = match (head[0], of, bytes) {
        (0, ..) => Value::Raw(of, bytes),
        (1, SERVER_NAME, _) => Value::Names(bytes),
        (1, MAX_FRAGMENT_LENGTH, [value]) => Value::Fragment(*value),
        (1, SUPPORTED_GROUPS, _) => Value::Groups(bytes),
        _ => return None,
    };
    Some((value, rest))
}

/// The value, where the bytes say one and nothing else.
pub fn one(i: &[u8]) -> Option<Value<'_>> {
    first(i).filter(|(_, rest)| rest.is_empty()).map(|(value, _)| value)
}

/// The values, where the bytes say some and nothing else.
pub fn row(i: &[u8]) -> Option<Vec<Value<'_>>> {
    let (mut all, mut left) = (Vec::new(), i);
    while !left.is_empty() {
        let (value, rest) = first(left)?;
        all.push(value);
        left = rest;
    }
    Some(all)
}
