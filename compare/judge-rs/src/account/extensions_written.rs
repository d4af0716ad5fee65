//! Extensions to be written, from the values alone: tag, length, the length of the list where there
//! is one, and the list; a row of them behind a length of its own. It shares nothing with the writer
//! that is judged, nor with tls-parser.

use super::extensions::{block, names, split, Damage, Item};
use super::extensions::{MAX_FRAGMENT_LENGTH, SERVER_NAME, SUPPORTED_GROUPS};

/// A value to be written.
#[derive(Clone, Copy, Debug, PartialEq, Eq)]
pub enum Value<'a> {
    /// Names one behind the other: type 1, length 2, name.
    Names(&'a [u8]),
    Fragment(u8),
    /// Two bytes for each.
    Groups(&'a [u8]),
    Raw(u16, &'a [u8]),
}

/// Why a value is not written.
#[derive(Clone, Copy, Debug, PartialEq, Eq)]
pub enum Unwritten {
    /// It is raw, or stands in a row with one that is.
    NotYet,
    /// It has a length that does not fit, or its bytes are no names or no groups.
    BadLength,
}

impl Unwritten {
    /// The number of the refusal: NotYetImplemented, BadLength.
    pub fn number(self) -> u64 {
        match self {
            Self::NotYet => 12,
            Self::BadLength => 8,
        }
    }
}

/// The bytes that are written, or why none is.
pub type Text = Result<Vec<u8>, Unwritten>;

/// Whether names fill the bytes.
pub fn is_filled(list: &[u8]) -> bool {
    names(list, (0, list.len())).1 == list.len()
}

/// A length of two bytes, and the bytes.
fn counted(bytes: &[u8]) -> Text {
    let length = u16::try_from(bytes.len()).map_err(|_| Unwritten::BadLength)?;
    Ok([&length.to_be_bytes()[..], bytes].concat())
}

fn tagged(tag: u16, data: &[u8]) -> Text {
    Ok([&tag.to_be_bytes()[..], &counted(data)?].concat())
}

/// One entry of a list of names.
pub fn name(of: u8, name: &[u8]) -> Text {
    Ok([&[of], &counted(name)?[..]].concat())
}

/// One extension by itself.
pub fn one(value: &Value) -> Text {
    match *value {
        Value::Raw(..) => Err(Unwritten::NotYet),
        Value::Names(list) if is_filled(list) => tagged(SERVER_NAME, &counted(list)?),
        Value::Groups(list) if list.len() % 2 == 0 => tagged(SUPPORTED_GROUPS, &counted(list)?),
        Value::Names(_) | Value::Groups(_) => Err(Unwritten::BadLength),
        Value::Fragment(value) => tagged(MAX_FRAGMENT_LENGTH, &[value]),
    }
}

/// A row of them behind its length; a raw one anywhere comes before every length.
pub fn row(values: &[Value]) -> Text {
    if values.iter().any(|value| matches!(value, Value::Raw(..))) {
        return Err(Unwritten::NotYet);
    }
    let texts = values.iter().map(one).collect::<Result<Vec<_>, _>>()?;
    counted(&texts.concat())
}

/// The values that the items of a block are written as; each list is all behind its length.
pub fn values(i: &[u8]) -> Result<Vec<Value<'_>>, Damage> {
    let values = block(i)?.into_iter().zip(split(i).0).map(|(item, entry)| {
        let data = &i[entry.data.0..entry.data.0 + entry.data.1];
        match item {
            Item::Names(_) => Value::Names(&data[2..]),
            Item::Fragment(value) => Value::Fragment(value),
            Item::Groups(_) => Value::Groups(&data[2..]),
            Item::Raw(of, _) => Value::Raw(of, data),
        }
    });
    Ok(values.collect())
}
