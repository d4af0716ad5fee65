//! Extensions by both ways, as numbers: that of the account and that of tls-parser, which refuses no
//! block and cuts lengths; and the difference that parts them.

use super::extensions::{block, open, split, Entry, Harm, Item, SERVER_NAME};
use super::extensions::{MAX_FRAGMENT_LENGTH, SUPPORTED_GROUPS};
use super::extensions_there as there;
use super::extensions_written::{is_filled, name, one, row, Value};
use super::{By, Class, Way};
use crate::bytes::{counted, join};
use crate::table::refusal::{CANNOT_HOLD, LENGTH_VALUE, NOT_YET_IMPLEMENTED};

/// The most that a length of two bytes says.
const MOST: usize = 0xffff;

impl Way {
    /// The numbers of the answer to a block: `LengthValue` comes with an index.
    pub fn extensions(&mut self, i: &[u8], to: &mut Vec<u64>) {
        self.class = class_of_block(i);
        match (self.by, block(i)) {
            (By::Rules, Ok(items)) => told(to, i.len(), &items),
            (By::Rules, Err(damage)) => to.extend([LENGTH_VALUE, damage.index as u64]),
            (By::TlsParser, _) => {
                let (items, rest) = there::block(i);
                told(to, rest, &items);
            }
        }
    }

    /// The text of one extension.
    pub fn extension_text(&mut self, value: &Value) -> Result<Vec<u8>, u64> {
        self.class = class_of_value(value);
        match self.by {
            By::Rules => one(value).map_err(|unwritten| unwritten.number()),
            By::TlsParser => cut(value),
        }
    }

    /// The text of a row of them.
    pub fn extensions_text(&mut self, values: &[Value]) -> Result<Vec<u8>, u64> {
        self.class = class_of_row(values);
        match self.by {
            By::Rules => row(values).map_err(|unwritten| unwritten.number()),
            By::TlsParser => {
                if !values.iter().all(is_held) {
                    return Err(CANNOT_HOLD);
                }
                let texts = values.iter().map(cut).collect::<Result<Vec<_>, _>>()?;
                Ok(counted(2, &texts.concat()))
            }
        }
    }

    /// The text of an entry of a list of names.
    pub fn name_text(&mut self, of: u8, of_name: &[u8]) -> Result<Vec<u8>, u64> {
        self.class = Some(Class::NameWritten);
        match self.by {
            By::Rules => name(of, of_name).map_err(|unwritten| unwritten.number()),
            By::TlsParser => Ok(join(&[&[of], &counted(2, of_name)])),
        }
    }
}

/// 0, where the rest begins, how many items, and each: type, 1 and what is opened, or 0 and the data.
pub fn told(to: &mut Vec<u64>, rest: usize, items: &[Item]) {
    to.extend([0, rest as u64, items.len() as u64]);
    for item in items {
        match item {
            Item::Names(names) => {
                to.extend([SERVER_NAME.into(), 1, names.len() as u64]);
                to.extend(names.iter().flat_map(|(of, (at, len))| [u64::from(*of), *at as u64, *len as u64]));
            }
            Item::Fragment(value) => to.extend([MAX_FRAGMENT_LENGTH.into(), 1, u64::from(*value)]),
            Item::Groups(groups) => {
                to.extend([SUPPORTED_GROUPS.into(), 1, groups.len() as u64]);
                to.extend(groups.iter().map(|group| u64::from(*group)));
            }
            Item::Raw(of, (at, len)) => to.extend([u64::from(*of), 0, *at as u64, *len as u64]),
        }
    }
}

/// The difference at the first item that is refused, or of which the two make something else.
fn class_of_block(i: &[u8]) -> Option<Class> {
    let (entries, end) = split(i);
    let parted = entries.iter().find_map(|entry| match (open(i, entry), there::open(i, entry)) {
        (Ok(ours), Some(theirs)) if ours == theirs => None,
        (ours, _) => Some(class_of_item(entry, ours)),
    });
    parted.or((end < i.len()).then_some(Class::ExtensionCut))
}

fn class_of_item(entry: &Entry, ours: Result<Item, Harm>) -> Class {
    let of_names = entry.of == SERVER_NAME;
    match ours {
        Ok(_) => Class::OpenedThere,
        Err(Harm::Cut) => Class::ExtensionCut,
        Err(Harm::NoLength) if of_names && entry.data.1 == 0 => Class::EmptyServerName,
        Err(Harm::NoLength | Harm::Unlike) if of_names => Class::NameList,
        Err(Harm::NoLength | Harm::Unlike) => Class::GroupList,
        Err(Harm::Name) => Class::NameLength,
        Err(Harm::Fragment) => Class::FragmentLength,
        Err(Harm::Odd) => Class::OddGroups,
    }
}

/// Whether tls-parser's types can hold a value.
fn is_held(value: &Value) -> bool {
    match value {
        Value::Names(list) => is_filled(list),
        Value::Groups(list) => list.len() % 2 == 0,
        Value::Fragment(_) | Value::Raw(..) => true,
    }
}

/// tls-parser's text of an extension, of each length the last two bytes.
fn cut(value: &Value) -> Result<Vec<u8>, u64> {
    let tagged = |tag: u16, data: &[u8]| join(&[&tag.to_be_bytes(), &counted(2, data)]);
    match *value {
        _ if !is_held(value) => Err(CANNOT_HOLD),
        Value::Names(list) => Ok(tagged(SERVER_NAME, &counted(2, list))),
        Value::Fragment(value) => Ok(tagged(MAX_FRAGMENT_LENGTH, &[value])),
        Value::Groups(list) => Ok(tagged(SUPPORTED_GROUPS, &counted(2, list))),
        Value::Raw(..) => Err(NOT_YET_IMPLEMENTED),
    }
}

/// Why a value is not written, if it is for a length.
fn class_of_value(value: &Value) -> Option<Class> {
    match value {
        Value::Names(list) if !is_filled(list) => Some(Class::NoNamesWritten),
        Value::Groups(list) if list.len() % 2 != 0 => Some(Class::OddGroupsWritten),
        Value::Names(list) | Value::Groups(list) if list.len() > MOST => Some(Class::ListWritten),
        Value::Names(list) | Value::Groups(list) if list.len() + 2 > MOST => Some(Class::ExtensionWritten),
        _ => None,
    }
}

/// The same of a row: first what tls-parser cannot hold, then the lengths from the first on, then
/// that of all.
fn class_of_row(values: &[Value]) -> Option<Class> {
    let unheld = values.iter().find(|value| !is_held(value));
    let first = unheld.and_then(class_of_value).or_else(|| values.iter().find_map(class_of_value));
    first.or(Some(Class::RowWritten))
}
