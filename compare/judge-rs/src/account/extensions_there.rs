//! What tls-parser makes of the items of an extension block: it opens 26 types, takes what it finds
//! of a list, and stops at an item that it cannot open.

use super::extensions::{groups, names, split, Entry, Item, Part};
use super::extensions::{MAX_FRAGMENT_LENGTH, SERVER_NAME, SUPPORTED_GROUPS};

/// The types that it opens besides and does not take whatever they hold. It also opens 5, 18, 21, 35,
/// 40, 41, 44 and 51, which it always takes.
const EC_POINT_FORMATS: u16 = 11;
const SIGNATURE_ALGORITHMS: u16 = 13;
const HEARTBEAT: u16 = 15;
const ALPN: u16 = 16;
const ENCRYPT_THEN_MAC: u16 = 22;
const EXTENDED_MASTER_SECRET: u16 = 23;
const RECORD_SIZE_LIMIT: u16 = 28;
const EARLY_DATA: u16 = 42;
const SUPPORTED_VERSIONS: u16 = 43;
const PSK_EXCHANGE_MODES: u16 = 45;
const OID_FILTERS: u16 = 48;
const POST_HANDSHAKE_AUTH: u16 = 49;
const NEXT_PROTOCOL: u16 = 13172;
const RENEGOTIATION_INFO: u16 = 0xff01;
const ENCRYPTED_SERVER_NAME: u16 = 0xffce;

/// The items that it takes, and where those end.
pub fn block(i: &[u8]) -> (Vec<Item>, usize) {
    let (entries, end) = split(i);
    let mut items = Vec::new();
    for entry in &entries {
        match open(i, entry) {
            Some(item) => items.push(item),
            None => return (items, entry.data.0 - 4),
        }
    }
    (items, end)
}

/// An item as it opens it; none where it stops.
pub fn open(i: &[u8], entry: &Entry) -> Option<Item> {
    let (at, len) = entry.data;
    let data = &i[at..at + len];
    match entry.of {
        SERVER_NAME if data.is_empty() => Some(Item::Names(Vec::new())),
        SERVER_NAME => Some(Item::Names(names(i, list(data, at)?).0)),
        MAX_FRAGMENT_LENGTH => Some(Item::Fragment(*data.first()?)),
        SUPPORTED_GROUPS => {
            let list = list(data, at)?;
            (list.1 % 2 == 0).then(|| Item::Groups(groups(i, list)))
        }
        of => takes(of, data).then_some(Item::Raw(of, entry.data)),
    }
}

/// What the length of a list says, where it is there; what stands behind is left aside.
fn list(data: &[u8], at: usize) -> Option<Part> {
    let left = behind(2, data)?;
    Some((at + 2, data.len() - 2 - left.len()))
}

/// What stands behind a length of so many bytes and what it counts.
fn behind(width: usize, data: &[u8]) -> Option<&[u8]> {
    let (length, counted) = data.split_at_checked(width)?;
    counted.get(length.iter().fold(0, |n, byte| n * 256 + usize::from(*byte))..)
}

/// Whether it takes an item that the account leaves raw.
fn takes(of: u16, data: &[u8]) -> bool {
    match of {
        EC_POINT_FORMATS | PSK_EXCHANGE_MODES | RENEGOTIATION_INFO => behind(1, data).is_some(),
        SIGNATURE_ALGORITHMS | ALPN | OID_FILTERS => behind(2, data).is_some(),
        HEARTBEAT => !data.is_empty(),
        ENCRYPT_THEN_MAC | EXTENDED_MASTER_SECRET | POST_HANDSHAKE_AUTH | NEXT_PROTOCOL => data.is_empty(),
        RECORD_SIZE_LIMIT => data.len() >= 2,
        EARLY_DATA => data.is_empty() || data.len() >= 4,
        SUPPORTED_VERSIONS => data.len() == 2 || data.len() % 2 == 1,
        ENCRYPTED_SERVER_NAME => {
            let lists = data.get(4..).and_then(|lists| behind(2, lists));
            lists.and_then(|lists| behind(2, lists)).and_then(|last| behind(2, last)).is_some()
        }
        _ => true,
    }
}
