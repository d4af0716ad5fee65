//! Extension blocks, from the bytes alone: items of type 2, length 2 and data (RFC 5246 7.4.1.4).
//! Server names and a maximum fragment length (RFC 6066 3 and 4) and supported groups (RFC 8422
//! 5.1.1) are opened, all others stay raw. It shares nothing with the reader that is judged, nor with
//! tls-parser.

/// The types that are opened.
pub const SERVER_NAME: u16 = 0;
pub const MAX_FRAGMENT_LENGTH: u16 = 1;
pub const SUPPORTED_GROUPS: u16 = 10;

/// How many bytes type and length of an item have, how many the length of a list, and how many type
/// and length of a name.
const HEAD: usize = 4;
const LENGTH: usize = 2;
const NAME_HEAD: usize = 3;

/// Where a part begins in the block, and how many bytes it has.
pub type Part = (usize, usize);

/// An item that fits, unopened.
#[derive(Clone, Copy, Debug, PartialEq, Eq)]
pub struct Entry {
    pub of: u16,
    pub data: Part,
}

/// An item that is taken.
#[derive(Clone, Debug, PartialEq, Eq)]
pub enum Item {
    /// Each name with its type.
    Names(Vec<(u8, Part)>),
    Fragment(u8),
    Groups(Vec<u16>),
    Raw(u16, Part),
}

/// What is wrong with an item.
#[derive(Clone, Copy, Debug, PartialEq, Eq)]
pub enum Harm {
    /// Its type, its length or its data is cut.
    Cut,
    /// The length of its list is missing.
    NoLength,
    /// The length of its list is not how many bytes stand behind it.
    Unlike,
    /// Its names do not fill its list: type or length of one is cut, or its length is past the end.
    Name,
    /// Its fragment value has not one byte.
    Fragment,
    /// Its groups have an odd number of bytes.
    Odd,
}

/// The first item of a block that is damaged; it is LengthValue for the whole block.
#[derive(Clone, Copy, Debug, PartialEq, Eq)]
pub struct Damage {
    /// Its place in the row of items, the first being 0.
    pub index: usize,
    pub harm: Harm,
}

/// The number that big-endian bytes say.
fn number(bytes: &[u8]) -> usize {
    bytes.iter().fold(0, |n, byte| n * 256 + usize::from(*byte))
}

/// The same of two bytes.
fn number16(bytes: &[u8]) -> u16 {
    u16::from_be_bytes([bytes[0], bytes[1]])
}

/// The item that begins there, where it fits.
fn entry(i: &[u8], at: usize) -> Option<Entry> {
    let data = at + HEAD;
    let head = i.get(at..data)?;
    let len = number(&head[2..]);
    (len <= i.len() - data).then(|| Entry { of: number16(head), data: (data, len) })
}

/// The items that fit, up to the first that does not, and where they end.
pub fn split(i: &[u8]) -> (Vec<Entry>, usize) {
    let (mut all, mut at) = (Vec::new(), 0);
    while let Some(entry) = entry(i, at) {
        at = entry.data.0 + entry.data.1;
        all.push(entry);
    }
    (all, at)
}

/// What stands behind the length of a list that is all of the data.
fn list(i: &[u8], (at, len): Part) -> Result<Part, Harm> {
    if len < LENGTH {
        return Err(Harm::NoLength);
    }
    let there = len - LENGTH;
    if number(&i[at..at + LENGTH]) != there {
        return Err(Harm::Unlike);
    }
    Ok((at + LENGTH, there))
}

/// The names of a list, up to the first that does not fit, and where they end.
pub fn names(i: &[u8], (at, len): Part) -> (Vec<(u8, Part)>, usize) {
    let (mut all, mut at, end) = (Vec::new(), at, at + len);
    while end - at >= NAME_HEAD {
        let name = at + NAME_HEAD;
        let len = number(&i[at + 1..name]);
        if len > end - name {
            break;
        }
        all.push((i[at], (name, len)));
        at = name + len;
    }
    (all, at)
}

/// Two bytes for each.
pub fn groups(i: &[u8], (at, len): Part) -> Vec<u16> {
    i[at..at + len].chunks_exact(2).map(number16).collect()
}

/// An item opened by its type.
pub fn open(i: &[u8], entry: &Entry) -> Result<Item, Harm> {
    let (at, len) = entry.data;
    match entry.of {
        SERVER_NAME => {
            let list = list(i, entry.data)?;
            let (names, end) = names(i, list);
            if end != list.0 + list.1 {
                return Err(Harm::Name);
            }
            Ok(Item::Names(names))
        }
        MAX_FRAGMENT_LENGTH if len == 1 => Ok(Item::Fragment(i[at])),
        MAX_FRAGMENT_LENGTH => Err(Harm::Fragment),
        SUPPORTED_GROUPS => {
            let list = list(i, entry.data)?;
            if list.1 % 2 != 0 {
                return Err(Harm::Odd);
            }
            Ok(Item::Groups(groups(i, list)))
        }
        of => Ok(Item::Raw(of, entry.data)),
    }
}

/// All items of a block, or the first that is damaged.
pub fn block(i: &[u8]) -> Result<Vec<Item>, Damage> {
    let (entries, end) = split(i);
    let mut items = Vec::new();
    for (index, entry) in entries.iter().enumerate() {
        items.push(open(i, entry).map_err(|harm| Damage { index, harm })?);
    }
    if end != i.len() {
        return Err(Damage { index: entries.len(), harm: Harm::Cut });
    }
    Ok(items)
}
