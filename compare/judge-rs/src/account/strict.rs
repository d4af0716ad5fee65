//! The strict ClientHello (RFC 5246 7.4.1.2), field by field from the bytes of the body. It is an
//! account of its own: each field's place is computed from the lengths before it. It shares nothing
//! with the reader that is judged, nor with tls-parser.

/// A part of the body: where it begins, and how many bytes it has.
pub type Part = (usize, usize);

/// A ClientHello that is taken.
#[derive(Clone, Debug, PartialEq, Eq)]
pub struct Hello {
    pub version: u16,
    pub random: Part,
    /// None for an id of length 0.
    pub session_id: Option<Part>,
    pub ciphers: Vec<u16>,
    pub comp: Vec<u8>,
    /// The block without its length field; None where the block is absent.
    pub ext: Option<Part>,
    /// Where what is left over begins; the body's length in each hello that `strict` takes.
    pub rest: usize,
}

/// Why the plain split does not take a body.
#[derive(Clone, Copy, Debug, PartialEq, Eq)]
pub enum PlainRefused {
    /// A field ends before it is whole.
    Incomplete,
    /// The id length is over 32.
    Verify,
    /// The cipher length is odd or past the end, or the method length is past the end.
    LengthValue,
}

impl PlainRefused {
    /// The number of the refusal.
    pub fn number(&self) -> u64 {
        match self {
            Self::Incomplete => 1,
            Self::Verify => 3,
            Self::LengthValue => 4,
        }
    }
}

/// Why the strict reading does not take a body. The last three are LengthValue, with an offset.
#[derive(Clone, Copy, Debug, PartialEq, Eq)]
pub enum Refused {
    /// The plain split refuses it already.
    Plain(PlainRefused),
    /// The cipher list is empty; the offset is that of its length field.
    NoCiphers(usize),
    /// The method list is empty; the offset is that of its length field.
    NoMethods(usize),
    /// Bytes are left over; the offset is that of the first.
    Tail(usize),
}

impl Refused {
    /// The number of the refusal.
    pub fn number(&self) -> u64 {
        match self {
            Self::Plain(why) => why.number(),
            Self::NoCiphers(_) | Self::NoMethods(_) | Self::Tail(_) => 4,
        }
    }

    /// The offset of a strict refusal; None where the plain split refuses.
    pub fn at(&self) -> Option<usize> {
        match *self {
            Self::Plain(_) => None,
            Self::NoCiphers(at) | Self::NoMethods(at) | Self::Tail(at) => Some(at),
        }
    }
}

/// The random begins after the version's 2 bytes, the id length after the random's 32.
const RANDOM: Part = (2, 32);
const ID_LENGTH: usize = 34;
const ID: usize = 35;

/// The two-byte number at a place, big-endian, if both bytes are there.
fn pair(body: &[u8], at: usize) -> Option<u16> {
    match body.get(at..)? {
        [high, low, ..] => Some(u16::from(*high) * 256 + u16::from(*low)),
        _ => None,
    }
}

/// Whether the whole part is there.
fn there(body: &[u8], (at, len): Part) -> bool {
    body.len().checked_sub(at).is_some_and(|left| len <= left)
}

/// The plain split: the lists may be empty, and what follows the last field is left over.
pub fn plain(body: &[u8]) -> Result<Hello, PlainRefused> {
    use PlainRefused::{Incomplete, LengthValue, Verify};

    let version = pair(body, 0).ok_or(Incomplete)?;
    // The byte of the id length is there only where the whole random is.
    let id = (ID, usize::from(*body.get(ID_LENGTH).ok_or(Incomplete)?));
    if id.1 > 32 {
        return Err(Verify);
    }
    if !there(body, id) {
        return Err(Incomplete);
    }

    let field = id.0 + id.1;
    let list = (field + 2, usize::from(pair(body, field).ok_or(Incomplete)?));
    if list.1 % 2 != 0 || !there(body, list) {
        return Err(LengthValue);
    }
    let ciphers = (0..list.1 / 2).filter_map(|k| pair(body, list.0 + 2 * k)).collect();

    let field = list.0 + list.1;
    let list = (field + 1, usize::from(*body.get(field).ok_or(Incomplete)?));
    if !there(body, list) {
        return Err(LengthValue);
    }
    let comp = body.iter().skip(list.0).take(list.1).copied().collect();

    // A block that is not there whole is absent; its length field and its bytes are left over.
    let field = list.0 + list.1;
    let ext = pair(body, field).map(|len| (field + 2, usize::from(len)));
    let ext = ext.filter(|block| there(body, *block));
    let rest = ext.map_or(field, |(at, len)| at + len);

    let session_id = Some(id).filter(|(_, len)| *len > 0);
    Ok(Hello { version, random: RANDOM, session_id, ciphers, comp, ext, rest })
}

/// The strict reading: the plain split, then an empty cipher list, an empty method list and bytes
/// left over are refused, in this order.
pub fn strict(body: &[u8]) -> Result<Hello, Refused> {
    let hello = plain(body).map_err(Refused::Plain)?;
    let cipher_length = ID + hello.session_id.map_or(0, |(_, len)| len);
    let method_length = cipher_length + 2 + 2 * hello.ciphers.len();
    if hello.ciphers.is_empty() {
        Err(Refused::NoCiphers(cipher_length))
    } else if hello.comp.is_empty() {
        Err(Refused::NoMethods(method_length))
    } else if hello.rest < body.len() {
        Err(Refused::Tail(hello.rest))
    } else {
        Ok(hello)
    }
}
