//! Joined records, one after the other (RULES 6).

use crate::ffi;
use crate::record::{parse_tls_plaintext, TlsPlaintext};
use crate::refusal::{refused, Refusal};
use crate::table::reader;
use crate::views::view;
use crate::Read;
#[cfg(feature = "alloc")]
use alloc::vec::Vec;
use core::iter::FusedIterator;

/// Reads joined records until the first that is refused; the rest begins with that one.
///
/// A record with bytes in no message is opened, and reading goes on behind it. Records that are
/// encrypted are read as plaintext too: [`parse_tls_plaintext`] has the loop that minds them.
///
/// ```
/// use norrabist::{tls_parser_many, TlsMessage};
///
/// // two alerts in two records, and the beginning of a third record
/// let bytes = [0x15, 3, 3, 0, 2, 1, 90, 0x15, 3, 3, 0, 2, 1, 0, 0x16, 3, 3];
/// let (rest, records) = tls_parser_many(&bytes)?;
/// assert_eq!((records.len(), rest), (2, &[0x16, 3, 3][..]));
/// for record in records {
///     for message in &record.msg {
///         let TlsMessage::Alert(alert) = message else { continue };
///         println!("{} {}", alert.severity, alert.code); // "Warning UserCancelled", ..
///     }
/// }
/// # Ok::<(), norrabist::Refusal>(())
/// ```
///
/// # Errors
///
/// As [`parse_tls_plaintext`] refuses the first record, but `Complete` for `Incomplete`.
pub fn tls_parser_many(i: &[u8]) -> Read<'_, TlsRecords<'_>> {
    let told = ffi::many_records(i);
    match i.split_at_checked(told.end) {
        Some((bytes, rest)) if told.count > 0 => Ok((rest, TlsRecords { bytes, count: told.count })),
        _ => Err(refused(reader::MANY, i, 0)),
    }
}

/// Joined records, each of which can be opened, at least one; where tls-parser has a `Vec`.
///
/// A record is opened when it is handed out, and handed out by value.
#[derive(Clone, Copy)]
pub struct TlsRecords<'a> {
    bytes: &'a [u8],
    count: usize,
}

impl<'a> TlsRecords<'a> {
    /// The bytes of the records.
    #[inline]
    pub const fn as_bytes(&self) -> &'a [u8] {
        self.bytes
    }

    /// How many records there are.
    #[inline]
    pub const fn len(&self) -> usize {
        self.count
    }

    /// Whether there is no record: never.
    #[inline]
    pub const fn is_empty(&self) -> bool {
        self.count == 0
    }

    /// The records in their order.
    #[inline]
    pub fn iter(&self) -> Records<'a> {
        Records::new(self.bytes)
    }

    /// The first record.
    #[inline]
    pub fn first(&self) -> Option<TlsPlaintext<'a>> {
        self.iter().next()
    }

    /// The record at that place, counted from 0. The records before it are walked over.
    #[inline]
    pub fn get(&self, place: usize) -> Option<TlsPlaintext<'a>> {
        self.iter().nth(place)
    }

    /// The last record. All records are walked over to find it.
    #[inline]
    pub fn last(&self) -> Option<TlsPlaintext<'a>> {
        self.iter().last()
    }

    /// The records in a `Vec`.
    #[cfg(feature = "alloc")]
    pub fn to_vec(&self) -> Vec<TlsPlaintext<'a>> {
        self.iter().collect()
    }
}

view!(TlsRecords of TlsPlaintext by Records, "records");

/// Hands out joined records until one is refused, each by one call of [`parse_tls_plaintext`].
///
/// Then [`rest`](Self::rest) begins with the refused one, and [`refusal`](Self::refusal) says why.
///
/// ```
/// use norrabist::{Reason, Records};
///
/// // a ChangeCipherSpec, and a record of which three bytes are still to come
/// let bytes = [0x14, 3, 3, 0, 1, 1, 0x15, 3, 3, 0];
/// let mut records = Records::new(&bytes);
/// for record in &mut records {
///     assert_eq!(record.count(), 1);
/// }
/// assert_eq!(records.rest(), &bytes[6..]);
/// assert_eq!(records.refusal().map(|refusal| refusal.reason), Some(Reason::Incomplete));
/// ```
#[derive(Clone)]
pub struct Records<'a> {
    left: &'a [u8],
}

impl<'a> Records<'a> {
    /// The records that these bytes begin with.
    #[inline]
    pub const fn new(bytes: &'a [u8]) -> Self {
        Records { left: bytes }
    }

    /// The bytes behind the record that was handed out last.
    #[inline]
    pub const fn rest(&self) -> &'a [u8] {
        self.left
    }

    /// Why the record at the front of the rest is refused; none where it is not, or where there is
    /// no byte left.
    pub fn refusal(&self) -> Option<Refusal> {
        if self.left.is_empty() {
            return None;
        }
        parse_tls_plaintext(self.left).err()
    }
}

impl<'a> Iterator for Records<'a> {
    type Item = TlsPlaintext<'a>;

    #[inline]
    fn next(&mut self) -> Option<TlsPlaintext<'a>> {
        let (rest, record) = parse_tls_plaintext(self.left).ok()?;
        self.left = rest;
        Some(record)
    }

    #[inline]
    fn count(self) -> usize {
        ffi::many_records(self.left).count
    }
}

impl FusedIterator for Records<'_> {}
