//! Records (RULES 6).

use crate::ffi::{self, cut, RecordHeadTold};
use crate::messages::{is_handshake, TlsMessages};
use crate::refusal::refused;
use crate::table::{reader, TlsRecordType, TlsVersion, Told, MESSAGE_HEAD_LEN, RECORD_HEADER_LEN};
use crate::Read;

/// The five bytes before a record's content.
#[derive(Clone, Copy, PartialEq, Eq)]
pub struct TlsRecordHeader {
    /// What the content is.
    pub record_type: TlsRecordType,
    /// The version of the record, which need not be that of the hello in it.
    pub version: TlsVersion,
    /// How many bytes the content has. A writer does not look at it.
    pub len: u16,
}

/// A record whose content is not looked at.
#[derive(Clone, Copy, Debug, PartialEq)]
pub struct TlsRawRecord<'a> {
    /// Type, version and length.
    pub hdr: TlsRecordHeader,
    /// The content.
    pub data: &'a [u8],
}

/// The content of an encrypted record.
#[derive(Clone, Copy, Debug, PartialEq)]
pub struct TlsEncryptedContent<'a> {
    /// The bytes as they are.
    pub blob: &'a [u8],
}

/// An encrypted record.
#[derive(Clone, Copy, Debug, PartialEq)]
pub struct TlsEncrypted<'a> {
    /// Type, version and length.
    pub hdr: TlsRecordHeader,
    /// The content.
    pub msg: TlsEncryptedContent<'a>,
}

/// A record, opened.
#[derive(Clone, Copy, PartialEq)]
pub struct TlsPlaintext<'a> {
    /// Type, version and length.
    pub hdr: TlsRecordHeader,
    /// The messages, at least one.
    pub msg: TlsMessages<'a>,
}

impl TlsPlaintext<'_> {
    /// How many messages there are, by a walk over them.
    pub fn count(&self) -> usize {
        self.msg.len()
    }

    /// How many bytes at the end of the content hold no message that can be opened, by a walk over
    /// those that can.
    pub fn dropped(&self) -> usize {
        self.msg.dropped()
    }
}

/// Reads a record's header; the rest begins with the content.
///
/// # Errors
///
/// `Incomplete`.
#[inline]
pub fn parse_tls_record_header(i: &[u8]) -> Read<'_, TlsRecordHeader> {
    let told = ffi::record_header(i);
    match cut(i, [RECORD_HEADER_LEN]) {
        Some((_, rest)) if told.number == 0 => Ok((rest, header(told))),
        _ => Err(refused(reader::RECORD_HEADER, i, 0)),
    }
}

#[inline(always)]
fn header(told: RecordHeadTold) -> TlsRecordHeader {
    TlsRecordHeader {
        record_type: TlsRecordType(told.record_type),
        version: TlsVersion(told.version),
        len: told.len,
    }
}

/// Reads a record of any type.
///
/// # Errors
///
/// `Incomplete`, `TooLarge`.
#[inline]
pub fn parse_tls_raw_record(i: &[u8]) -> Read<'_, TlsRawRecord<'_>> {
    let told = ffi::raw_record(i);
    match cut(i, [RECORD_HEADER_LEN, told.len.into()]) {
        Some(([_, data], rest)) if told.number == 0 => Ok((rest, TlsRawRecord { hdr: header(told), data })),
        _ => Err(refused(reader::RAW_RECORD, i, 0)),
    }
}

/// Reads a record of any type whose content is encrypted.
///
/// # Errors
///
/// `Incomplete`, `TooLarge`.
#[inline]
pub fn parse_tls_encrypted(i: &[u8]) -> Read<'_, TlsEncrypted<'_>> {
    let (rest, record) = parse_tls_raw_record(i)?;
    Ok((rest, TlsEncrypted { hdr: record.hdr, msg: TlsEncryptedContent { blob: record.data } }))
}

/// Reads a record and its first message. The messages behind it are opened when they are looked at,
/// up to the first that is refused.
///
/// After a [`ChangeCipherSpec`](crate::TlsMessage::ChangeCipherSpec) the handshake messages, alerts
/// and heartbeats of that direction are as a rule encrypted, and no reader can see that from one
/// record: it may begin with bytes that read as messages. A loop over the records of one direction
/// minds it, and takes those behind it with [`parse_tls_encrypted`].
///
/// ```
/// use norrabist::{parse_tls_encrypted, parse_tls_plaintext, TlsMessage, TlsMessageHandshake};
///
/// // what a client sends last: a key exchange, a ChangeCipherSpec, and its Finished, encrypted by
/// // AES-GCM, whose first record begins with eight zero bytes as a rule
/// let key = [0x16, 3, 3, 0, 7, 0x10, 0, 0, 3, 2, 8, 9];
/// let finished = [&[0x16, 3, 3, 0, 40][..], &[0; 8], &[0x5a; 32]].concat();
/// let sent = [&key[..], &[0x14, 3, 3, 0, 1, 1], &finished].concat();
///
/// let (mut left, mut encrypted, mut seen) = (&sent[..], false, Vec::new());
/// while !left.is_empty() {
///     if encrypted {
///         let (rest, record) = parse_tls_encrypted(left)?;
///         seen.push(format!("{} bytes, encrypted", record.msg.blob.len()));
///         left = rest;
///         continue;
///     }
///     let (rest, record) = parse_tls_plaintext(left)?;
///     for message in &record.msg {
///         match message {
///             TlsMessage::ChangeCipherSpec => encrypted = true,
///             TlsMessage::Alert(alert) => seen.push(format!("{} {}", alert.severity, alert.code)),
///             TlsMessage::Handshake(message) => seen.push(message.handshake_type().to_string()),
///             TlsMessage::ApplicationData(_) | TlsMessage::Heartbeat(_) => {}
///         }
///     }
///     left = rest;
/// }
/// assert_eq!(seen, ["ClientKeyExchange", "40 bytes, encrypted"]);
///
/// // read as plaintext, it is two messages that nobody sent, and bytes in no message
/// let (_, misread) = parse_tls_plaintext(&finished)?;
/// assert!(misread.msg.handshakes().eq([TlsMessageHandshake::HelloRequest; 2]));
/// assert_eq!(misread.dropped(), 32);
/// # Ok::<(), norrabist::Refusal>(())
/// ```
///
/// # Errors
///
/// `Incomplete`, `TooLarge`; `Switch`, where the record's type is not listed; `Complete` where the
/// first message is incomplete, but `Incomplete` where that is a heartbeat, else that message's
/// refusal.
#[inline]
pub fn parse_tls_plaintext(i: &[u8]) -> Read<'_, TlsPlaintext<'_>> {
    match opened(i) {
        Some(read) => Ok(read),
        None => Err(refused(reader::PLAINTEXT, i, 0)),
    }
}

/// A record whose first message is told; none where either is refused.
#[inline(always)]
fn opened(i: &[u8]) -> Option<(&[u8], TlsPlaintext<'_>)> {
    let told = ffi::plaintext(i);
    if told.number != 0 {
        return None;
    }
    let ([_, content], rest) = cut(i, [RECORD_HEADER_LEN, told.len.into()])?;
    let record_type = TlsRecordType(told.record_type);
    let hdr = TlsRecordHeader { record_type, version: TlsVersion(told.version), len: told.len };
    let msg = first_opened(record_type, told.msg_type, told.body.into(), content)?;
    Some((rest, TlsPlaintext { hdr, msg }))
}

/// The messages of a content that can be opened, by the type of the record: of handshake messages
/// the first is told by its type and the length of its body; none where that is refused.
#[inline(always)]
fn first_opened(of: TlsRecordType, msg_type: u8, body: u32, content: &[u8]) -> Option<TlsMessages<'_>> {
    if !is_handshake(of) {
        return Some(TlsMessages::of(of, content));
    }
    let ([head, body], _) = cut(content, [MESSAGE_HEAD_LEN, body])?;
    let first = Told::of(msg_type.into(), body)?;
    Some(TlsMessages::opened(content, first, head.len() + body.len()))
}

/// Reads all of the bytes as the content of a record of that header, whose length is not looked at.
/// The rest is what is in no message, found by a walk over the messages.
///
/// # Errors
///
/// `Switch`, where the record's type is not listed; `Complete` where the first message is
/// incomplete, but `Incomplete` where that is a heartbeat, else that message's refusal.
pub fn parse_tls_record_with_header<'i>(i: &'i [u8], hdr: &TlsRecordHeader) -> Read<'i, TlsMessages<'i>> {
    let of = hdr.record_type;
    let told = ffi::record_with_header(of.0, i);
    let opened = match told.number {
        0 => first_opened(of, told.msg_type, told.body, i),
        _ => None,
    };
    let Some(messages) = opened else { return Err(refused(reader::content(of.0), i, 0)) };
    let end = i.len().saturating_sub(messages.dropped());
    Ok((i.get(end..).unwrap_or(&[]), messages))
}
