//! What a record holds: the messages of every type of record, by tls-parser's names, and the readers
//! of those that are not handshake messages (RULES 6).

use crate::ffi::{self, cut};
use crate::handshake::TlsMessageHandshake;
use crate::refusal::refused;
use crate::table::{reader, TlsAlertDescription, TlsAlertSeverity, TlsHeartbeatMessageType};
use crate::table::{ALERT_LEN, CHANGE_CIPHER_SPEC_LEN, HEARTBEAT_HEAD_LEN};
use crate::Read;

/// An alert (RULES 6, RFC 5246 7.2).
#[derive(Clone, Copy, Debug, PartialEq, Eq)]
pub struct TlsMessageAlert {
    /// Read, it is [`TlsAlertSeverity::Warning`] or [`TlsAlertSeverity::Fatal`].
    pub severity: TlsAlertSeverity,
    /// Any value.
    pub code: TlsAlertDescription,
}

/// Application data (RULES 6, RFC 5246 10).
#[derive(Clone, Copy, Debug, PartialEq)]
pub struct TlsMessageApplicationData<'a> {
    /// The whole content of the record, which may be empty.
    pub blob: &'a [u8],
}

/// A heartbeat (RULES 6, RFC 6520 4).
#[derive(Clone, Copy, Default, PartialEq)]
pub struct TlsMessageHeartbeat<'a> {
    /// Read, it is a request or a response.
    pub heartbeat_type: TlsHeartbeatMessageType,
    /// How many bytes the payload has.
    pub payload_len: u16,
    /// The payload.
    pub payload: &'a [u8],
    /// What follows the payload up to the end of the record: read, 16 bytes at least. tls-parser has
    /// no such field.
    pub padding: &'a [u8],
}

/// A message of a record, by the type of the record (RULES 6).
#[derive(Clone, Copy, Debug, PartialEq)]
pub enum TlsMessage<'a> {
    /// A handshake message.
    Handshake(TlsMessageHandshake<'a>),
    /// One byte, 1.
    ChangeCipherSpec,
    /// Level and description.
    Alert(TlsMessageAlert),
    /// The whole content.
    ApplicationData(TlsMessageApplicationData<'a>),
    /// The whole content: type, payload and padding.
    Heartbeat(TlsMessageHeartbeat<'a>),
}

impl<'a> From<TlsMessageHandshake<'a>> for TlsMessage<'a> {
    #[inline]
    fn from(message: TlsMessageHandshake<'a>) -> Self {
        TlsMessage::Handshake(message)
    }
}

/// Reads the ChangeCipherSpec at the front: one byte.
///
/// # Errors
///
/// `Incomplete`; `LengthValue`, where the byte is not 1.
#[inline]
pub fn parse_tls_message_changecipherspec(i: &[u8]) -> Read<'_, TlsMessage<'_>> {
    let number = ffi::change_cipher_spec(i);
    match cut(i, [CHANGE_CIPHER_SPEC_LEN]) {
        Some((_, rest)) if number == 0 => Ok((rest, TlsMessage::ChangeCipherSpec)),
        _ => Err(refused(reader::CHANGE_CIPHER_SPEC, i, 0)),
    }
}

/// Reads the alert at the front: level and description, one byte each.
///
/// # Errors
///
/// `Incomplete`; `LengthValue`, where the level is not 1 or 2, be the description there or not.
#[inline]
pub fn parse_tls_message_alert(i: &[u8]) -> Read<'_, TlsMessage<'_>> {
    let told = ffi::alert(i);
    match cut(i, [ALERT_LEN]) {
        Some((_, rest)) if told.number == 0 => Ok((rest, alert(told.severity, told.code))),
        _ => Err(refused(reader::ALERT, i, 0)),
    }
}

/// Takes all of the bytes, also none, as application data.
///
/// # Errors
///
/// None.
#[inline]
pub fn parse_tls_message_applicationdata(i: &[u8]) -> Read<'_, TlsMessage<'_>> {
    let (blob, rest) = i.split_at(i.len());
    Ok((rest, TlsMessage::ApplicationData(TlsMessageApplicationData { blob })))
}

/// Reads the first `tls_plaintext_len` bytes, which are the content of a record, as a heartbeat.
///
/// It gives one message, where tls-parser gives a `Vec` with one. The rest begins behind the
/// padding, where tls-parser's begins before it.
///
/// # Errors
///
/// `Incomplete`, where there are not as many bytes or they are under 3; then `LengthValue`, where
/// the type is not 1 or 2, or the payload leaves under 16 bytes for the padding.
///
/// ```
/// use norrabist::{parse_tls_message_heartbeat, TlsHeartbeatMessageType, TlsMessage};
///
/// let record = [&[1, 0, 2, 0xaa, 0xbb][..], &[0; 16], &[9]].concat();
/// let (rest, message) = parse_tls_message_heartbeat(&record, 21)?;
/// let TlsMessage::Heartbeat(heartbeat) = message else { unreachable!() };
/// assert_eq!(heartbeat.heartbeat_type, TlsHeartbeatMessageType::HeartBeatRequest);
/// assert_eq!((heartbeat.payload_len, heartbeat.payload), (2, &[0xaa, 0xbb][..]));
/// assert_eq!((heartbeat.padding, rest), (&[0; 16][..], &[9][..]));
/// # Ok::<(), norrabist::Refusal>(())
/// ```
#[inline]
pub fn parse_tls_message_heartbeat(i: &[u8], tls_plaintext_len: u16) -> Read<'_, TlsMessage<'_>> {
    let told = ffi::heartbeat(i, tls_plaintext_len);
    let read = match i.split_at_checked(tls_plaintext_len.into()) {
        Some((all, rest)) if told.number == 0 => {
            heartbeat(told.heartbeat_type, told.payload, all).map(|message| (rest, message))
        }
        _ => None,
    };
    read.ok_or_else(|| refused(reader::HEARTBEAT, i, tls_plaintext_len.into()))
}

/// The alert of that level and description.
#[inline(always)]
pub(crate) fn alert(severity: u8, code: u8) -> TlsMessage<'static> {
    TlsMessage::Alert(TlsMessageAlert {
        severity: TlsAlertSeverity(severity),
        code: TlsAlertDescription(code),
    })
}

/// The heartbeat that all of the bytes are; none where its payload does not lie in them.
#[inline(always)]
fn heartbeat(heartbeat_type: u8, payload_len: u16, i: &[u8]) -> Option<TlsMessage<'_>> {
    let ([_, payload], padding) = cut(i, [HEARTBEAT_HEAD_LEN, payload_len.into()])?;
    let heartbeat_type = TlsHeartbeatMessageType(heartbeat_type);
    Some(TlsMessage::Heartbeat(TlsMessageHeartbeat { heartbeat_type, payload_len, payload, padding }))
}

/// The heartbeat that a content is, which was found to be one: type and length stand at its front.
/// The length is decoded here (RULES 6.18), since the proved reader has looked at it when the record
/// was opened, and a further call would do all of that again; that the parts follow is
/// `ContentsBack`.
#[inline(always)]
pub(crate) fn whole_heartbeat(content: &[u8]) -> Option<TlsMessage<'_>> {
    let [heartbeat_type, high, low, ..] = *content else { return None };
    heartbeat(heartbeat_type, u16::from_be_bytes([high, low]), content)
}
