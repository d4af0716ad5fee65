//! Norrabist's readers with nom's results: [`IResult`], as tls-parser has them. A parser that is
//! built of nom's combinators, or that looks for `Err(nom::Err::Incomplete(_))`, goes on to work.
//!
//! All else is [`norrabist`]'s, by the same names.
//!
//! ```
//! use norrabist_nom::nom::{combinator::complete, multi::many0, Err};
//! use norrabist_nom::parse_tls_raw_record;
//!
//! let bytes = [0x16, 3, 1, 0, 1, 0xaa, 0x16, 3, 1, 0, 9];
//! let (rest, records) = many0(complete(parse_tls_raw_record))(&bytes[..]).unwrap();
//! assert_eq!((records.len(), rest.len()), (1, 5));
//! assert!(matches!(parse_tls_raw_record(rest), Err(Err::Incomplete(_))));
//! ```
//!
//! An error has its kind and the input of the call, and no more. Of a damaged extension block this
//! input is the whole block, and [`norrabist::parse_tls_extensions`] says of it which extension is
//! the first bad one.
//!
//! ```
//! use norrabist_nom::nom::{error::ErrorKind, Err};
//! use norrabist_nom::{norrabist, parse_tls_extensions};
//!
//! // an extended_master_secret, and a server_name without data
//! let block = [0, 23, 0, 0, 0, 0, 0, 0];
//! let Err(Err::Error(error)) = parse_tls_extensions(&block) else { panic!("no damage") };
//! assert_eq!((error.code, error.input), (ErrorKind::LengthValue, &block[..]));
//! let damage = norrabist::parse_tls_extensions(error.input).unwrap_err();
//! assert_eq!(damage.index, 1);
//! ```
//!
//! It is a crate of its own and no feature of `norrabist`, since cargo looks for a dependency that
//! is optional too: who builds `norrabist` needs no nom.

#![no_std]
#![forbid(unsafe_code)]
#![deny(missing_docs)]

#[cfg(feature = "alloc")]
extern crate alloc;

pub use nom;
pub use nom::{Err, IResult};
pub use norrabist;
pub use norrabist::*;

#[cfg(feature = "alloc")]
use alloc::vec::Vec;
use nom::error::{Error, ErrorKind};
use nom::Needed;

/// What nom has for a refusal of `i`.
///
/// `Incomplete` does not say how many bytes are missing. An error has the whole input of the call,
/// where tls-parser has the place in it. What no reader answers is `ErrorKind::Fail`.
pub fn error(i: &[u8], refusal: Refusal) -> Err<Error<&[u8]>> {
    let code = match refusal.name() {
        "Incomplete" => return Err::Incomplete(Needed::Unknown),
        "Complete" => ErrorKind::Complete,
        "Verify" => ErrorKind::Verify,
        "LengthValue" => ErrorKind::LengthValue,
        "Tag" => ErrorKind::Tag,
        "Switch" => ErrorKind::Switch,
        "TooLarge" => ErrorKind::TooLarge,
        _ => ErrorKind::Fail,
    };
    Err::Error(Error::new(i, code))
}

/// A reader with nom's result.
macro_rules! readers {
    ($($(#[$doc:meta])* $name:ident($($len:ident: $number:ident)?) -> $value:ident;)*) => {$(
        #[doc = concat!("[`norrabist::", stringify!($name), "`] with nom's result.")]
        #[inline]
        pub fn $name(i: &[u8] $(, $len: $number)?) -> IResult<&[u8], readers!(@ $value)> {
            norrabist::$name(i $(, $len)?).map_err(|refusal| error(i, refusal))
        }
    )*};
    (@ TlsRecordHeader) => { TlsRecordHeader };
    (@ $value:ident) => { $value<'_> };
}

readers! {
    parse_tls_record_header() -> TlsRecordHeader;
    parse_tls_raw_record() -> TlsRawRecord;
    parse_tls_encrypted() -> TlsEncrypted;
    parse_tls_plaintext() -> TlsPlaintext;
    parse_tls_message_handshake() -> TlsMessage;
    parse_tls_message_changecipherspec() -> TlsMessage;
    parse_tls_message_alert() -> TlsMessage;
    parse_tls_message_applicationdata() -> TlsMessage;
    parse_tls_message_heartbeat(tls_plaintext_len: u16) -> TlsMessage;
    parse_tls_handshake_client_hello() -> TlsClientHelloContents;
    parse_tls_handshake_client_hello_strict() -> TlsClientHelloContents;
    parse_tls_handshake_server_hello() -> TlsServerHelloContents;
    parse_tls_handshake_certificaterequest() -> TlsCertificateRequestContents;
    parse_tls_handshake_certificatestatus() -> TlsCertificateStatusContents;
    parse_tls_handshake_next_protocol() -> TlsNextProtocolContent;
    parse_tls_handshake_msg_hello_request() -> TlsMessageHandshake;
    parse_tls_handshake_msg_client_hello() -> TlsMessageHandshake;
    parse_tls_handshake_msg_client_hello_strict() -> TlsMessageHandshake;
    parse_tls_handshake_msg_server_hello() -> TlsMessageHandshake;
    parse_tls_handshake_msg_hello_retry_request() -> TlsMessageHandshake;
    parse_tls_handshake_msg_certificate() -> TlsMessageHandshake;
    parse_tls_handshake_msg_certificaterequest() -> TlsMessageHandshake;
    parse_tls_handshake_msg_certificatestatus() -> TlsMessageHandshake;
    parse_tls_handshake_msg_next_protocol() -> TlsMessageHandshake;
    parse_tls_handshake_msg_key_update() -> TlsMessageHandshake;
    parse_tls_handshake_msg_newsessionticket(len: usize) -> TlsMessageHandshake;
    parse_tls_handshake_msg_serverkeyexchange(len: usize) -> TlsMessageHandshake;
    parse_tls_handshake_msg_serverdone(len: usize) -> TlsMessageHandshake;
    parse_tls_handshake_msg_certificateverify(len: usize) -> TlsMessageHandshake;
    parse_tls_handshake_msg_clientkeyexchange(len: usize) -> TlsMessageHandshake;
    parse_tls_handshake_msg_finished(len: usize) -> TlsMessageHandshake;
}

/// The messages of a record's content, until one cannot be read; at least one. What is left over is
/// the rest.
///
/// [`norrabist::parse_tls_record_with_header`] with nom's result, in a `Vec`.
#[cfg(feature = "alloc")]
pub fn parse_tls_record_with_header<'i>(
    i: &'i [u8],
    hdr: &TlsRecordHeader,
) -> IResult<&'i [u8], Vec<TlsMessage<'i>>> {
    let read = norrabist::parse_tls_record_with_header(i, hdr);
    read.map(|(rest, messages)| (rest, messages.to_vec())).map_err(|refusal| error(i, refusal))
}

/// Records, until one cannot be read; at least one. What is left over is the rest.
///
/// [`norrabist::tls_parser_many`] with nom's result, in a `Vec`.
#[cfg(feature = "alloc")]
pub fn tls_parser_many(i: &[u8]) -> IResult<&[u8], Vec<TlsPlaintext<'_>>> {
    let read = norrabist::tls_parser_many(i);
    read.map(|(rest, records)| (rest, records.to_vec())).map_err(|refusal| error(i, refusal))
}

/// All extensions of a block, or `ErrorKind::LengthValue` where it is damaged. tls-parser's never
/// refuses, and has what it cannot read as the rest.
///
/// [`norrabist::parse_tls_extensions`] with nom's result, in a `Vec`. The index of the damage is
/// told by that one alone.
#[cfg(feature = "alloc")]
pub fn parse_tls_extensions(i: &[u8]) -> IResult<&[u8], Vec<TlsExtension<'_>>> {
    let read = norrabist::parse_tls_extensions(i);
    read.map(|(rest, extensions)| (rest, extensions.to_vec())).map_err(|damage| error(i, damage.refusal))
}

/// [`norrabist::parse_tls_record_with_header`] with nom's result. With `alloc` it gives a `Vec`.
#[cfg(not(feature = "alloc"))]
pub fn parse_tls_record_with_header<'i>(
    i: &'i [u8],
    hdr: &TlsRecordHeader,
) -> IResult<&'i [u8], TlsMessages<'i>> {
    norrabist::parse_tls_record_with_header(i, hdr).map_err(|refusal| error(i, refusal))
}

/// [`norrabist::tls_parser_many`] with nom's result. With `alloc` it gives a `Vec`.
#[cfg(not(feature = "alloc"))]
pub fn tls_parser_many(i: &[u8]) -> IResult<&[u8], TlsRecords<'_>> {
    norrabist::tls_parser_many(i).map_err(|refusal| error(i, refusal))
}

/// [`norrabist::parse_tls_extensions`] with nom's result. With `alloc` it gives a `Vec`.
#[cfg(not(feature = "alloc"))]
pub fn parse_tls_extensions(i: &[u8]) -> IResult<&[u8], TlsExtensions<'_>> {
    norrabist::parse_tls_extensions(i).map_err(|damage| error(i, damage.refusal))
}
