//! Readers of handshake messages (RULES 5) and of their bodies (RULES 3 and 4).
//!
//! The functions of bodies are given a body alone, without type and length, and hand back what they
//! leave over.

use crate::content::TlsMessage;
use crate::ffi::{self, cut};
use crate::handshake::*;
use crate::refusal::refused;
use crate::table::{met, reader, TlsHandshakeType, Told, MESSAGE_HEAD_LEN};
use crate::told::{self, Left, Whole};
use crate::Read;

/// Reads the message at the front: type, length and body.
///
/// # Errors
///
/// `Incomplete`, where type, length or body are not all there; then by the body, or `Switch`.
#[inline]
pub fn parse_tls_message_handshake(i: &[u8]) -> Read<'_, TlsMessage<'_>> {
    match opened(i) {
        Some(read) => Ok(read),
        None => Err(refused(reader::MESSAGE, i, 0)),
    }
}

/// The message at the front; none where it is refused.
#[inline(always)]
fn opened(i: &[u8]) -> Left<'_, TlsMessage<'_>> {
    let head = ffi::message_head(i, 0);
    let ([_, body], rest) = cut(i, [MESSAGE_HEAD_LEN, head.body])?;
    let message = Told::of(met(head.msg_type, head.number), body)?.message(body)?;
    Some((rest, TlsMessage::Handshake(message)))
}

/// What is left over and the value, as told; or why the reader refuses.
macro_rules! read {
    ($read:ident of $i:ident, by $reader:expr) => {{
        let told = ffi::$read($i);
        let value = if told.number == 0 { told::$read(told, $i) } else { None };
        value.ok_or_else(|| refused($reader, $i, $i.len()))
    }};
}

/// The number of a message's reader: the one that is given, or the type of the kind.
macro_rules! number {
    ($kind:ident) => {
        TlsHandshakeType::$kind.0.into()
    };
    ($kind:ident $reader:expr) => {
        $reader
    };
}

/// Readers of bodies, given the bytes alone: of the contents, and of the message that they are.
macro_rules! bodies {
    (
        contents { $(
            $(#[$doc:meta])*
            $name:ident -> $of:ident = $read:ident by $reader:expr;
        )* }
        messages { $(
            $(#[$message_doc:meta])*
            $message_name:ident = $kind:ident of $message_read:ident $(by $message_reader:expr)?;
        )* }
    ) => {
        $(
            $(#[$doc])*
            #[inline]
            pub fn $name(i: &[u8]) -> Read<'_, $of<'_>> {
                read!($read of i, by $reader)
            }
        )*
        $(
            $(#[$message_doc])*
            #[inline]
            pub fn $message_name(i: &[u8]) -> Read<'_, TlsMessageHandshake<'_>> {
                let (left, value) = read!($message_read of i, by number!($kind $($message_reader)?))?;
                Ok((left, TlsMessageHandshake::$kind(value)))
            }
        )*
    };
}

bodies! {
    contents {
        /// Reads the body of a ClientHello.
        ///
        /// # Errors
        ///
        /// `Incomplete`, `Verify`, `LengthValue`.
        parse_tls_handshake_client_hello -> TlsClientHelloContents
            = client_hello by TlsHandshakeType::ClientHello.0.into();
        /// Reads the body of a ClientHello that matches RFC 5246 7.4.1.2 exactly (RULES 3.14): it
        /// offers a cipher and a method, and nothing follows it. tls-parser has no such function.
        ///
        /// What it takes, [`parse_tls_handshake_client_hello`] takes too, with the same value,
        /// whose `tail` is empty.
        ///
        /// # Errors
        ///
        /// `Incomplete`, `Verify`, `LengthValue`, as the plain reader has them; then `LengthValue`,
        /// where there are no ciphers, no methods or a tail. Which of the three is the first is
        /// what [`exactness`](TlsClientHelloContents::exactness) says of the plain reader's value.
        ///
        /// ```
        /// use norrabist::{parse_tls_handshake_client_hello, Exactness, Reason};
        /// use norrabist::parse_tls_handshake_client_hello_strict;
        ///
        /// // a hello that offers a cipher and a method, and half a length of extensions behind it
        /// let mut body = vec![0x03, 0x03];
        /// body.extend([7; 32]);
        /// body.extend([0, 0, 2, 0xc0, 0x2f, 1, 0, 0]);
        ///
        /// let refused = parse_tls_handshake_client_hello_strict(&body);
        /// assert!(refused.is_err_and(|refusal| refusal.reason == Reason::LengthValue));
        /// let (_, hello) = parse_tls_handshake_client_hello(&body)?;
        /// assert_eq!(hello.exactness(), Exactness::HasTail);
        ///
        /// body.pop();
        /// let (rest, hello) = parse_tls_handshake_client_hello_strict(&body)?;
        /// assert!(rest.is_empty() && hello.exactness() == Exactness::Exact);
        /// # Ok::<(), norrabist::Refusal>(())
        /// ```
        parse_tls_handshake_client_hello_strict -> TlsClientHelloContents
            = client_hello_strict by reader::CLIENT_HELLO_STRICT;
        /// Reads the body of a ServerHello, but not of draft 18.
        ///
        /// # Errors
        ///
        /// `Incomplete`, `Tag`, `Verify`.
        parse_tls_handshake_server_hello -> TlsServerHelloContents
            = server_hello by reader::SERVER_HELLO;
        /// Reads the body of a CertificateRequest: the long form, or else the short one.
        ///
        /// # Errors
        ///
        /// `Complete`.
        parse_tls_handshake_certificaterequest -> TlsCertificateRequestContents
            = certificate_request by TlsHandshakeType::CertificateRequest.0.into();
        /// Reads the body of a CertificateStatus.
        ///
        /// # Errors
        ///
        /// `Incomplete`.
        parse_tls_handshake_certificatestatus -> TlsCertificateStatusContents
            = certificate_status by TlsHandshakeType::CertificateStatus.0.into();
        /// Reads the body of a NextProtocol.
        ///
        /// # Errors
        ///
        /// `Incomplete`.
        parse_tls_handshake_next_protocol -> TlsNextProtocolContent
            = next_protocol by TlsHandshakeType::NextProtocol.0.into();
    }
    messages {
        /// Reads the body of a ClientHello, as [`parse_tls_handshake_client_hello`] does.
        ///
        /// # Errors
        ///
        /// `Incomplete`, `Verify`, `LengthValue`.
        parse_tls_handshake_msg_client_hello = ClientHello of client_hello;
        /// Reads the body of a ClientHello that matches exactly, as
        /// [`parse_tls_handshake_client_hello_strict`] does.
        ///
        /// # Errors
        ///
        /// `Incomplete`, `Verify`, `LengthValue`.
        parse_tls_handshake_msg_client_hello_strict
            = ClientHello of client_hello_strict by reader::CLIENT_HELLO_STRICT;
        /// Reads the body of a HelloRetryRequest.
        ///
        /// # Errors
        ///
        /// `Incomplete`.
        parse_tls_handshake_msg_hello_retry_request = HelloRetryRequest of hello_retry_request;
        /// Reads the body of a Certificate.
        ///
        /// # Errors
        ///
        /// `Incomplete`.
        parse_tls_handshake_msg_certificate = Certificate of certificate;
        /// Reads the body of a CertificateRequest, as [`parse_tls_handshake_certificaterequest`]
        /// does.
        ///
        /// # Errors
        ///
        /// `Complete`.
        parse_tls_handshake_msg_certificaterequest = CertificateRequest of certificate_request;
        /// Reads the body of a CertificateStatus, as [`parse_tls_handshake_certificatestatus`]
        /// does.
        ///
        /// # Errors
        ///
        /// `Incomplete`.
        parse_tls_handshake_msg_certificatestatus = CertificateStatus of certificate_status;
        /// Reads the body of a NextProtocol, as [`parse_tls_handshake_next_protocol`] does.
        ///
        /// # Errors
        ///
        /// `Incomplete`.
        parse_tls_handshake_msg_next_protocol = NextProtocol of next_protocol;
        /// Reads the body of a KeyUpdate: one byte.
        ///
        /// # Errors
        ///
        /// `Incomplete`.
        parse_tls_handshake_msg_key_update = KeyUpdate of key_update;
    }
}

/// Reads the body of a ServerHello, that of draft 18 too.
///
/// # Errors
///
/// `Incomplete`, `Tag`, `Verify`.
#[inline]
pub fn parse_tls_handshake_msg_server_hello(i: &[u8]) -> Read<'_, TlsMessageHandshake<'_>> {
    read!(server_message of i, by TlsHandshakeType::ServerHello.0.into())
}

/// Takes the body of a HelloRequest: any bytes, none of which are taken.
///
/// # Errors
///
/// None.
#[inline]
pub fn parse_tls_handshake_msg_hello_request(i: &[u8]) -> Read<'_, TlsMessageHandshake<'_>> {
    Ok((i, TlsMessageHandshake::HelloRequest))
}

/// Reads the body of a NewSessionTicket, `len` bytes long.
///
/// # Errors
///
/// `Verify`, where `len` is below 4; `Incomplete`; `LengthValue`, where the ticket's length is missing
/// from these bytes or unlike the bytes after it. What stands behind `len` bytes is not looked at.
#[inline]
pub fn parse_tls_handshake_msg_newsessionticket(i: &[u8], len: usize) -> Read<'_, TlsMessageHandshake<'_>> {
    let told = ffi::sized_ticket(i, len);
    match told::new_session_ticket(told, i) {
        Some((left, ticket)) if told.number == 0 => Ok((left, TlsMessageHandshake::NewSessionTicket(ticket))),
        _ => Err(refused(TlsHandshakeType::NewSessionTicket.0.into(), i, len)),
    }
}

/// Readers that take a body whole, by its length.
macro_rules! whole_bodies {
    ($($(#[$doc:meta])* $name:ident = $kind:ident;)*) => {$(
        $(#[$doc])*
        ///
        /// # Errors
        ///
        /// `Incomplete`.
        #[inline]
        pub fn $name(i: &[u8], len: usize) -> Read<'_, TlsMessageHandshake<'_>> {
            let number = ffi::take_body(i, len);
            match i.split_at_checked(len) {
                Some((body, left)) if number == 0 => Ok((left, TlsMessageHandshake::$kind(Whole::whole(body)))),
                _ => Err(refused(TlsHandshakeType::$kind.0.into(), i, len)),
            }
        }
    )*};
}

whole_bodies! {
    /// Takes the body of a ServerKeyExchange, `len` bytes.
    parse_tls_handshake_msg_serverkeyexchange = ServerKeyExchange;
    /// Takes the body of a ServerDone, `len` bytes.
    parse_tls_handshake_msg_serverdone = ServerDone;
    /// Takes the body of a CertificateVerify, `len` bytes.
    parse_tls_handshake_msg_certificateverify = CertificateVerify;
    /// Takes the body of a ClientKeyExchange, `len` bytes: always `Unknown`.
    parse_tls_handshake_msg_clientkeyexchange = ClientKeyExchange;
    /// Takes the body of a Finished, `len` bytes.
    parse_tls_handshake_msg_finished = Finished;
}
