//! What tls-parser writes.

mod extensions;

use crate::made::{Client, Draft, Key, Message, Record, Server};
use crate::table::{self, refusal};
use crate::{account, answer::wrote, case::Case, domain};
use cookie_factory::gen_simple;
pub use extensions::{extension, extensions, server_name};
use tls_parser::*;

pub type Written = Result<Vec<u8>, GenError>;

/// 0, how many bytes and each of them; or the number of the refusal alone. Panics outside the
/// domain.
pub fn answer(case: &Case) -> Vec<u64> {
    domain::hold(case);
    let mut numbers = Vec::new();
    wrote(&mut numbers, text(case));
    assert!(numbers.len() < domain::ROOM + 2, "a text of {} bytes", numbers.len() - 2);
    numbers
}

/// The bytes that are written for the value of a case, in the domain or not; or the number of the
/// refusal.
pub fn text(case: &Case) -> Result<Vec<u8>, u64> {
    table::written(case.function, &case.input).map_err(|refused| match refused {
        GenError::NotYetImplemented => refusal::NOT_YET_IMPLEMENTED,
        GenError::CustomError(number) => number.into(),
        other => panic!("a refusal without a number: {other:?}"),
    })
}

pub fn hello<'a>(m: &Client<'a>) -> TlsClientHelloContents<'a> {
    let pairs = m.ciphers.chunks_exact(2);
    let ciphers = pairs.map(|c| TlsCipherSuiteID(u16::from_be_bytes([c[0], c[1]]))).collect();
    let methods = m.methods.iter().map(|n| TlsCompressionID(*n)).collect();
    TlsClientHelloContents::new(m.version, m.random, m.id, ciphers, methods, m.ext)
}

pub fn client(m: &Client) -> Written {
    gen_simple(gen_tls_clienthello(&hello(m)), Vec::new())
}

pub fn server(m: &Server) -> Written {
    let hello = TlsServerHelloContents::new(m.version, m.random, m.id, m.cipher, m.compression, m.ext);
    gen_simple(gen_tls_serverhello(&hello), Vec::new())
}

pub fn draft(m: &Draft) -> Written {
    let hello = TlsServerHelloV13Draft18Contents {
        version: TlsVersion(m.version),
        random: m.random,
        cipher: TlsCipherSuiteID(m.cipher),
        ext: m.ext,
    };
    gen_simple(gen_tls_serverhellodraft18(&hello), Vec::new())
}

pub fn key(m: &Key) -> Written {
    let key = match m {
        Key::Unknown(b) => TlsClientKeyExchangeContents::Unknown(b),
        Key::Dh(b) => TlsClientKeyExchangeContents::Dh(b),
        Key::Ecdh(point) => TlsClientKeyExchangeContents::Ecdh(ECPoint { point }),
    };
    gen_simple(gen_tls_clientkeyexchange(&key), Vec::new())
}

pub fn hello_request(_: &[u8]) -> Written {
    gen_simple(gen_tls_hellorequest(), Vec::new())
}

pub fn finished(m: &[u8]) -> Written {
    gen_simple(gen_tls_finished(m), Vec::new())
}

/// The first message, read and written again.
pub fn again(i: &[u8]) -> Written {
    message(i).expect("a message").1.serialize()
}

pub fn cipher_spec(_: &[u8]) -> Written {
    gen_simple(gen_tls_changecipherspec(), Vec::new())
}

/// A message of any record; of the handshake the first one, read and written again.
pub fn any(m: &Message) -> Written {
    let m = match *m {
        Message::Handshake(i) => TlsMessage::Handshake(message(i).expect("a message").1),
        Message::ChangeCipherSpec => TlsMessage::ChangeCipherSpec,
        Message::Alert { severity, code } => TlsMessage::Alert(TlsMessageAlert {
            severity: TlsAlertSeverity(severity),
            code: TlsAlertDescription(code),
        }),
        Message::ApplicationData(blob) => TlsMessage::ApplicationData(TlsMessageApplicationData { blob }),
        Message::Heartbeat { heartbeat_type, payload } => TlsMessage::Heartbeat(TlsMessageHeartbeat {
            heartbeat_type: TlsHeartbeatMessageType(heartbeat_type),
            payload_len: u16::try_from(payload.len()).expect("a payload of 16 bits"),
            payload,
        }),
    };
    gen_simple(gen_tls_message(&m), Vec::new())
}

/// The first message as both read it, a NewSessionTicket by the account, and what stands behind it.
pub fn message(i: &[u8]) -> Option<(&[u8], TlsMessageHandshake<'_>)> {
    match account::message(i) {
        Ok((rest, TlsMessage::Handshake(m))) => Some((rest, m)),
        _ => None,
    }
}

/// Messages one behind the other, all of which are read.
fn messages(content: &[u8]) -> Option<Vec<TlsMessage<'_>>> {
    let mut all = Vec::new();
    let mut left = content;
    while !left.is_empty() {
        let (rest, one) = message(left)?;
        all.push(TlsMessage::Handshake(one));
        left = rest;
    }
    Some(all)
}

pub fn record(m: &Record) -> Written {
    let (record_type, version) = (TlsRecordType(m.record_type), TlsVersion(m.version));
    let msg = messages(m.content).expect("messages");
    // The length given with a header is not looked at.
    let record = TlsPlaintext { hdr: TlsRecordHeader { record_type, version, len: 0 }, msg };
    gen_simple(gen_tls_plaintext(&record), Vec::new())
}

/// Whether tls-parser, having read the content as messages, writes it again as it is.
pub fn is_written(content: &[u8]) -> bool {
    let Some(all) = messages(content) else { return false };
    let again: Result<Vec<_>, _> = all.iter().map(|m| gen_simple(gen_tls_message(m), Vec::new())).collect();
    again.is_ok_and(|parts| parts.concat() == content)
}
