//! What may be written (RULES 7): the comparison is of this alone, since outside it Norrabist
//! refuses and tls-parser writes a wrong length (`judge truncations`).

use crate::account::extensions_written::Value;
use crate::made::{Client, Draft, Key, Message, Record, Server};
use crate::{case::Case, extension::Name, table, table::limit, write};

/// No input of a case is longer, and no text that is written.
pub const ROOM: usize = 147_456;

/// Panics on a case of a writer that is outside.
pub fn hold(case: &Case) {
    assert!(case.input.len() <= ROOM, "an input of {} bytes", case.input.len());
    assert!(table::is_inside(case.function, &case.input), "not to be written: {}", case.function);
}

fn random(part: &[u8]) -> bool {
    part.len() == limit::RANDOM
}

fn optional(part: Option<&[u8]>, most: usize) -> bool {
    part.is_none_or(|part| part.len() <= most)
}

pub fn client(m: &Client) -> bool {
    let ciphers = m.ciphers.len().is_multiple_of(2) && m.ciphers.len() <= limit::CIPHERS;
    let lists = ciphers && m.methods.len() <= limit::METHODS;
    random(m.random) && optional(m.id, limit::ID) && lists && optional(m.ext, limit::EXTENSIONS)
}

pub fn server(m: &Server) -> bool {
    random(m.random) && optional(m.id, limit::ID) && optional(m.ext, limit::EXTENSIONS)
}

pub fn draft(m: &Draft) -> bool {
    random(m.random) && optional(m.ext, limit::EXTENSIONS)
}

pub fn key(m: &Key) -> bool {
    match m {
        Key::Unknown(b) => b.len() <= limit::BODY,
        Key::Dh(b) => b.len() <= limit::DH,
        Key::Ecdh(b) => b.len() <= limit::POINT,
    }
}

pub fn hello_request(m: &[u8]) -> bool {
    m.is_empty()
}

pub fn finished(m: &[u8]) -> bool {
    m.len() <= limit::BODY
}

/// Of a message that is read and written again.
pub fn again(m: &[u8]) -> bool {
    write::message(m).is_some()
}

pub fn record(m: &Record) -> bool {
    m.content.len() <= limit::RECORD && write::is_written(m.content)
}

pub fn cipher_spec(m: &[u8]) -> bool {
    m.is_empty()
}

/// An alert of any level is asked for: BadLength is an answer to compare.
pub fn any(m: &Message) -> bool {
    match m {
        Message::Handshake(m) => again(m),
        Message::Heartbeat { payload, .. } => u16::try_from(payload.len()).is_ok(),
        _ => true,
    }
}

/// Extensions of any lengths are asked for, likewise.
pub fn extension(_: &Value) -> bool {
    true
}

pub fn extensions(_: &Vec<Value>) -> bool {
    true
}

pub fn server_name(_: &Name) -> bool {
    true
}
