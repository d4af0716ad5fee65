//! Cases of the writers drawn by chance.

use super::super::chance::{drawn_message, hello_body, hello_type};
use super::super::damage::harm;
use super::messages::is_message;
use super::others::LONG;
use crate::bytes::{message, run};
use crate::case::Case;
use crate::made::{Client, Draft, Key, Message, Record, Server};
use crate::rng::Rng;
use crate::table::record_type::HANDSHAKE;
use crate::table::*;
use crate::write;

/// One case; `good` are messages to be damaged.
pub fn draw(rng: &mut Rng, good: &[Vec<u8>]) -> Case {
    let (function, input) = match rng.below(32) {
        0..=7 => (GEN_CLIENT_HELLO, client(rng)),
        8..=12 => (GEN_SERVER_HELLO, server(rng)),
        13..=15 => (GEN_DRAFT_18, draft(rng)),
        16..=18 => (GEN_CLIENT_KEY, key(rng)),
        19 => (GEN_FINISHED, part(rng, LONG)),
        20..=25 => (GEN_MESSAGE, one_message(rng, good)),
        26 if rng.below(16) == 0 => (GEN_HELLO_REQUEST, Vec::new()),
        26 if rng.below(16) == 0 => (GEN_CIPHER_SPEC, Vec::new()),
        27 => (GEN_ANY, any(rng, good)),
        _ => (GEN_PLAINTEXT, record(rng)),
    };
    Case { function, length: None, input }
}

fn version(rng: &mut Rng) -> u16 {
    let any = rng.number() as u16;
    let named = [version::TLS12, version::TLS12, version::TLS11, version::TLS10, version::SSL30];
    *rng.pick(&[&named[..], &[version::DRAFT_18, any, any]].concat())
}

/// A length from none to the limit: mostly short, at times at the limit.
fn length(rng: &mut Rng, limit: usize) -> usize {
    match rng.below(48) {
        0..=7 => 0,
        8 => limit - rng.below(3).min(limit),
        9 => rng.below(limit + 1),
        10..=12 => rng.below(limit.min(400) + 1),
        _ => rng.below(limit.min(40) + 1),
    }
}

fn part(rng: &mut Rng, limit: usize) -> Vec<u8> {
    let n = length(rng, limit);
    filled(rng, n)
}

/// Bytes of any value, or runs; many bytes are runs with a few others between.
fn filled(rng: &mut Rng, n: usize) -> Vec<u8> {
    let runs = match n {
        0..=40 => rng.below(4) == 0,
        41..=400 => rng.below(2) == 0,
        401..=2000 => rng.below(4) > 0,
        _ => true,
    };
    if !runs {
        return rng.bytes(n);
    }
    let mut out = Vec::new();
    for _ in 0..rng.below(4) {
        let some = rng.below(6);
        out.extend(rng.bytes(some));
        out.extend(run(rng.byte(), rng.below(n + 1)));
    }
    out.truncate(n);
    out.extend(run(rng.byte(), n - out.len()));
    // The last bytes differ too, so that a cut is seen.
    let last = rng.below(4).min(n);
    out.truncate(n - last);
    out.extend(rng.bytes(last));
    out
}

fn optional(rng: &mut Rng, limit: usize) -> Option<Vec<u8>> {
    (rng.below(3) > 0).then(|| part(rng, limit))
}

fn random(rng: &mut Rng) -> Vec<u8> {
    if rng.below(4) == 0 {
        return run(rng.byte(), limit::RANDOM);
    }
    rng.bytes(limit::RANDOM)
}

fn ciphers(rng: &mut Rng) -> Vec<u8> {
    let mut list = part(rng, limit::CIPHERS);
    list.truncate(list.len() / 2 * 2);
    list
}

fn client(rng: &mut Rng) -> Vec<u8> {
    let (random, id, ciphers) = (random(rng), optional(rng, limit::ID), ciphers(rng));
    let (methods, ext) = (part(rng, limit::METHODS), optional(rng, limit::EXTENSIONS));
    let (id, ext) = (id.as_deref(), ext.as_deref());
    Client { version: version(rng), random: &random, id, ciphers: &ciphers, methods: &methods, ext }.bytes()
}

fn server(rng: &mut Rng) -> Vec<u8> {
    let (random, id, ext) = (random(rng), optional(rng, limit::ID), optional(rng, limit::EXTENSIONS));
    let (cipher, compression) = (rng.number() as u16, rng.byte());
    let (id, ext) = (id.as_deref(), ext.as_deref());
    Server { version: version(rng), cipher, compression, random: &random, id, ext }.bytes()
}

fn draft(rng: &mut Rng) -> Vec<u8> {
    let (random, ext) = (random(rng), optional(rng, limit::EXTENSIONS));
    let cipher = rng.number() as u16;
    Draft { version: version(rng), cipher, random: &random, ext: ext.as_deref() }.bytes()
}

fn key(rng: &mut Rng) -> Vec<u8> {
    match rng.below(3) {
        0 => Key::Unknown(&part(rng, LONG)).bytes(),
        1 => Key::Dh(&part(rng, limit::DH)).bytes(),
        _ => Key::Ecdh(&part(rng, limit::POINT)).bytes(),
    }
}

/// A message that is read; one that is refused is drawn again.
fn one_message(rng: &mut Rng, good: &[Vec<u8>]) -> Vec<u8> {
    loop {
        let mut input = match rng.below(4) {
            0 => drawn_message(rng),
            1 => rng.pick(good).clone(),
            _ => {
                let hello = hello_type(rng);
                message(hello, &hello_body(rng, hello))
            }
        };
        if rng.below(3) == 0 {
            harm(rng, &mut input);
        }
        if is_message(&input) {
            return input;
        }
    }
}

/// A message of any record, an alert in one of two.
fn any(rng: &mut Rng, good: &[Vec<u8>]) -> Vec<u8> {
    match rng.below(8) {
        0 => Message::ChangeCipherSpec.bytes(),
        1 => Message::ApplicationData(&part(rng, limit::RECORD)).bytes(),
        2 => {
            let payload = &part(rng, limit::RECORD);
            Message::Heartbeat { heartbeat_type: rng.byte() % 4, payload }.bytes()
        }
        3 => Message::Handshake(&one_message(rng, good)).bytes(),
        _ => {
            let severity = if rng.below(3) == 0 { rng.byte() } else { 1 + rng.byte() % 2 };
            Message::Alert { severity, code: rng.byte() }.bytes()
        }
    }
}

/// A record of any type round up to four written messages; where they are too long
/// together, or one comes back otherwise when read, they are drawn again.
fn record(rng: &mut Rng) -> Vec<u8> {
    let record_type = if rng.below(2) == 0 { HANDSHAKE } else { rng.byte() };
    let version = version(rng);
    loop {
        let content: Vec<u8> = (0..rng.below(5)).flat_map(|_| written(rng)).collect();
        if content.len() <= limit::RECORD && write::is_written(&content) {
            return Record { record_type, version, content: &content }.bytes();
        }
    }
}

fn written(rng: &mut Rng) -> Vec<u8> {
    let written = match rng.below(8) {
        0 => write::client(&Client::read(&client(rng))),
        1 | 2 => write::server(&Server::read(&server(rng))),
        3 => write::draft(&Draft::read(&draft(rng))),
        4 => write::key(&Key::read(&key(rng))),
        5 => write::finished(&part(rng, limit::RECORD - 4)),
        6 => write::finished(&rng.bytes(12)),
        _ => Ok(vec![0; 4]),
    };
    written.expect("a message")
}
