//! Cases drawn by chance.

use super::damage::harm;
use super::drawn_records::{content, joined};
use super::exact;
use crate::bytes::{announced, join, message, record};
use crate::case::Case;
use crate::rng::Rng;
use crate::table::record_type::HANDSHAKE;
use crate::table::{is_sized, kind, longest, of_type, version, MESSAGE, OF_MESSAGES, PLAINTEXT, TYPES};

/// One case; `hellos` are ClientHellos that match exactly.
pub fn draw(rng: &mut Rng, good: &[Case], hellos: &[Vec<u8>]) -> Case {
    match rng.below(13) {
        0..=2 => damaged(rng, good),
        3 => any(rng),
        4 => body(rng),
        5 => hello(rng),
        6 => one_message(rng),
        7 => row(rng),
        8..=9 => content(rng),
        10..=11 => joined(rng),
        _ => exact::draw(rng, hellos),
    }
}

/// A good input with one to three damages; a given length stays or follows.
fn damaged(rng: &mut Rng, good: &[Case]) -> Case {
    let mut case = rng.pick(good).clone();
    for _ in 0..1 + rng.below(3) {
        harm(rng, &mut case.input);
    }
    if case.length.is_some() && rng.below(2) == 0 {
        case.length = Some(longest(case.function).min(case.input.len() as u64));
    }
    case
}

pub fn case(rng: &mut Rng, function: &'static str, input: Vec<u8>) -> Case {
    let near = (input.len() + rng.below(3)).saturating_sub(1);
    let length = is_sized(function).then_some(longest(function).min(near as u64));
    Case { function, length, input }
}

/// Short bytes for any function.
fn any(rng: &mut Rng) -> Case {
    let n = rng.below(13);
    let input = if rng.below(2) == 0 { rng.bytes(n) } else { rng.small_bytes(n) };
    let name = rng.pick(&OF_MESSAGES);
    case(rng, name, input)
}

/// The types whose bodies are drawn as small bytes, some more often.
const DRAWN: [u8; 8] = [
    kind::HelloRetryRequest,
    kind::Certificate,
    kind::Certificate,
    kind::CertificateRequest,
    kind::CertificateRequest,
    kind::CertificateRequest,
    kind::CertificateStatus,
    kind::NextProtocol,
];

/// Small bytes, where lengths often fit, for a body of a type that is opened.
fn body(rng: &mut Rng) -> Case {
    let drawn = *rng.pick(&DRAWN);
    let n = rng.below(24);
    let input = rng.small_bytes(n);
    let name = rng.pick(of_type(drawn));
    case(rng, name, input)
}

/// A hello whose fields are drawn; now and then a length is not that of its part.
fn hello(rng: &mut Rng) -> Case {
    let hello = hello_type(rng);
    let input = hello_body(rng, hello);
    let name = rng.pick(of_type(hello));
    case(rng, name, input)
}

pub fn hello_type(rng: &mut Rng) -> u8 {
    *rng.pick(&[kind::ClientHello, kind::ServerHello])
}

/// Some more often.
const VERSIONS: [u16; 7] = [
    version::TLS12,
    version::TLS12,
    version::TLS11,
    version::TLS10,
    version::SSL30,
    version::TLS13,
    version::DRAFT_18,
];

pub fn hello_body(rng: &mut Rng, hello: u8) -> Vec<u8> {
    let version = *rng.pick(&VERSIONS);
    let head = join(&[&version.to_be_bytes(), &[rng.byte(); 32]]);
    let id = field(rng, 1, 34);
    let middle = match (hello, version) {
        (kind::ClientHello, _) => join(&[&id, &ciphers(rng), &field(rng, 1, 4)]),
        (_, version::DRAFT_18) => rng.bytes(2),
        _ => join(&[&id, &rng.bytes(3)]),
    };
    let block = if rng.below(3) == 0 { Vec::new() } else { field(rng, 2, 8) };
    let n = rng.below(3);
    join(&[&head, &middle, &block, &rng.bytes(n)])
}

/// A length and its bytes; the length is off by one in one of eight.
fn field(rng: &mut Rng, width: usize, limit: usize) -> Vec<u8> {
    let n = if rng.below(3) == 0 { 0 } else { rng.below(limit) };
    let told = match rng.below(16) {
        0 => n + 1,
        1 => n.saturating_sub(1),
        _ => n,
    };
    announced(width, told, &rng.bytes(n))
}

fn ciphers(rng: &mut Rng) -> Vec<u8> {
    if rng.below(8) == 0 {
        return field(rng, 2, 8);
    }
    let n = 2 * rng.below(6);
    announced(2, n, &rng.bytes(n))
}

/// A message of a type that is mostly opened, with a drawn body.
pub fn drawn_message(rng: &mut Rng) -> Vec<u8> {
    let drawn = if rng.below(12) == 0 { rng.byte() } else { *rng.pick(&TYPES) };
    let body = if matches!(drawn, kind::ClientHello | kind::ServerHello) {
        hello_body(rng, drawn)
    } else {
        let n = rng.below(20);
        rng.small_bytes(n)
    };
    message(drawn, &body)
}

fn one_message(rng: &mut Rng) -> Case {
    let mut input = drawn_message(rng);
    if rng.below(3) == 0 {
        harm(rng, &mut input);
    }
    case(rng, MESSAGE, input)
}

/// A record of up to five messages, damaged in one of three.
fn row(rng: &mut Rng) -> Case {
    let messages: Vec<Vec<u8>> = (0..1 + rng.below(5)).map(|_| drawn_message(rng)).collect();
    let mut input = record(HANDSHAKE, &messages.concat());
    if rng.below(3) == 0 {
        harm(rng, &mut input);
    }
    case(rng, PLAINTEXT, input)
}
