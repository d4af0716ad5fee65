//! Drawn NewSessionTickets: half of them have the right length, most others one next to it.

use super::chance::case;
use super::damage::harm;
use super::tickets::{lengths, HEAD, MOST};
use crate::bytes::{announced, join, message, record, run};
use crate::case::Case;
use crate::rng::Rng;
use crate::table::record_type::{ALERT, HANDSHAKE};
use crate::table::{kind, limit, MANY, MESSAGE, MSG_TICKET, PLAINTEXT, WITH_HEADER};

/// One case; `messages` are good ones of all kinds, to stand beside the tickets.
pub fn draw(rng: &mut Rng, messages: &[Vec<u8>]) -> Case {
    match rng.below(6) {
        0 | 1 => given(rng),
        2 => {
            let mut input = drawn_message(rng, MOST);
            let n = if rng.below(3) == 0 { rng.below(4) } else { 0 };
            input.extend(rng.small_bytes(n));
            harmed(rng, MESSAGE, input)
        }
        3 => {
            let input = record(HANDSHAKE, &row(rng, messages));
            harmed(rng, PLAINTEXT, input)
        }
        4 => {
            let input = record(HANDSHAKE, &row(rng, messages));
            harmed(rng, WITH_HEADER, input)
        }
        _ => {
            let alert = record(ALERT, &[1, 0]);
            let records = (0..1 + rng.below(3)).map(|_| match rng.below(4) {
                0 => alert.clone(),
                _ => record(HANDSHAKE, &row(rng, messages)),
            });
            let input = records.collect::<Vec<_>>().concat();
            harmed(rng, MANY, input)
        }
    }
}

/// Damaged in one of eight.
fn harmed(rng: &mut Rng, function: &'static str, mut input: Vec<u8>) -> Case {
    if rng.below(8) == 0 {
        harm(rng, &mut input);
    }
    case(rng, function, input)
}

/// A body with some bytes behind it, and a given length round it or round all of them.
fn given(rng: &mut Rng) -> Case {
    let body = drawn_body(rng, MOST);
    let n = if rng.below(2) == 0 { rng.below(4) } else { 0 };
    let input = join(&[&body, &rng.small_bytes(n)]);
    let length = match rng.below(12) {
        0 => body.len() + 1,
        1 => body.len().saturating_sub(1),
        2 => input.len() + 1,
        3 => input.len(),
        4 => rng.below(9),
        5 => (rng.number() | 1 << 20) as usize,
        _ => body.len(),
    };
    Case { function: MSG_TICKET, length: Some(length as u64), input }
}

/// One to four messages, one in two a ticket.
fn row(rng: &mut Rng, messages: &[Vec<u8>]) -> Vec<u8> {
    let one = |rng: &mut Rng| match rng.below(2) {
        0 => drawn_message(rng, limit::RECORD - 4 - HEAD),
        _ => rng.pick(messages).clone(),
    };
    (0..1 + rng.below(4)).flat_map(|_| one(rng)).collect()
}

fn drawn_message(rng: &mut Rng, most: usize) -> Vec<u8> {
    message(kind::NewSessionTicket, &drawn_body(rng, most))
}

/// A ticket mostly of a few bytes, at times round `most` of them; the length is right in one of two,
/// and the end cut off before the ticket in one of eight.
fn drawn_body(rng: &mut Rng, most: usize) -> Vec<u8> {
    let n = match rng.below(64) {
        0 => most - 2 + rng.below(5),
        1..=3 => rng.below(600),
        _ => rng.below(7),
    };
    let ticket = if n > 200 { run(rng.byte(), n) } else { rng.small_bytes(n) };
    let told = match rng.below(2) {
        0 => n,
        _ => *rng.pick(&lengths(n)),
    };
    let mut body = join(&[&rng.bytes(4), &announced(2, told, &ticket)]);
    if rng.below(8) == 0 {
        body.truncate(rng.below(7));
    }
    body
}
