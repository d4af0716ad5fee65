//! Drawn contents of the records that are no handshake records, and drawn rows of records.

use super::chance::{case, drawn_message};
use super::damage::harm;
use crate::bytes::{announced, join, record, run};
use crate::case::Case;
use crate::rng::Rng;
use crate::table::record_type::{ALERT, APPLICATION_DATA, CHANGE_CIPHER_SPEC, HANDSHAKE, HEARTBEAT, OTHERS};
use crate::table::{limit, of_record, MANY, PLAINTEXT, WITH_HEADER};

/// A content for one of the functions that can read it, damaged in one of three.
pub fn content(rng: &mut Rng) -> Case {
    let of = *rng.pick(&OTHERS);
    let mut input = drawn(rng, of);
    let function = match rng.below(5) {
        0 | 1 => of_record(of)[0],
        2 => WITH_HEADER,
        3 => PLAINTEXT,
        _ => MANY,
    };
    if !of_record(of).contains(&function) {
        input = record(of, &input);
    }
    if function == WITH_HEADER && rng.below(4) == 0 {
        let length = [rng.byte() & 3, rng.byte()];
        input[3..5].copy_from_slice(&length);
    }
    if rng.below(3) == 0 {
        harm(rng, &mut input);
    }
    case(rng, function, input)
}

/// A content of that type.
fn drawn(rng: &mut Rng, of: u8) -> Vec<u8> {
    match of {
        CHANGE_CIPHER_SPEC => cipher_specs(rng),
        ALERT => alerts(rng),
        APPLICATION_DATA => data(rng),
        _ => heartbeat(rng),
    }
}

/// A number of messages: mostly few, at times as many as `most`.
fn count(rng: &mut Rng, most: usize) -> usize {
    match rng.below(64) {
        0 => most - rng.below(3),
        1 => rng.below(most + 1),
        2..=5 => rng.below(60),
        _ => rng.below(5),
    }
}

/// Another value is among them in one of three.
fn cipher_specs(rng: &mut Rng) -> Vec<u8> {
    let n = count(rng, limit::RECORD);
    let mut bytes = run(1, n);
    if n > 0 && rng.below(3) == 0 {
        let at = rng.below(n);
        bytes[at] = rng.byte();
    }
    bytes
}

/// No more of them, since a line of the recorded list tells each.
const ALERTS: usize = 400;

/// An unknown level is among them in one of three, half an alert behind them in one of four.
fn alerts(rng: &mut Rng) -> Vec<u8> {
    let n = count(rng, ALERTS);
    let mut bytes: Vec<u8> = (0..n).flat_map(|_| [1 + rng.byte() % 2, rng.byte()]).collect();
    if n > 0 && rng.below(3) == 0 {
        let at = 2 * rng.below(n);
        bytes[at] = *rng.pick(&[0, 3, 0xff, 1]);
    }
    if rng.below(4) == 0 {
        bytes.push(rng.byte() % 4);
    }
    bytes
}

fn data(rng: &mut Rng) -> Vec<u8> {
    let n = count(rng, limit::RECORD);
    if n > 200 {
        return run(rng.byte(), n);
    }
    rng.bytes(n)
}

/// Types, announced lengths and paddings round those that are opened.
fn heartbeat(rng: &mut Rng) -> Vec<u8> {
    let n = count(rng, limit::RECORD - limit::PADDING - 3);
    let payload = if n > 200 { run(rng.byte(), n) } else { rng.bytes(n) };
    let padding = *rng.pick(&[16, 16, 16, 17, 15, 0, 1, 14, 18, 40]);
    let told = match rng.below(12) {
        0 => n + 1,
        1 => n.saturating_sub(1),
        2 => n + padding,
        3 => n + padding + 1,
        4 => rng.below(0x1_0000),
        5 => 0,
        _ => n,
    };
    let of = *rng.pick(&[1, 1, 1, 2, 2, 2, 0, 3, 0xff]);
    let padding = rng.bytes(padding);
    join(&[&[of], &announced(2, told, &payload), &padding])
}

/// One to six records of any type, damaged or cut in one of two; mostly for the reader of many.
pub fn joined(rng: &mut Rng) -> Case {
    let mut input: Vec<u8> = (0..1 + rng.below(6)).flat_map(|_| one(rng)).collect();
    match rng.below(6) {
        0 | 1 => harm(rng, &mut input),
        2 => {
            let n = rng.below(input.len() + 1);
            input.truncate(n);
        }
        _ => {}
    }
    let function = if rng.below(8) == 0 { PLAINTEXT } else { MANY };
    case(rng, function, input)
}

fn one(rng: &mut Rng) -> Vec<u8> {
    match rng.below(12) {
        0..=3 => {
            let messages: Vec<u8> = (0..1 + rng.below(3)).flat_map(|_| drawn_message(rng)).collect();
            record(HANDSHAKE, &messages)
        }
        4 => record(rng.byte(), &[1, 0]),
        5 => record(HEARTBEAT, &heartbeat(rng)),
        _ => {
            let of = *rng.pick(&OTHERS);
            let content = drawn(rng, of);
            record(of, &content)
        }
    }
}
