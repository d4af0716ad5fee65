//! Faults of the readers of records that are no handshake records, and of their messages.
#![allow(clippy::ptr_arg)] // they all have one type

use judge::case::Case;
use judge::table::refusal::{COMPLETE, INCOMPLETE, LENGTH_VALUE, MANY1, SWITCH, VERIFY};
use judge::table::*;

/// Whether it is a plaintext record of that type.
fn is_record(case: &Case, of: u8) -> bool {
    case.function == PLAINTEXT && case.input.first() == Some(&of)
}

pub fn record(case: &Case, to: &mut Vec<u64>) {
    if is_record(case, record_type::ALERT) && to[0] == 0 {
        *to = vec![SWITCH];
    }
}

pub fn cipher_spec(case: &Case, to: &mut Vec<u64>) {
    if case.function == MESSAGE_CIPHER_SPEC && *to == [LENGTH_VALUE] {
        *to = vec![0, 1, other::CHANGE_CIPHER_SPEC.into()];
    }
}

pub fn level(case: &Case, to: &mut Vec<u64>) {
    if case.function == MESSAGE_ALERT && case.input.len() == 1 && *to == [LENGTH_VALUE] {
        *to = vec![INCOMPLETE];
    }
}

/// Kind, level and description stand behind the place of the rest.
pub fn description(case: &Case, to: &mut Vec<u64>) {
    if case.function == MESSAGE_ALERT && to[0] == 0 {
        to.swap(3, 4);
    }
}

pub fn data(case: &Case, to: &mut Vec<u64>) {
    if case.function == MESSAGE_DATA && to[4] > 0 {
        to[4] -= 1;
    }
}

pub fn many1(case: &Case, to: &mut Vec<u64>) {
    if is_record(case, record_type::APPLICATION_DATA) && to[0] == 0 {
        *to = vec![MANY1];
    }
}

/// One that is refused for its padding alone.
pub fn padding(case: &Case, to: &mut Vec<u64>) {
    let [of @ 1..=2, high, low, behind @ ..] = &case.input[..] else { return };
    let payload = u16::from_be_bytes([*high, *low]);
    let is_alone = case.function == MESSAGE_HEARTBEAT && case.length == Some(case.input.len() as u64);
    if is_alone && behind.len() + 1 == usize::from(payload) + limit::PADDING {
        let (n, payload) = (case.input.len() as u64, u64::from(payload));
        *to = vec![0, n, other::HEARTBEAT.into(), u64::from(*of), payload, 3, payload];
    }
}

pub fn before(case: &Case, to: &mut Vec<u64>) {
    if case.function == MESSAGE_HEARTBEAT && to[0] == 0 {
        to[1] = to[5] + to[6];
    }
}

pub fn early(case: &Case, to: &mut Vec<u64>) {
    let known = matches!(case.input.first(), None | Some(1 | 2));
    if case.function == MESSAGE_HEARTBEAT && !known && *to == [INCOMPLETE] {
        *to = vec![LENGTH_VALUE];
    }
}

pub fn header(case: &Case, to: &mut Vec<u64>) {
    let [record_type::HEARTBEAT, _, _, 0, 0..3, ..] = case.input[..] else { return };
    if case.function == WITH_HEADER && to[0] == 0 {
        *to = vec![VERIFY];
    }
}

/// The count stands behind the header; an alert has three numbers.
pub fn last(case: &Case, to: &mut Vec<u64>) {
    if is_record(case, record_type::ALERT) && to[0] == 0 && to[5] >= 2 {
        to[5] -= 1;
        to.truncate(to.len() - 3);
    }
}

pub fn empty(case: &Case, to: &mut Vec<u64>) {
    if is_record(case, record_type::ALERT) && *to == [COMPLETE] {
        *to = vec![INCOMPLETE];
    }
}

pub fn short(case: &Case, to: &mut Vec<u64>) {
    let [_, _, _, 0, 2, _, _, ..] = case.input[..] else { return };
    if is_record(case, record_type::HEARTBEAT) && *to == [INCOMPLETE] {
        *to = vec![COMPLETE];
    }
}

pub fn first(case: &Case, to: &mut Vec<u64>) {
    if case.function == MANY && *to == [COMPLETE] {
        *to = vec![INCOMPLETE];
    }
}

pub fn more(case: &Case, to: &mut Vec<u64>) {
    if case.function == MANY && to[0] == 0 && to[2] >= 2 {
        to[2] += 1;
    }
}

pub fn end(case: &Case, to: &mut Vec<u64>) {
    if case.function == MANY && to[0] == 0 && to[1] == case.input.len() as u64 {
        to[1] -= 1;
    }
}

/// Of tls-parser, where it parts from Norrabist.
pub fn amiss(case: &Case, to: &mut Vec<u64>) {
    if case.function == MESSAGE_CIPHER_SPEC && *to == [VERIFY] {
        *to = vec![SWITCH];
    }
}
