//! Contents of the records that are no handshake records: each alone, behind a header, in a record
//! and before another record.

use super::collect::Cases;
use crate::bytes::{announced, be, counting, hex, join, record, run};
use crate::table::record_type::{ALERT, APPLICATION_DATA, CHANGE_CIPHER_SPEC, HEARTBEAT};
use crate::table::{limit, MESSAGE_HEARTBEAT, PLAINTEXT, WITH_HEADER};

/// Levels of alerts and types of heartbeats: those that are known, and their neighbours.
const FIRSTS: [u8; 5] = [0, 1, 2, 3, 0xff];

pub fn add(cases: &mut Cases) {
    cipher_specs(cases);
    alerts(cases);
    data(cases);
    heartbeats(cases);
    payloads(cases);
    given_lengths(cases);
}

/// One byte and more, and another value at each of the first places.
fn cipher_specs(cases: &mut Cases) {
    for n in (0..=20).chain([limit::RECORD - 1, limit::RECORD]) {
        cases.content(CHANGE_CIPHER_SPEC, &run(1, n));
    }
    for byte in [0, 2, 3, CHANGE_CIPHER_SPEC, 0xff] {
        for before in [0, 1, 2, 300] {
            cases.content(CHANGE_CIPHER_SPEC, &join(&[&run(1, before), &[byte]]));
        }
        cases.content(CHANGE_CIPHER_SPEC, &[1, byte, 1, 1]);
    }
}

fn alerts(cases: &mut Cases) {
    let row = hex("0100 0228 010a").repeat(4);
    for n in 0..=20 {
        cases.content(ALERT, &row[..n]);
    }
    for level in FIRSTS {
        cases.content(ALERT, &[level]);
        for code in [0, 10, 0x28, 0xff] {
            cases.content(ALERT, &[level, code]);
        }
        for before in [2, 4] {
            cases.content(ALERT, &join(&[&row[..before], &[level]]));
            cases.content(ALERT, &join(&[&row[..before], &[level, 0], &row[..3]]));
        }
    }
    // Every description is opened.
    let all: Vec<u8> = (0..=0xff).flat_map(|code| [1 + code % 2, code]).collect();
    cases.add(PLAINTEXT, &record(ALERT, &all));
    cases.add(PLAINTEXT, &record(ALERT, &join(&[&all, &[3, 0, 1, 0]])));
}

/// All of it, what it looks like or not.
fn data(cases: &mut Cases) {
    for n in 0..=20 {
        cases.content(APPLICATION_DATA, &counting(n));
    }
    for n in [255, 16_384, 16_385, limit::RECORD - 1, limit::RECORD] {
        cases.content(APPLICATION_DATA, &run(0x5a, n));
    }
    for like in ["01000000", "0228", "17 0303 0001 aa", "16 0303 0004 00000000"] {
        cases.content(APPLICATION_DATA, &hex(like));
    }
}

/// A heartbeat whose payload announces so many bytes, and has others.
pub fn heartbeat(of: u8, told: usize, payload: usize, padding: usize) -> Vec<u8> {
    join(&[&[of], &announced(2, told, &counting(payload)), &run(0xee, padding)])
}

fn heartbeats(cases: &mut Cases) {
    for of in FIRSTS {
        let whole = heartbeat(of, 1, 1, limit::PADDING);
        [1, 2, 3, 4].into_iter().for_each(|n| cases.content(HEARTBEAT, &whole[..n]));
        for payload in [0, 1, 5] {
            for padding in [15, 16, 17] {
                cases.content(HEARTBEAT, &heartbeat(of, payload, payload, padding));
            }
        }
    }
    cases.content(HEARTBEAT, &[]);
}

/// Announced lengths round the bytes that are there, and the longest.
fn payloads(cases: &mut Cases) {
    for padding in [0, 1, 15, 16, 17] {
        let there = 4 + padding;
        for told in [0, 1, 3, 4, 5, there - 1, there, there + 1, 0x0100, 0xffff] {
            cases.content(HEARTBEAT, &heartbeat(1, told, 4, padding));
        }
    }
    let most = limit::RECORD - limit::PADDING - 3;
    for (told, padding) in [(most, 16), (most - 1, 17), (most + 1, 15), (most + 16, 0), (most + 17, 0)] {
        let payload = run(0x5a, told.min(limit::RECORD - 3));
        cases.content(HEARTBEAT, &join(&[&[2], &announced(2, told, &payload), &run(0xee, padding)]));
    }
}

/// Lengths that are handed over besides the bytes, by themselves or in a header.
fn given_lengths(cases: &mut Cases) {
    for payload in [0, 2] {
        for padding in [15, 16, 19] {
            let whole = heartbeat(1, payload, payload, padding);
            let n = whole.len();
            for length in [0, 1, 2, 3, 4, 18, 19, 20, n - 1, n, n + 1, 0xffff] {
                cases.add_sized(MESSAGE_HEARTBEAT, length as u64, &whole);
                let header = join(&[&[HEARTBEAT, 3, 3], &be(2, length)]);
                cases.add(WITH_HEADER, &join(&[&header, &whole]));
            }
        }
    }
    for n in 0..3 {
        (0..4).for_each(|length| cases.add_sized(MESSAGE_HEARTBEAT, length, &[1; 2][..n.min(2)]));
    }
    // The length of a header is not looked at, whatever the type.
    for of in [CHANGE_CIPHER_SPEC, ALERT, APPLICATION_DATA, 0x16, 0x19] {
        for length in ["0000", "0001", "ffff"] {
            cases.add(WITH_HEADER, &join(&[&[of, 3, 1], &hex(length), &hex("01000000")]));
        }
    }
}
