//! Messages: every type, their lengths, and several of them in one record.

use super::collect::Cases;
use super::good::{short_bodies, short_messages};
use crate::bytes::{announced, hex, join, message, record, run};
use crate::table::record_type::HANDSHAKE;
use crate::table::{kind, limit, MESSAGE, PLAINTEXT, TYPES};

/// Some types that are not opened.
const UNOPENED: [u8; 5] = [0x03, 0x07, 0x08, 0x15, 0xff];

pub fn add(cases: &mut Cases) {
    for of in 0..=0xff {
        cases.add(MESSAGE, &message(of, &[0; 4]));
    }
    for of in TYPES.into_iter().chain(UNOPENED) {
        lengths(cases, of);
    }
    for (of, body) in short_bodies() {
        cases.everywhere(of, &body);
        cases.everywhere(of, &join(&[&body, &[0xee]]));
    }
    rows_of_messages(cases);
    long_rows(cases);
}

/// A message whose length is one less and one more than its bytes, and cut heads.
fn lengths(cases: &mut Cases, of: u8) {
    for n in [0usize, 1, 4] {
        for there in [n.saturating_sub(1), n, n + 1] {
            cases.add(MESSAGE, &join(&[&[of], &announced(3, n, &run(1, there))]));
        }
    }
    for head in [&[][..], &[0, 0], &[1, 0, 0]] {
        cases.add(MESSAGE, &join(&[&[of], head]));
    }
    cases.add(PLAINTEXT, &record(HANDSHAKE, &join(&[&[of], &[0xff; 3]])));
}

/// Whole messages, each refused otherwise.
const REFUSED: [&str; 5] = ["03 000000", "01 000000", "04 000003 000000", "02 000002 0304", "0d 000000"];

/// Two and three messages in a record; the last whole, cut, refused, followed.
fn rows_of_messages(cases: &mut Cases) {
    let all = short_messages();
    for (at, first) in all.iter().enumerate() {
        let second = &all[(at + 1) % all.len()];
        let third = &all[(at + 5) % all.len()];
        cases.add(PLAINTEXT, &record(HANDSHAKE, &join(&[first, second])));
        cases.add(PLAINTEXT, &record(HANDSHAKE, &join(&[first, second, third])));
        cases.add(PLAINTEXT, &record(HANDSHAKE, &join(&[first, &second[..second.len() - 1]])));
        cases.add(PLAINTEXT, &record(HANDSHAKE, &join(&[first, &second[..3]])));
        let refused = hex(REFUSED[at % REFUSED.len()]);
        cases.add(PLAINTEXT, &record(HANDSHAKE, &join(&[first, &refused, second])));
        cases.add(PLAINTEXT, &record(HANDSHAKE, &join(&[&refused, first])));
        let whole = record(HANDSHAKE, first);
        cases.add(PLAINTEXT, &join(&[&whole, &[0x16]]));
        cases.add(PLAINTEXT, &whole[..whole.len() - 1]);
    }
}

/// Records full of the smallest message, with each possible remainder.
fn long_rows(cases: &mut Cases) {
    let most = limit::RECORD;
    let sizes = [4, 5, 6, 7, 8, 400, 16383, 16384, 16385, most - 2, most - 1, most, most + 1];
    for n in sizes {
        cases.add(PLAINTEXT, &record(HANDSHAKE, &run(0, n)));
    }
    for n in [most - 5, most - 4, most - 3] {
        for of in [kind::HelloRequest, kind::ServerDone, 0x09] {
            cases.add(PLAINTEXT, &record(HANDSHAKE, &message(of, &run(0x5a, n))));
        }
    }
    for n in [65535usize, 65536] {
        for of in [kind::HelloRequest, kind::EndOfEarlyData, kind::ServerKeyExchange, kind::Finished, 0x08] {
            let whole = message(of, &run(0x5a, n));
            cases.add(MESSAGE, &whole);
            cases.add(MESSAGE, &whole[..whole.len() - 1]);
        }
    }
}
