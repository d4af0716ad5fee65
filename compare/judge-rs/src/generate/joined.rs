//! Records joined to a row, of all types.

use super::collect::Cases;
use super::contents::heartbeat;
use crate::bytes::{hex, join, record, run};
use crate::table::record_type::{ALERT, APPLICATION_DATA, CHANGE_CIPHER_SPEC, HANDSHAKE, HEARTBEAT};
use crate::table::{limit, MANY};

/// Records that are opened, with bytes that are dropped and without, and some that are refused.
pub fn pieces() -> Vec<Vec<u8>> {
    let refused =
        ["16 0303 0004 03000000", "14 0303 0001 00", "15 0303 0002 0300", "19 0303 0000", "15 0303"];
    let opened = [
        record(HANDSHAKE, &[0; 4]),
        record(HANDSHAKE, &hex("0e000000 ff")),
        record(CHANGE_CIPHER_SPEC, &[1]),
        record(CHANGE_CIPHER_SPEC, &[1, 1, 2]),
        record(ALERT, &[2, 0x28]),
        record(ALERT, &[1, 0, 2]),
        record(APPLICATION_DATA, &[]),
        record(APPLICATION_DATA, &[0xaa, 0xbb]),
        record(HEARTBEAT, &heartbeat(1, 2, 2, 16)),
        record(HEARTBEAT, &heartbeat(2, 2, 2, 15)),
    ];
    opened.into_iter().chain(refused.map(hex)).collect()
}

/// Each two, and some rows of three; a row is cut at each place, and records are many.
pub fn add(cases: &mut Cases) {
    let all = pieces();
    for (at, first) in all.iter().enumerate() {
        cases.add(MANY, first);
        for second in &all {
            cases.add(MANY, &join(&[first, second]));
        }
        let (second, third) = (&all[(at + 3) % 9], &all[(at + 7) % 11]);
        cases.add(MANY, &join(&[second, first, third]));
        cases.add(MANY, &join(&[second, third, first, second]));
    }
    let row = [&all[0], &all[2], &all[4], &all[8], &all[7]].map(|piece| &piece[..]).concat();
    (0..row.len()).for_each(|n| cases.add(MANY, &row[..n]));
    cases.add(MANY, &all[2].repeat(40));
    cases.add(MANY, &join(&[&all[0].repeat(20), &all[9], &all[0]]));
    for n in [limit::RECORD, limit::RECORD + 1] {
        cases.add(MANY, &join(&[&all[4], &record(CHANGE_CIPHER_SPEC, &run(1, n)), &all[4]]));
        cases.add(MANY, &join(&[&record(APPLICATION_DATA, &run(1, n)), &all[4]]));
    }
}
