//! The messages of one part to be written: the key exchange, Finished, and the hello request, which
//! has none.

use super::super::collect::Cases;
use crate::bytes::{run, telling};
use crate::made::Key;
use crate::table::{kind, limit, GEN_CLIENT_KEY, GEN_FINISHED, GEN_HELLO_REQUEST};

/// No part is longer in a case: an input has some bytes more at most (`domain::ROOM`).
pub const LONG: usize = 100_000;

const EDGES: [usize; 24] = [
    0, 1, 2, 3, 11, 12, 13, 32, 36, 48, 127, 128, 254, 255, 256, 257, 16_383, 16_384, 16_385, 65_534, 65_535,
    65_536, 65_537, LONG,
];

pub fn add(cases: &mut Cases) {
    cases.add(GEN_HELLO_REQUEST, &[]);
    for n in EDGES {
        put(cases, &telling(n));
    }
    for n in [1, 12, 255, 65_535] {
        put(cases, &run(0, n));
        put(cases, &run(0xff, n));
    }
    // Bytes that look like a length or a head of their own.
    let heads = [&[kind::ClientKeyExchange, 0, 0, 1, 0xaa][..], &[kind::Finished, 0, 0, 0]];
    for part in [&[0, 0][..], &[0, 1, 0xaa], &[1, 0xaa]].into_iter().chain(heads) {
        put(cases, part);
    }
}

/// A part as Finished and in the forms of the key exchange that may carry it.
fn put(cases: &mut Cases, part: &[u8]) {
    cases.add(GEN_FINISHED, part);
    cases.add(GEN_CLIENT_KEY, &Key::Unknown(part).bytes());
    if part.len() <= limit::DH {
        cases.add(GEN_CLIENT_KEY, &Key::Dh(part).bytes());
    }
    if part.len() <= limit::POINT {
        cases.add(GEN_CLIENT_KEY, &Key::Ecdh(part).bytes());
    }
}
