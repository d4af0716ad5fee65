//! Records round messages already written.

use super::super::collect::Cases;
use super::hellos::{CLIENT, DRAFT, SERVER};
use crate::bytes::{counting, run, telling};
use crate::made::{Client, Draft, Key, Record, Server};
use crate::table::record_type::{APPLICATION_DATA, HANDSHAKE};
use crate::table::version::{DRAFT_18, SSL30, TLS10, TLS12};
use crate::table::{kind, limit, GEN_PLAINTEXT};
use crate::write;

/// Below, inside and above the listed types, and both ends.
const TYPES: [u8; 14] = [0x00, 0x01, 0x13, 0x14, 0x15, 0x16, 0x17, 0x18, 0x19, 0x40, 0x7f, 0x80, 0xfe, 0xff];
const VERSIONS: [u16; 8] = [0, 0x00ff, SSL30, TLS10, TLS12, DRAFT_18, 0xff00, 0xffff];
const HELLO_REQUEST: [u8; 4] = [kind::HelloRequest, 0, 0, 0];

pub fn add(cases: &mut Cases) {
    for of in TYPES {
        for content in [&[][..], &HELLO_REQUEST] {
            put(cases, of, TLS10, content);
        }
    }
    for version in VERSIONS {
        put(cases, HANDSHAKE, version, &[]);
        put(cases, HANDSHAKE, version, &finished(&counting(12)));
    }
    lengths(cases);
    let all = written();
    for (at, one) in all.iter().enumerate() {
        let next = &all[(at + 1) % all.len()];
        let third = &all[(at + 3) % all.len()];
        put(cases, HANDSHAKE, TLS12, one);
        put(cases, HANDSHAKE, TLS12, &[&one[..], next].concat());
        put(cases, APPLICATION_DATA, TLS12, &[&one[..], next, third].concat());
    }
    put(cases, HANDSHAKE, TLS12, &all.concat());
}

fn put(cases: &mut Cases, record_type: u8, version: u16, content: &[u8]) {
    cases.add(GEN_PLAINTEXT, &Record { record_type, version, content }.bytes());
}

fn finished(part: &[u8]) -> Vec<u8> {
    write::finished(part).expect("a message")
}

/// One Finished of any size up to the limit, and rows of the smallest messages.
fn lengths(cases: &mut Cases) {
    let most = limit::RECORD;
    let round = [most - 2, most - 1, most];
    for n in [4, 5, 6, 255, 256, 257, 259, 260, 4096, 16_383, 16_384, 16_385].into_iter().chain(round) {
        put(cases, HANDSHAKE, TLS12, &finished(&telling(n - 4)));
        put(cases, HANDSHAKE, TLS10, &finished(&run(0, n - 4)));
    }
    for n in [8, 12, 252, 256, 260, 16_380, 16_384, 16_388, most - 4, most] {
        put(cases, HANDSHAKE, TLS12, &run(0, n));
    }
    for n in [most - 5, most - 4] {
        put(cases, HANDSHAKE, TLS12, &[finished(&run(1, n - 4)), run(0, 4)].concat());
        put(cases, HANDSHAKE, TLS12, &[run(0, 4), finished(&run(1, n - 4))].concat());
    }
}

/// Messages of every kind that is written and can be read again as it is.
fn written() -> Vec<Vec<u8>> {
    let (id, ext) = (Some(&[7u8; 32][..]), Some(&[0u8, 0x17, 0, 0][..]));
    let all = [
        write::client(&CLIENT),
        write::client(&Client { id, ext, ..CLIENT }),
        write::client(&Client { ciphers: &[], methods: &[], ..CLIENT }),
        write::server(&Server { ext, ..SERVER }),
        write::server(&Server { version: SSL30, id, ..SERVER }),
        write::draft(&DRAFT),
        write::draft(&Draft { ext, ..DRAFT }),
        write::key(&Key::Unknown(&counting(48))),
        write::key(&Key::Dh(&counting(16))),
        write::key(&Key::Ecdh(&counting(16))),
        write::finished(&[]),
        write::finished(&counting(12)),
        Ok(HELLO_REQUEST.to_vec()),
    ];
    all.into_iter().map(|m| m.expect("a message")).collect()
}
