//! The three hellos to be written, each part at the edges of its length.

use super::super::collect::Cases;
use crate::bytes::{counting, run, telling};
use crate::made::{Client, Draft, Server};
use crate::table::version::{DRAFT_18, SSL30, TLS10, TLS11, TLS12, TLS13};
use crate::table::{limit, GEN_CLIENT_HELLO, GEN_DRAFT_18, GEN_SERVER_HELLO};
use crate::write;

/// All different, so that a byte tells its place.
const RANDOM: [u8; 32] = {
    let mut bytes = [0; 32];
    let mut k = 0;
    while k < 32 {
        bytes[k] = 0xc0 + k as u8;
        k += 1;
    }
    bytes
};

pub const CLIENT: Client = Client {
    version: TLS12,
    random: &RANDOM,
    id: None,
    ciphers: &[0x13, 1, 0xc0, 0x2f],
    methods: &[1, 0],
    ext: None,
};
pub const SERVER: Server =
    Server { version: TLS12, cipher: 0xc02f, compression: 1, random: &RANDOM, id: None, ext: None };
pub const DRAFT: Draft = Draft { version: DRAFT_18, cipher: 0x1302, random: &RANDOM, ext: None };

const VERSIONS: [u16; 10] = [0, 1, 0x00ff, SSL30, TLS10, TLS11, TLS12, TLS13, DRAFT_18, 0xffff];
const IDS: [Option<usize>; 6] = [None, Some(0), Some(1), Some(2), Some(limit::ID - 1), Some(limit::ID)];
const BLOCKS: [Option<usize>; 12] = [
    None,
    Some(0),
    Some(1),
    Some(2),
    Some(255),
    Some(256),
    Some(257),
    Some(16_383),
    Some(16_384),
    Some(16_385),
    Some(limit::EXTENSIONS - 1),
    Some(limit::EXTENSIONS),
];

pub fn add(cases: &mut Cases) {
    versions(cases);
    randoms(cases);
    ids(cases);
    blocks(cases);
    numbers(cases);
    ciphers(cases);
    methods(cases);
    together(cases);
    client(cases, Client { ciphers: &[], methods: &[], ..CLIENT });
    longest(cases);
}

fn client(cases: &mut Cases, m: Client) {
    cases.add(GEN_CLIENT_HELLO, &m.bytes());
}

fn server(cases: &mut Cases, m: Server) {
    cases.add(GEN_SERVER_HELLO, &m.bytes());
}

fn draft(cases: &mut Cases, m: Draft) {
    cases.add(GEN_DRAFT_18, &m.bytes());
}

fn versions(cases: &mut Cases) {
    for version in VERSIONS {
        client(cases, Client { version, ..CLIENT });
        server(cases, Server { version, ..SERVER });
        draft(cases, Draft { version, ..DRAFT });
    }
}

fn randoms(cases: &mut Cases) {
    for random in [run(0, 32), run(0xff, 32), counting(32)] {
        let random = &random;
        client(cases, Client { random, ..CLIENT });
        server(cases, Server { random, ..SERVER });
        draft(cases, Draft { random, ..DRAFT });
    }
}

/// Ids with absent, empty and some extensions behind them.
fn ids(cases: &mut Cases) {
    for n in IDS {
        let id = n.map(counting);
        for ext in [None, Some(&[][..]), Some(&[0, 0x17, 0, 0])] {
            client(cases, Client { id: id.as_deref(), ext, ..CLIENT });
            server(cases, Server { id: id.as_deref(), ext, ..SERVER });
        }
    }
    for id in [run(0, 32), run(0xff, 32), run(0, 1)] {
        client(cases, Client { id: Some(&id), ..CLIENT });
        server(cases, Server { id: Some(&id), ..SERVER });
    }
}

fn blocks(cases: &mut Cases) {
    for n in BLOCKS {
        let ext = n.map(telling);
        let ext = ext.as_deref();
        client(cases, Client { ext, ..CLIENT });
        client(cases, Client { ext, ciphers: &[], methods: &[], id: Some(&RANDOM), ..CLIENT });
        server(cases, Server { ext, ..SERVER });
        server(cases, Server { ext, version: SSL30, id: Some(&RANDOM), ..SERVER });
        draft(cases, Draft { ext, ..DRAFT });
    }
}

/// The numbers that only a server gives.
fn numbers(cases: &mut Cases) {
    for cipher in [0u16, 1, 0x00ff, 0x0100, 0xff00, 0xffff] {
        server(cases, Server { cipher, ..SERVER });
        draft(cases, Draft { cipher, ..DRAFT });
    }
    for compression in [0u8, 1, 0x40, 0x7f, 0x80, 0xff] {
        server(cases, Server { compression, ..SERVER });
    }
}

fn ciphers(cases: &mut Cases) {
    for n in
        [0usize, 2, 4, 6, 254, 256, 258, 16_382, 16_384, 32_766, 32_768, limit::CIPHERS - 2, limit::CIPHERS]
    {
        client(cases, Client { ciphers: &telling(n), ..CLIENT });
        client(cases, Client { ciphers: &telling(n), methods: &[], ext: Some(&[0xaa; 3]), ..CLIENT });
    }
    client(cases, Client { ciphers: &run(0, limit::CIPHERS), ..CLIENT });
    client(cases, Client { ciphers: &run(0xff, limit::CIPHERS), ..CLIENT });
    // Numbers whose two bytes differ, many of them.
    let pairs: Vec<u8> = (0..400u16).flat_map(|k| (k * 163).to_be_bytes()).collect();
    client(cases, Client { ciphers: &pairs, ..CLIENT });
}

fn methods(cases: &mut Cases) {
    for n in [0, 1, 2, 127, 128, limit::METHODS - 1, limit::METHODS] {
        client(cases, Client { methods: &counting(n), ..CLIENT });
        client(cases, Client { methods: &run(0, n), ciphers: &[], ext: Some(&[0xaa; 3]), ..CLIENT });
    }
}

/// Parts of unlike lengths, each with each.
fn together(cases: &mut Cases) {
    for id in [None, Some(0), Some(limit::ID)] {
        for ciphers in [0, 300] {
            for methods in [0, limit::METHODS] {
                for ext in [None, Some(0), Some(1), Some(300)] {
                    several(cases, id, ciphers, methods, ext);
                }
            }
        }
    }
}

fn several(cases: &mut Cases, id: Option<usize>, ciphers: usize, methods: usize, ext: Option<usize>) {
    let (id, ext) = (id.map(|n| run(7, n)), ext.map(telling));
    let (ciphers, methods) = (telling(ciphers), run(9, methods));
    let (id, ext) = (id.as_deref(), ext.as_deref());
    client(cases, Client { id, ciphers: &ciphers, methods: &methods, ext, ..CLIENT });
}

/// Every part as long as it can be, and each of them one shorter.
fn longest(cases: &mut Cases) {
    let (id, ciphers) = (counting(limit::ID), telling(limit::CIPHERS));
    let (methods, ext) = (run(0, limit::METHODS), telling(limit::EXTENSIONS));
    let full = Client { id: Some(&id), ciphers: &ciphers, methods: &methods, ext: Some(&ext), ..CLIENT };
    assert_eq!(write::client(&full).expect("a hello").len(), 4 + 131_396);
    client(cases, full);
    client(cases, Client { id: Some(&id[1..]), ..full });
    client(cases, Client { ciphers: &ciphers[2..], ..full });
    client(cases, Client { methods: &methods[1..], ..full });
    client(cases, Client { ext: Some(&ext[1..]), ..full });
    let zeros = run(0, limit::CIPHERS);
    client(cases, Client { random: &zeros[..32], ciphers: &zeros, ext: Some(&zeros), ..full });
    server(cases, Server { id: Some(&id), ext: Some(&ext), ..SERVER });
    draft(cases, Draft { ext: Some(&ext), ..DRAFT });
}
