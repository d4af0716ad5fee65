//! The three hellos and the retry request at the edges of their lengths.

use super::collect::Cases;
use crate::bytes::{announced, be, counted, hex, join, run};
use crate::table::version::{DRAFT_18, SSL30, TLS10, TLS11, TLS12, TLS13};
use crate::table::{kind, limit};

pub fn add(cases: &mut Cases) {
    client_versions(cases);
    client_ids(cases);
    client_ciphers(cases);
    client_methods(cases);
    server_versions(cases);
    server_ids(cases);
    extensions(cases);
    client_longest(cases);
}

/// A ClientHello; its parts bring their own lengths.
pub fn client(id: &[u8], ciphers: &[u8], methods: &[u8], block: &[u8]) -> Vec<u8> {
    join(&[&TLS12.to_be_bytes(), &[0; 32], id, ciphers, methods, block])
}

pub fn server(version: u16, id: &[u8], block: &[u8]) -> Vec<u8> {
    join(&[&version.to_be_bytes(), &[0; 32], id, &[0xc0, 0x2f, 1], block])
}

pub fn draft(block: &[u8]) -> Vec<u8> {
    join(&[&DRAFT_18.to_be_bytes(), &[0; 32], &[0x13, 2], block])
}

/// Extension blocks: absent, half a length, past the end by one, empty, full,
/// whole ones with tails of 0, 1 and 2 bytes.
fn blocks() -> Vec<Vec<u8>> {
    let small = [
        "",
        "00",
        "ff",
        "0000",
        "0000 ee",
        "0000 eeee",
        "0001",
        "0001 aa",
        "0001 aa ee",
        "0001 aa eeee",
        "0002 aa",
        "0005 aabbccdd",
        "ffff",
    ];
    let mut all: Vec<Vec<u8>> = small.iter().map(|text| hex(text)).collect();
    let most = limit::EXTENSIONS;
    all.extend([most - 1, most, most + 1].map(|n| announced(2, most, &run(0x5a, n))));
    all
}

fn extensions(cases: &mut Cases) {
    for block in blocks() {
        cases.mostly(kind::ClientHello, &client(&[0], &[0, 2, 0x13, 1], &[1, 0], &block));
        cases.mostly(kind::ServerHello, &server(TLS12, &[2, 7, 8], &block));
        cases.body(kind::ServerHello, &server(SSL30, &[0], &block));
        cases.one(kind::ServerHello, &server(TLS11, &[0], &block));
        cases.one(kind::ServerHello, &server(TLS10, &[0], &block));
        cases.mostly(kind::ServerHello, &draft(&block));
        cases.everywhere(kind::HelloRetryRequest, &join(&[&DRAFT_18.to_be_bytes(), &[0x13, 1], &block]));
    }
}

fn client_versions(cases: &mut Cases) {
    for version in [0, SSL30, TLS10, TLS11, TLS13, DRAFT_18, 0xffff] {
        let mut hello = client(&[0], &[0, 2, 0x13, 1], &[1, 0], &[]);
        hello[..2].copy_from_slice(&version.to_be_bytes());
        cases.mostly(kind::ClientHello, &hello);
    }
}

/// An id length with no bytes, one byte less, as many, and one more behind it.
fn ids() -> Vec<(usize, usize)> {
    let lengths = [0, 1, limit::ID - 1, limit::ID, limit::ID + 1, 0xff];
    lengths.into_iter().flat_map(|n| [(n, 0), (n, n.saturating_sub(1)), (n, n), (n, n + 1)]).collect()
}

fn client_ids(cases: &mut Cases) {
    for (length, there) in ids() {
        let id = announced(1, length, &run(7, there));
        cases.one(kind::ClientHello, &client(&id, &[], &[], &[]));
        cases.mostly(kind::ClientHello, &client(&id, &[0, 2, 0x13, 1], &[1, 0], &[0, 0]));
    }
}

fn server_ids(cases: &mut Cases) {
    for (length, there) in ids() {
        let id = announced(1, length, &run(7, there));
        cases.one(kind::ServerHello, &join(&[&TLS12.to_be_bytes(), &[0; 32], &id]));
        cases.mostly(kind::ServerHello, &server(TLS10, &id, &[0, 0]));
        cases.one(kind::ServerHello, &server(SSL30, &id, &[0, 0]));
    }
}

/// Cipher lengths with one byte less, as many and one more at the very end,
/// and as many with the rest of a hello behind them.
fn client_ciphers(cases: &mut Cases) {
    for n in [0, 1, 2, 3, limit::CIPHERS, limit::CIPHERS + 1] {
        for there in [n.saturating_sub(1), n, n + 1] {
            cases.body(kind::ClientHello, &client(&[0], &announced(2, n, &run(0x13, there)), &[], &[]));
        }
        cases.mostly(
            kind::ClientHello,
            &client(&[0], &announced(2, n, &run(0x13, n)), &[1, 0], &[0, 1, 0xaa]),
        );
    }
}

/// The longest hello that can be read, a byte less and a byte more.
fn client_longest(cases: &mut Cases) {
    let (ciphers, methods) = (counted(2, &run(0x13, limit::CIPHERS)), counted(1, &run(0, limit::METHODS)));
    let (id, block) = (counted(1, &run(7, limit::ID)), counted(2, &run(0x5a, limit::EXTENSIONS)));
    let full = client(&id, &ciphers, &methods, &block);
    assert_eq!(full.len(), 131_396);
    cases.mostly(kind::ClientHello, &full[..full.len() - 1]);
    cases.mostly(kind::ClientHello, &full);
    cases.mostly(kind::ClientHello, &join(&[&full, &[0xee]]));
}

fn client_methods(cases: &mut Cases) {
    for n in [0, 1, limit::METHODS] {
        for there in [0, n.saturating_sub(1), n, n + 1, n + 2] {
            let methods = announced(1, n, &run(1, there));
            cases.mostly(kind::ClientHello, &client(&[0], &[0, 2, 0x13, 1], &methods, &[]));
        }
    }
}

fn server_versions(cases: &mut Cases) {
    let listed = [SSL30, TLS10, TLS11, TLS12, DRAFT_18];
    let others = [0, 3, 0x0200, 0x02ff, TLS13, 0x0403, 0x7f11, 0x7f13, 0xfefd, 0xffff];
    for version in listed.into_iter().chain(others) {
        cases.body(kind::ServerHello, &be(2, version.into()));
        cases.mostly(kind::ServerHello, &server(version, &[0], &[0, 0]));
    }
    for first in [0u8, 3, 0x7f, 0xff] {
        cases.mostly(kind::ServerHello, &[first]);
    }
}
