//! The extension blocks of hellos: those of the samples, which are real, and of the hellos with which
//! every run of readings begins, and the recorded list.

use super::super::good;
use crate::table::{kind, CLIENT_HELLO, SERVER_HELLO};
use std::collections::HashSet;
use tls_parser::{parse_tls_handshake_client_hello, parse_tls_handshake_server_hello};

/// The block of a hello that has one.
fn block(handshake_type: u8, body: &[u8]) -> Option<Vec<u8>> {
    let ext = match handshake_type {
        kind::ClientHello => parse_tls_handshake_client_hello(body).ok()?.1.ext,
        kind::ServerHello => parse_tls_handshake_server_hello(body).ok()?.1.ext,
        _ => None,
    };
    ext.map(<[u8]>::to_vec)
}

/// Each block once, in their order.
fn once(blocks: impl Iterator<Item = Vec<u8>>) -> Vec<Vec<u8>> {
    let mut seen = HashSet::new();
    blocks.filter(|block| seen.insert(block.clone())).collect()
}

pub fn of_samples() -> Vec<Vec<u8>> {
    let bodies = good::real_bodies();
    once(bodies.iter().filter_map(|(of, body)| block(*of, body)))
}

pub fn of_hellos() -> Vec<Vec<u8>> {
    let cases = super::super::fixed();
    let hellos = cases.iter().filter_map(|case| match case.function {
        CLIENT_HELLO => block(kind::ClientHello, &case.input),
        SERVER_HELLO => block(kind::ServerHello, &case.input),
        _ => None,
    });
    once(hellos)
}

/// All of them, to be changed; those of the samples are more than once among them.
pub fn blocks() -> Vec<Vec<u8>> {
    let samples = of_samples();
    let mut all = of_hellos();
    // A drawn block is seldom long.
    all.retain(|block| block.len() <= 1024);
    while all.iter().filter(|block| samples.contains(block)).count() * 2 < all.len() {
        all.extend(samples.iter().cloned());
    }
    all
}
