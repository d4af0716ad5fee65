//! Good inputs: short ones made here, and captures of real connections.

use super::collect::Cases;
use super::contents::heartbeat;
use super::hellos::{client, draft, server};
use crate::bytes::{counted, hex, message, record};
use crate::case::Case;
use crate::table::record_type::{ALERT, APPLICATION_DATA, CHANGE_CIPHER_SPEC, HANDSHAKE, HEARTBEAT};
use crate::table::{kind, version, ENCRYPTED, HEADER, MANY, MESSAGE, PLAINTEXT, RAW, WITH_HEADER};

const SAMPLES: [&str; 9] = [
    include_str!("../../../samples/client-hello-10.hex"),
    include_str!("../../../samples/client-hello-12.hex"),
    include_str!("../../../samples/client-hello-13.hex"),
    include_str!("../../../samples/client-hello-gnutls.hex"),
    include_str!("../../../samples/server-hello-13.hex"),
    include_str!("../../../samples/server-flight-10.hex"),
    include_str!("../../../samples/server-flight-12.hex"),
    include_str!("../../../samples/client-flight-12.hex"),
    include_str!("../../../samples/server-end-12.hex"),
];

/// A short body for each type; all their lengths are over 0.
pub fn short_bodies() -> Vec<(u8, Vec<u8>)> {
    let request = "02 0140 0004 04030804 0007 0003 aabbcc 0000";
    vec![
        (kind::HelloRequest, hex("")),
        (
            kind::ClientHello,
            client(&[2, 7, 8], &[0, 4, 0x13, 1, 0xc0, 0x2f], &[2, 1, 0], &[0, 3, 0xaa, 0xbb, 0xcc]),
        ),
        (kind::ServerHello, server(version::TLS12, &[2, 7, 8], &[0, 3, 0xaa, 0xbb, 0xcc])),
        (kind::ServerHello, server(version::SSL30, &[2, 7, 8], &[])),
        (kind::ServerHello, draft(&[0, 3, 0xaa, 0xbb, 0xcc])),
        (kind::NewSessionTicket, hex("00000e10 0002 aabb")),
        (kind::EndOfEarlyData, hex("")),
        (kind::HelloRetryRequest, hex("7f12 1301 0003 aabbcc")),
        (kind::Certificate, counted(3, &hex("000003 aabbcc 000002 ddee"))),
        (kind::ServerKeyExchange, hex("03001d0401020304")),
        (kind::CertificateRequest, hex(request)),
        (kind::CertificateRequest, hex("01 01 0005 0003 aabbcc")),
        (kind::ServerDone, hex("")),
        (kind::CertificateVerify, hex("0403000401020304")),
        (kind::ClientKeyExchange, hex("0401020304")),
        (kind::Finished, hex("0102030405060708090a0b0c")),
        (kind::CertificateStatus, hex("01 000003 aabbcc")),
        (kind::KeyUpdate, hex("01")),
        (kind::NextProtocol, hex("02 6832 03 000000")),
    ]
}

/// Short contents of the records that are no handshake records.
pub fn short_contents() -> Vec<(u8, Vec<u8>)> {
    vec![
        (CHANGE_CIPHER_SPEC, hex("01")),
        (CHANGE_CIPHER_SPEC, hex("010101")),
        (ALERT, hex("0228")),
        (ALERT, hex("0100 0228 015a")),
        (APPLICATION_DATA, hex("")),
        (APPLICATION_DATA, hex("474554202f")),
        (HEARTBEAT, heartbeat(1, 4, 4, 16)),
        (HEARTBEAT, heartbeat(2, 0, 0, 16)),
    ]
}

pub fn short_messages() -> Vec<Vec<u8>> {
    short_bodies().iter().map(|(of, body)| message(*of, body)).collect()
}

/// The samples, and the four of one connection of TLS 1.2 joined.
fn streams() -> Vec<Vec<u8>> {
    let samples: Vec<Vec<u8>> = SAMPLES.iter().map(|text| hex(text)).collect();
    let joined = [1, 6, 7, 8].map(|k| &samples[k][..]).concat();
    samples.into_iter().chain([joined]).collect()
}

/// The records of a stream; the samples hold whole ones.
fn records(stream: &[u8]) -> Vec<&[u8]> {
    let mut out = Vec::new();
    let mut left = stream;
    while left.len() >= 5 {
        let (one, rest) = left.split_at(5 + (usize::from(left[3]) << 8 | usize::from(left[4])));
        out.push(one);
        left = rest;
    }
    out
}

/// The samples: each stream, each record, each content, each message, each body.
pub fn add(cases: &mut Cases) {
    for stream in streams() {
        [PLAINTEXT, MANY, RAW, ENCRYPTED, HEADER].into_iter().for_each(|f| cases.add(f, &stream));
        for record in records(&stream) {
            [PLAINTEXT, RAW, WITH_HEADER].into_iter().for_each(|f| cases.add(f, record));
            // Each handshake record of the samples holds one message.
            if record[0] == HANDSHAKE {
                cases.add(MESSAGE, &record[5..]);
                cases.body(record[5], &record[9..]);
            }
        }
    }
}

/// Short ClientHellos, with an id and with none.
pub fn short_hellos() -> Vec<Vec<u8>> {
    let bodies = short_bodies().into_iter().filter(|(of, _)| *of == kind::ClientHello);
    let without_id = client(&[0], &[0, 2, 0x13, 1], &[1, 0], &[0, 1, 0xaa]);
    bodies.map(|(_, body)| body).chain([without_id]).collect()
}

/// The handshake types and bodies of the samples, each once.
pub fn real_bodies() -> Vec<(u8, Vec<u8>)> {
    let samples = SAMPLES.map(hex);
    let records = samples.iter().flat_map(|sample| records(sample));
    let messages = records.filter(|record| record[0] == HANDSHAKE);
    messages.map(|record| (record[5], record[9..].to_vec())).collect()
}

/// The ClientHellos among them.
pub fn real_hellos() -> Vec<Vec<u8>> {
    let hellos = real_bodies().into_iter().filter(|(of, _)| *of == kind::ClientHello);
    hellos.map(|(_, body)| body).collect()
}

/// All ClientHellos that match exactly.
pub fn hellos() -> Vec<Vec<u8>> {
    [short_hellos(), real_hellos()].concat()
}

/// All good inputs as cases, to be damaged; the short ones are twice among them.
pub fn cases() -> Vec<Case> {
    let mut cases = Cases::default();
    for (of, body) in short_bodies() {
        cases.everywhere(of, &body);
    }
    let messages = short_messages();
    for pair in messages.windows(2) {
        cases.add(PLAINTEXT, &record(HANDSHAKE, &pair.concat()));
    }
    for (of, content) in short_contents() {
        cases.content(of, &content);
    }
    let short = cases.list.clone();
    add(&mut cases);
    cases.list.extend(short);
    cases.list
}
