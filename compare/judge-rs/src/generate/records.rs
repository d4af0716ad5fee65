//! Records: every type, and the lengths round the limit.

use super::collect::Cases;
use crate::bytes::{be, hex, join, run};
use crate::table::record_type::{HANDSHAKE, OTHERS};
use crate::table::version::{DRAFT_18, SSL30, TLS10, TLS13};
use crate::table::{limit, ENCRYPTED, HEADER, MANY, PLAINTEXT, RAW, WITH_HEADER};

const READERS: [&str; 3] = [RAW, ENCRYPTED, PLAINTEXT];

pub fn add(cases: &mut Cases) {
    types(cases);
    headers(cases);
    lengths(cases);
    plain(cases);
}

fn types(cases: &mut Cases) {
    let body = hex("0303 0004 00000000");
    for of in 0..=0xff {
        let record = join(&[&[of], &body]);
        READERS.into_iter().chain([WITH_HEADER]).for_each(|f| cases.add(f, &record));
    }
    for of in [0x00, 0x13, 0x14, 0x15, 0x16, 0x17, 0x18, 0x19, 0xff] {
        cases.add(HEADER, &join(&[&[of], &body]));
    }
}

/// Cut headers and any version.
fn headers(cases: &mut Cases) {
    let whole = hex("16 0303 0001 aa ee");
    for n in 0..=whole.len() {
        READERS.into_iter().chain([HEADER, MANY]).for_each(|f| cases.add(f, &whole[..n]));
    }
    for version in [0, 0x0002, SSL30, TLS10, TLS13, DRAFT_18, 0xfeff, 0xffff] {
        let input = join(&[&[HANDSHAKE], &version.to_be_bytes(), &hex("0004 0e000000")]);
        READERS.into_iter().chain([HEADER]).for_each(|f| cases.add(f, &input));
    }
}

/// Each length without its body, with one byte less, as many, and one more.
fn lengths(cases: &mut Cases) {
    let most = limit::RECORD;
    for n in [0, 1, 255, 16383, 16384, most - 1, most, most + 1, 32768, 65535] {
        for there in [0, n.saturating_sub(1), n, n + 1] {
            let input = join(&[&hex("16 0301"), &be(2, n), &run(0, there)]);
            READERS.into_iter().for_each(|f| cases.add(f, &input));
        }
        cases.add(HEADER, &join(&[&hex("16 0301"), &be(2, n)]));
        cases.add(HEADER, &join(&[&hex("17 0303"), &be(2, n), &run(0, n)]));
        other_types(cases, n);
    }
}

/// The order of the refusals before the type is looked at.
fn other_types(cases: &mut Cases, n: usize) {
    for of in OTHERS.into_iter().chain([0x19]) {
        for there in [0, n.saturating_sub(1)] {
            let head = join(&[&[of], &TLS10.to_be_bytes(), &be(2, n)]);
            cases.add(PLAINTEXT, &join(&[&head, &run(0, there)]));
        }
    }
}

/// Handshake records of 0 to 3 bytes, and of a message that does not fit.
fn plain(cases: &mut Cases) {
    for body in [
        "",
        "00",
        "0000",
        "000000",
        "01",
        "03",
        "0300",
        "030000",
        "03000001",
        "00000001",
        "0e000002aa",
        "14ffffff",
    ] {
        let body = hex(body);
        let input = join(&[&hex("16 0301"), &be(2, body.len()), &body]);
        cases.add(PLAINTEXT, &input);
        cases.add(PLAINTEXT, &join(&[&input, &hex("14 0303 0001 01")]));
    }
}
