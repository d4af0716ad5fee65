//! The rows of RULES 8, in their order and bytes; row 15 is a writing. Then the same bytes for the
//! sister functions.

use super::collect::Cases;
use crate::bytes::{hex, message, record};
use crate::table::record_type::HANDSHAKE;
use crate::table::*;

/// (function, input); Z stands for 32 zero bytes, H for the shortest hello.
const ROWS: [(&str, &str); 23] = [
    (CLIENT_HELLO, ""),
    (CLIENT_HELLO, "H"),
    (CLIENT_HELLO, "H 00"),
    (CLIENT_HELLO, "H 0000"),
    (CLIENT_HELLO, "H 0001"),
    (CLIENT_HELLO, "0303 Z 21"),
    (CLIENT_HELLO, "0303 Z 20 01020304050607 08090a0b0c0d0e0f 1011121314151617 18191a1b1c1d1e1f"),
    (CLIENT_HELLO, "0303 Z 00 0001 00"),
    (CLIENT_HELLO, "0303 Z 00 0000 01"),
    (MESSAGE, "03 000000"),
    (MESSAGE, "03 000001"),
    (MESSAGE, "01 000000"),
    (PLAINTEXT, "16 0301 0004 01 000000"),
    (PLAINTEXT, "16 0301 4101"),
    (PLAINTEXT, "16 0301 4100"),
    (PLAINTEXT, "16 0303 0005 00000000 01"),
    (SERVER_HELLO, "0304"),
    (SERVER_HELLO, "03"),
    (MSG_CERTIFICATE, "000005 000001 aa ff"),
    (REQUEST, "00 0002 0000"),
    (REQUEST, "00 0000 0000"),
    (REQUEST, "00 0000"),
    (REQUEST, "00 00"),
];

pub fn add(cases: &mut Cases) {
    for (name, text) in ROWS {
        cases.add(name, &bytes(text));
    }
    for (name, text) in ROWS {
        sisters(cases, name, &bytes(text));
    }
    let more = bytes("0303 Z 00 0002 00");
    cases.everywhere(kind::ClientHello, &more);
}

fn bytes(text: &str) -> Vec<u8> {
    let z = "00".repeat(32);
    hex(&text.replace('H', "0303 Z 00 0000 00").replace('Z', &z))
}

/// A body goes to all functions of its type, a message into a record, a record to all record
/// readers.
fn sisters(cases: &mut Cases, name: &'static str, input: &[u8]) {
    match name {
        MESSAGE => cases.add(PLAINTEXT, &record(HANDSHAKE, input)),
        PLAINTEXT => [HEADER, RAW, ENCRYPTED].into_iter().for_each(|f| cases.add(f, input)),
        _ => {
            let of_name = |of: &u8| of_type(*of).contains(&name);
            let handshake_type = TYPES.into_iter().find(of_name).expect("a body");
            cases.everywhere(handshake_type, input);
            cases.add(MESSAGE, &[message(handshake_type, input), vec![0xee]].concat());
        }
    }
}
