//! An answer of tls-parser that parts from RFC 5246 and that no recorded answer has.

use tls_parser::{parse_tls_handshake_client_hello, ClientHello};

pub fn table() -> String {
    let mut body = [0; 38];
    body[..6].copy_from_slice(&[0x03, 0x03, 0, 0, 0, 1]);
    let (_, hello) = parse_tls_handshake_client_hello(&body).expect("a hello");
    format!("rand_time() of the ClientHello 0303 00000001 00*32 is {}\n", hello.rand_time())
}
