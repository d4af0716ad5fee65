//! What is handed out of the ClientHellos of a case besides their fields: `rand_time` and
//! `rand_bytes` of those that are read, or of the one to be written, and `exactness`.

use super::{sheet::Sheet, writing};
use norrabist::*;

/// Time, how many bytes, and where they begin if there are any, of each ClientHello in its order;
/// none where the case has none.
pub fn randoms(name: &str, i: &[u8]) -> Vec<u64> {
    let mut sheet = Sheet::new(i);
    each(name, i, |hello| {
        sheet.number(hello.rand_time());
        sheet.size(hello.rand_bytes().len());
        if !hello.rand_bytes().is_empty() {
            sheet.place(hello.rand_bytes());
        }
    });
    sheet.numbers
}

/// How exact each ClientHello is: 0 exact, 1 without ciphers, 2 without methods, 3 with a tail.
pub fn exactness(name: &str, i: &[u8]) -> Vec<u64> {
    let mut numbers = Vec::new();
    each(name, i, |hello| {
        numbers.push(match hello.exactness() {
            Exactness::Exact => 0,
            Exactness::NoCiphers => 1,
            Exactness::NoMethods => 2,
            Exactness::HasTail => 3,
        })
    });
    numbers
}

/// Hands on each ClientHello.
fn each(name: &str, i: &[u8], mut then: impl FnMut(&TlsClientHelloContents)) {
    match name {
        "parse_tls_handshake_client_hello" => {
            parse_tls_handshake_client_hello(i).iter().for_each(|(_, hello)| then(hello))
        }
        "parse_tls_handshake_client_hello_strict" => {
            parse_tls_handshake_client_hello_strict(i).iter().for_each(|(_, hello)| then(hello))
        }
        "parse_tls_handshake_msg_client_hello" => {
            parse_tls_handshake_msg_client_hello(i).iter().for_each(|(_, m)| message(m, &mut then))
        }
        "parse_tls_handshake_msg_client_hello_strict" => {
            parse_tls_handshake_msg_client_hello_strict(i).iter().for_each(|(_, m)| message(m, &mut then))
        }
        "parse_tls_message_handshake" => {
            parse_tls_message_handshake(i).iter().for_each(|(_, m)| opened(m, &mut then))
        }
        "parse_tls_plaintext" => {
            let messages = parse_tls_plaintext(i).ok().map(|(_, record)| record.msg);
            messages.iter().flatten().for_each(|m| opened(&m, &mut then));
        }
        "gen_tls_clienthello" => writing::client(i).iter().for_each(then),
        _ => {}
    }
}

fn opened(m: &TlsMessage, then: impl FnMut(&TlsClientHelloContents)) {
    if let TlsMessage::Handshake(m) = m {
        message(m, then);
    }
}

fn message(m: &TlsMessageHandshake, mut then: impl FnMut(&TlsClientHelloContents)) {
    if let TlsMessageHandshake::ClientHello(hello) = m {
        then(hello);
    }
}
