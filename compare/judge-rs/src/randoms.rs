//! What the trait `ClientHello` adds to the fields, time and bytes of the random, of the
//! ClientHellos of a case: those that are read, or the one to be written.

use crate::{account, case::Case, made::Client, sheet::Sheet, table::*, write};
use tls_parser::*;

/// The numbers of each ClientHello in its order, put behind those that are there.
pub fn read(case: &Case, to: &mut Vec<u64>) {
    let i = &case.input[..];
    let mut sheet = Sheet::new(i, to);
    match case.function {
        CLIENT_HELLO | CLIENT_HELLO_STRICT => {
            parse_tls_handshake_client_hello(i).iter().for_each(|(_, hello)| random(&mut sheet, hello))
        }
        MSG_CLIENT_HELLO | MSG_CLIENT_HELLO_STRICT => {
            parse_tls_handshake_msg_client_hello(i).iter().for_each(|(_, m)| handshake(&mut sheet, m))
        }
        MESSAGE => parse_tls_message_handshake(i).iter().for_each(|(_, m)| message(&mut sheet, m)),
        PLAINTEXT => {
            let messages = parse_tls_plaintext(i).ok().map(|(_, record)| record.msg);
            // tls-parser's go on behind a ticket that the account refuses
            messages.iter().flatten().take(account::walked(case).0).for_each(|m| message(&mut sheet, m));
        }
        GEN_CLIENT_HELLO => random(&mut sheet, &write::hello(&Client::read(i))),
        _ => {}
    }
}

fn message(s: &mut Sheet, m: &TlsMessage) {
    if let TlsMessage::Handshake(m) = m {
        handshake(s, m);
    }
}

fn handshake(s: &mut Sheet, m: &TlsMessageHandshake) {
    if let TlsMessageHandshake::ClientHello(hello) = m {
        random(s, hello);
    }
}

/// The time, how many bytes, and where they begin if there are any.
fn random(s: &mut Sheet, hello: &TlsClientHelloContents) {
    s.number(hello.rand_time());
    s.size(hello.rand_bytes().len());
    if !hello.rand_bytes().is_empty() {
        s.place(hello.rand_bytes());
    }
}
