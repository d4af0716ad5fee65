//! The strict ClientHello beside the plain one (RULES 3.14 to 3.16): what it takes and refuses,
//! that `exactness` says which, and what is written back; over the recorded list and captures of
//! real hellos, whole and damaged.

// the account of a strict ClientHello, by which `compare/run` judges too, and its own tests
#[path = "../../compare/judge-rs/src/account/strict.rs"]
mod strict;
#[path = "../../compare/judge-rs/src/account/strict_tests.rs"]
mod strict_tests;
mod support;

use norrabist::*;
use std::collections::HashMap;
use strict::Refused;
use support::{reasons, text};

const LIST: &str = concat!(env!("CARGO_MANIFEST_DIR"), "/../compare/recorded.txt");
const SAMPLES: [&str; 4] = [
    include_str!("../../compare/samples/client-hello-10.hex"),
    include_str!("../../compare/samples/client-hello-12.hex"),
    include_str!("../../compare/samples/client-hello-13.hex"),
    include_str!("../../compare/samples/client-hello-gnutls.hex"),
];

/// What is said of a body: how exact it is, or why the plain reader refuses it.
type Said = Result<Exactness, Reason>;

/// The body of the one message of each sample, without type and length.
fn samples() -> [Vec<u8>; 4] {
    SAMPLES.map(|sample| {
        let digits = sample.split_whitespace().collect::<String>();
        let record = text::hex(&digits).expect("hex");
        let (rest, record) = parse_tls_plaintext(&record).expect("a record");
        assert!(rest.is_empty() && record.count() == 1 && record.dropped() == 0);
        let head = record.msg.heads().next().expect("a message");
        assert_eq!(head.kind, TlsHandshakeType::ClientHello);
        head.body.to_vec()
    })
}

/// A hello is written back as its head and its body, and 00 00 if it had no extensions.
fn written_back(hello: &TlsClientHelloContents, body: &[u8]) {
    let block: &[u8] = if hello.ext.is_some() { &[] } else { &[0, 0] };
    let len = u32::try_from(body.len() + block.len()).expect("a length").to_be_bytes();
    let mut text = Vec::new();
    assert_eq!(gen_tls_clienthello_vec(hello, &mut text), Ok(4 + body.len() + block.len()));
    assert_eq!(text, [&[0x01], &len[1..], body, block].concat());
}

/// What the account says of a body: how exact it is, or the number of the plain reader's refusal.
fn by_account(body: &[u8]) -> Result<Exactness, u64> {
    match strict::strict(body) {
        Ok(_) => Ok(Exactness::Exact),
        Err(Refused::NoCiphers(_)) => Ok(Exactness::NoCiphers),
        Err(Refused::NoMethods(_)) => Ok(Exactness::NoMethods),
        Err(Refused::Tail(_)) => Ok(Exactness::HasTail),
        Err(Refused::Plain(why)) => Err(why.number()),
    }
}

/// What is said of a body, by every function that says something of it and by the account.
fn said(body: &[u8]) -> Said {
    let said = by_functions(body);
    assert_eq!(said.map_err(|reason| reason.number().into()), by_account(body), "{body:x?}");
    said
}

fn by_functions(body: &[u8]) -> Said {
    let plain = reasons(parse_tls_handshake_client_hello(body));
    let strict = reasons(parse_tls_handshake_client_hello_strict(body));
    let message = reasons(parse_tls_handshake_msg_client_hello_strict(body));
    assert_eq!(message, strict.map(|(rest, hello)| (rest, TlsMessageHandshake::ClientHello(hello))));
    let (rest, hello) = match plain {
        Ok(read) => read,
        Err(reason) => {
            assert_eq!(strict, Err(reason), "{body:x?}");
            return Err(reason);
        }
    };
    let exactness = hello.exactness();
    if exactness == Exactness::Exact {
        assert_eq!(strict, Ok((rest, hello)), "{body:x?}");
        assert!(rest.is_empty() && hello.tail.is_empty(), "{body:x?}");
        written_back(&hello, body);
    } else {
        assert_eq!(strict, Err(Reason::LengthValue), "{body:x?}");
    }
    Ok(exactness)
}

/// How often each is said of all these bodies.
fn counted(bodies: impl IntoIterator<Item = Vec<u8>>) -> HashMap<Said, usize> {
    let mut counts = HashMap::new();
    bodies.into_iter().for_each(|body| *counts.entry(said(&body)).or_default() += 1);
    counts
}

/// `0303`, 32 bytes, no id, and what follows.
fn hello(rest: &[u8]) -> Vec<u8> {
    [&[0x03, 0x03][..], &[7; 32], &[0], rest].concat()
}

#[test]
fn the_smallest() {
    assert_eq!(said(&hello(&[0, 2, 0xc0, 0x2f, 1, 0])), Ok(Exactness::Exact));
    assert_eq!(said(&hello(&[0, 2, 0xc0, 0x2f, 1, 0, 0, 0])), Ok(Exactness::Exact));
    // what a block holds is not looked at
    assert_eq!(said(&hello(&[0, 2, 0xc0, 0x2f, 1, 0, 0, 1, 0xff])), Ok(Exactness::Exact));
    assert_eq!(said(&hello(&[0, 0, 1, 0])), Ok(Exactness::NoCiphers));
    assert_eq!(said(&hello(&[0, 2, 0xc0, 0x2f, 0])), Ok(Exactness::NoMethods));
    for tail in [&[0][..], &[0, 1], &[0, 0, 0], &[0, 1, 0xff, 0], &[0, 2, 0xff]] {
        let body = [&hello(&[0, 2, 0xc0, 0x2f, 1, 0]), tail].concat();
        assert_eq!(said(&body), Ok(Exactness::HasTail), "{tail:?}");
    }
}

#[test]
fn the_first_of_the_three_is_told() {
    assert_eq!(said(&hello(&[0, 0, 0, 0xee])), Ok(Exactness::NoCiphers));
    assert_eq!(said(&hello(&[0, 0, 1, 0, 0xee])), Ok(Exactness::NoCiphers));
    assert_eq!(said(&hello(&[0, 2, 0xc0, 0x2f, 0, 0xee])), Ok(Exactness::NoMethods));
}

/// The refusals of the plain reader come first, also where a list before them is empty.
#[test]
fn the_plain_refusals_come_first() {
    assert_eq!(said(&[]), Err(Reason::Incomplete));
    assert_eq!(said(&hello(&[])), Err(Reason::Incomplete));
    assert_eq!(said(&hello(&[0, 0])), Err(Reason::Incomplete));
    assert_eq!(said(&hello(&[0, 0, 1])), Err(Reason::LengthValue));
    assert_eq!(said(&hello(&[0, 1, 0])), Err(Reason::LengthValue));
    let long_id = [&hello(&[])[..34], &[33]].concat();
    assert_eq!(said(&long_id), Err(Reason::Verify));
}

#[test]
fn made_up() {
    let (ciphers, comp) = (List::new(&[0xc0, 0x2f]), List::new(&[0]));
    let hello = TlsClientHelloContents::new(TlsVersion::Tls12.0, &[7; 32], None, ciphers, comp, None);
    assert_eq!(hello.exactness(), Exactness::Exact);
    let tailed = TlsClientHelloContents { tail: &[0], ..hello };
    assert_eq!(tailed.exactness(), Exactness::HasTail);
    let without_methods = TlsClientHelloContents { comp: List::default(), ..tailed };
    assert_eq!(without_methods.exactness(), Exactness::NoMethods);
    assert_eq!(TlsClientHelloContents::default().exactness(), Exactness::NoCiphers);
    // half a cipher is no empty list: no reader hands it out, and no writer writes it
    let odd = TlsClientHelloContents { ciphers: List::new(&[0xc0]), ..hello };
    assert_eq!(odd.exactness(), Exactness::Exact);
}

#[test]
fn the_recorded_hellos() {
    let list = std::fs::read_to_string(LIST).unwrap_or_else(|e| panic!("{LIST}: {e}"));
    let cases = list.lines().filter(|line| !line.starts_with('#'));
    let cases = cases.map(|line| text::line(line).expect("a case"));
    let counts = counted(cases.filter(|case| is_of_a_hello(case.function)).map(|case| case.input));
    let refused = [Reason::Incomplete, Reason::Verify, Reason::LengthValue].map(Err);
    let read = [Exactness::Exact, Exactness::NoCiphers, Exactness::NoMethods, Exactness::HasTail].map(Ok);
    assert!(refused.iter().chain(&read).all(|said| counts.contains_key(said)), "{counts:?}");
    assert_eq!(counts.len(), refused.len() + read.len(), "{counts:?}");
}

/// A reader of a ClientHello's body.
fn is_of_a_hello(function: &str) -> bool {
    function.starts_with("parse_tls_handshake_") && function.contains("client_hello")
}

#[test]
fn the_samples() {
    for body in samples() {
        assert_eq!(said(&body), Ok(Exactness::Exact));
        let (_, hello) = parse_tls_handshake_client_hello_strict(&body).expect("a hello");
        // without its block it is exact too; without a list it is not
        let end = body.len() - hello.ext.map_or(0, |ext| 2 + ext.len());
        assert_eq!(said(&body[..end]), Ok(Exactness::Exact));
        let without_ciphers = TlsClientHelloContents { ciphers: List::default(), ..hello };
        let without_methods = TlsClientHelloContents { comp: List::default(), ..hello };
        for (hello, right) in
            [(without_ciphers, Exactness::NoCiphers), (without_methods, Exactness::NoMethods)]
        {
            let mut text = Vec::new();
            gen_tls_clienthello_vec(&hello, &mut text).expect("a text");
            assert_eq!((hello.exactness(), said(&text[4..])), (right, Ok(right)));
        }
    }
}

#[test]
fn damaged_samples() {
    for body in samples() {
        let (_, hello) = parse_tls_handshake_client_hello(&body).expect("a hello");
        let end = body.len() - hello.ext.map_or(0, |ext| 2 + ext.len());
        // cut off in the block it has a tail, before that the plain reader refuses it
        for n in 0..body.len() {
            let said = said(&body[..n]);
            let cut = if n == end { Exactness::Exact } else { Exactness::HasTail };
            assert_eq!(said.ok(), (n >= end).then_some(cut), "{n} bytes");
        }
        for byte in [0, 1, 0xff] {
            assert_eq!(said(&[&body[..], &[byte]].concat()), Ok(Exactness::HasTail));
        }
        let dropped = (0..body.len()).map(|at| [&body[..at], &body[at + 1..]].concat());
        let added = (0..body.len())
            .flat_map(|at| [0, 1, 0xff].map(|byte| [&body[..at], &[byte], &body[at..]].concat()));
        let changed = (0..body.len()).flat_map(|at| {
            [0, 1, body[at].wrapping_sub(1), body[at].wrapping_add(1), !body[at]]
                .map(|byte| [&body[..at], &[byte], &body[at + 1..]].concat())
        });
        let counts = counted(dropped.chain(added).chain(changed));
        for right in [Ok(Exactness::Exact), Ok(Exactness::HasTail), Err(Reason::LengthValue)] {
            assert!(counts.contains_key(&right), "{counts:?}");
        }
    }
}
