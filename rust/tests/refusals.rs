//! Each refusal once, with its number, name and text, and what a refused writing leaves.

use norrabist::*;
use std::collections::HashMap;

/// The table. There is no number 10.
const TABLE: [(u8, &str); 11] = [
    (1, "Incomplete"),
    (2, "Complete"),
    (3, "Verify"),
    (4, "LengthValue"),
    (5, "Tag"),
    (6, "Switch"),
    (7, "TooLarge"),
    (8, "BadLength"),
    (9, "NoRoom"),
    (11, "NoSuch"),
    (12, "NotYetImplemented"),
];

fn reason<T>(answer: Result<T, Refusal>) -> Option<Reason> {
    answer.err().map(|refusal| refusal.reason)
}

/// A hello with every part.
fn hello<'a>() -> TlsClientHelloContents<'a> {
    let ciphers = List::new(&[0xc0, 0x2c, 0xc0, 0x30]);
    TlsClientHelloContents::new(
        TlsVersion::Tls12.0,
        &[7; 32],
        Some(&[5; 8]),
        ciphers,
        List::new(&[0]),
        Some(&[0, 23, 0, 0]),
    )
}

/// A ClientHello body up to the id's length, and what follows.
fn client(rest: &[u8]) -> Option<Reason> {
    let body = [&[0x03, 0x03][..], &[0; 32], rest].concat();
    reason(parse_tls_handshake_client_hello(&body))
}

/// An example of each, by its number.
fn refused() -> [Option<Reason>; TABLE.len()] {
    let short = TlsClientHelloContents { random: &[7; 31], ..hello() };
    let unwritten = TlsMessageHandshake::ServerDone(&[]);
    let mut out = [0; 100];
    [
        client(&[]),
        reason(parse_tls_plaintext(&[0x16, 0x03, 0x03, 0, 4, 0x01, 0, 0, 0])),
        client(&[33]),
        client(&[0, 0, 1, 0]),
        reason(parse_tls_handshake_server_hello(&[0x03, 0x04])),
        reason(parse_tls_message_handshake(&[0x03, 0, 0, 0])),
        reason(parse_tls_raw_record(&[0x16, 0x03, 0x03, 0x41, 0x01])),
        reason(gen_tls_clienthello(&short, &mut out)),
        reason(gen_tls_hellorequest(&mut out[..3])),
        reason(record_walk_next(&[0, 0, 0, 0], 4)),
        reason(gen_tls_messagehandshake(&unwritten, &mut out)),
    ]
}

#[test]
fn each_is_given() {
    assert!(refused().into_iter().flatten().eq(Reason::ALL.iter().copied()));
}

#[test]
fn numbers_and_names() {
    assert_eq!(Reason::ALL.len(), TABLE.len());
    for (reason, (number, name)) in Reason::ALL.iter().zip(TABLE) {
        let refusal = Refusal::from(*reason);
        assert_eq!((refusal.number(), refusal.name()), (number, name));
        assert_eq!(Reason::from(number), *reason);
        assert_eq!(refusal.to_string(), format!("{name} ({number}): {}", reason.text()));
        assert!(refusal == *reason);
        let error: &dyn std::error::Error = &refusal;
        assert!(error.source().is_none());
    }
}

#[test]
fn an_unknown_number_has_no_name_of_another() {
    let known: HashMap<u8, &str> = TABLE.into_iter().collect();
    for number in (0..=u8::MAX).filter(|number| !known.contains_key(number)) {
        let unknown = Reason::from(number);
        assert_eq!((unknown, unknown.number()), (Reason::Unknown(number), number));
        assert!(known.values().all(|name| *name != unknown.name()));
    }
    assert_eq!(Reason::from(10), Reason::Unknown(10));
}

#[test]
fn no_room_at_every_length_short_of_the_text() {
    let mut out = [0xa5; 100];
    let text = gen_tls_clienthello(&hello(), &mut out).expect("room");
    assert_eq!(text, 4 + 2 + 32 + 9 + 6 + 2 + 6);
    assert!(out[text..].iter().all(|b| *b == 0xa5));
    for room in 0..text {
        let mut out = [0xa5; 100];
        let answer = gen_tls_clienthello(&hello(), &mut out[..room]);
        assert_eq!(reason(answer), Some(Reason::NoRoom), "{room} bytes");
        assert_eq!(out, [0xa5; 100], "{room} bytes");
    }
    assert_eq!(gen_tls_clienthello(&hello(), &mut out[..text]), Ok(text));
}

#[test]
fn parts_that_are_too_long() {
    let long = vec![0; 1 << 24];
    let (byte, word) = (&long[..256], &long[..1 << 16]);
    let ecdh = TlsClientKeyExchangeContents::Ecdh(ECPoint { point: byte });
    let hdr = TlsRecordHeader { record_type: TlsRecordType::Handshake, version: TlsVersion::Tls12, len: 0 };
    let mut out = vec![0xa5; (1 << 24) + 8];
    let bad = Some(Reason::BadLength);
    for hello in [
        TlsClientHelloContents { random: &long[..33], ..hello() },
        TlsClientHelloContents { session_id: Some(&long[..33]), ..hello() },
        TlsClientHelloContents { ciphers: List::new(&long[..3]), ..hello() },
        TlsClientHelloContents { ciphers: List::new(word), ..hello() },
        TlsClientHelloContents { comp: List::new(byte), ..hello() },
        TlsClientHelloContents { ext: Some(word), ..hello() },
    ] {
        assert_eq!(reason(gen_tls_clienthello(&hello, &mut out)), bad, "{:?}", hello.random.len());
    }
    assert_eq!(reason(gen_tls_clientkeyexchange(&ecdh, &mut out)), bad);
    assert_eq!(reason(gen_tls_clientkeyexchange(&TlsClientKeyExchangeContents::Dh(word), &mut out)), bad);
    assert_eq!(
        reason(gen_tls_clientkeyexchange(&TlsClientKeyExchangeContents::Unknown(&long), &mut out)),
        bad
    );
    assert_eq!(reason(gen_tls_finished(&long, &mut out)), bad);
    let unwritten = TlsMessageHandshake::ServerDone(&long);
    assert_eq!(reason(gen_tls_messagehandshake(&unwritten, &mut out)), Some(Reason::NotYetImplemented));
    let large = &long[..usize::from(MAX_RECORD_LEN) + 1];
    assert_eq!(reason(gen_tls_plaintext(&hdr, large, &mut out)), Some(Reason::TooLarge));
    assert!(out.iter().all(|b| *b == 0xa5), "a refused writing changed the output");
}
