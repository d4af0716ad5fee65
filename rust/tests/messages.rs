//! The messages of a record, by every way through them.

use norrabist::*;

/// A KeyUpdate, a Finished, a HelloRequest; then a Certificate that is cut off.
const CONTENT: [u8; 19] = [0x18, 0, 0, 1, 7, 0x14, 0, 0, 1, 9, 0, 0, 0, 0, 0x0b, 0, 0, 1, 0];

fn record() -> Vec<u8> {
    [&[0x16, 0x03, 0x03, 0, CONTENT.len() as u8][..], &CONTENT].concat()
}

const EXPECTED: [TlsMessageHandshake; 3] = [
    TlsMessageHandshake::KeyUpdate(7),
    TlsMessageHandshake::Finished(&[9]),
    TlsMessageHandshake::HelloRequest,
];

/// What is handed out when `taken` messages were taken before.
fn left(handshakes: Handshakes<'_>) -> Vec<TlsMessageHandshake<'_>> {
    let mut by_next = handshakes.clone();
    let mut left = Vec::new();
    for message in by_next.by_ref() {
        left.push(message);
    }
    // it stays at its end
    assert_eq!((by_next.next(), by_next.next()), (None, None));
    let mut folded = Vec::new();
    handshakes.clone().for_each(|message| folded.push(message));
    assert_eq!((&folded, handshakes.count()), (&left, left.len()));
    left
}

#[test]
fn every_way_hands_out_the_same() {
    let bytes = record();
    let (_, record) = parse_tls_plaintext(&bytes).expect("a record");
    for messages in [record.msg, TlsMessages::new(&CONTENT)] {
        let mut handshakes = messages.handshakes();
        for taken in 0..=EXPECTED.len() {
            assert_eq!(left(handshakes.clone()), EXPECTED[taken..]);
            handshakes.next();
        }
        let expected = EXPECTED.map(TlsMessage::Handshake);
        assert_eq!(messages, expected);
        assert_eq!(messages, expected.to_vec());
        assert_eq!(expected.to_vec(), messages);
        assert_ne!(messages, expected[..2]);
        assert_eq!((messages.to_vec(), Vec::from(messages)), (expected.to_vec(), expected.to_vec()));
        assert_eq!(messages.last(), Some(expected[2]));
        assert!(messages.iter().eq(expected) && messages.into_iter().eq(&messages));
        assert_eq!(
            (messages.first(), messages.get(2), messages.get(3)),
            (Some(expected[0]), Some(expected[2]), None)
        );
        assert!(messages.heads().map(|head| head.kind).eq(EXPECTED.map(|message| message.handshake_type())));
        assert_eq!((messages.len(), messages.heads().count(), messages.iter().count()), (3, 3, 3));
    }
    assert_eq!((record.count(), record.dropped()), (3, 5));
}

/// Iterators have at most 64 bytes: a slice, or one with a place and what was told of a message.
#[test]
fn what_is_handed_round_is_small() {
    assert_eq!((size_of::<Heads>(), size_of::<Handshakes>(), size_of::<Messages>()), (24, 48, 56));
    assert_eq!((size_of::<Parts<RawCertificate>>(), size_of::<Parts<&[u8]>>()), (24, 24));
    assert_eq!((size_of::<Refs<u16>>(), size_of::<Values<TlsCipherSuiteID>>()), (40, 40));
    assert_eq!((size_of::<Refs<u8>>(), size_of::<Values<TlsCompressionID>>()), (16, 16));
    assert_eq!((size_of::<TlsMessages>(), size_of::<List<RawCertificate>>()), (56, 16));
    assert!(size_of::<Refusal>() <= 2);
}
