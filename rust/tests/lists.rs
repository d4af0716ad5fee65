//! Lists of all lengths, read as a `Vec` is, and made of one.

use norrabist::*;

/// Numbers that differ, as bytes.
fn numbers(n: usize) -> Vec<u8> {
    (0..n).flat_map(|k| (k as u16 * 257 + 1).to_be_bytes()).collect()
}

fn counted(width: usize, part: &[u8]) -> Vec<u8> {
    [&part.len().to_be_bytes()[size_of::<usize>() - width..], part].concat()
}

/// Parts of lengths 0, 1, 2 and so on, their bytes telling their place.
fn parts(n: usize) -> Vec<Vec<u8>> {
    (0..n).map(|k| vec![k as u8; k]).collect()
}

fn list(width: usize, parts: &[Vec<u8>], tail: &[u8]) -> Vec<u8> {
    let items = parts.iter().map(|part| counted(width, part));
    items.chain([tail.to_vec()]).collect::<Vec<_>>().concat()
}

#[test]
fn numbers_of_two_bytes() {
    for n in [0, 1, 2, 63, 64, 65, 127, 128, 129, 200] {
        for odd in [&[][..], &[0xee]] {
            let bytes = [&numbers(n), odd].concat();
            let list: List<TlsCipherSuiteID> = List::new(&bytes);
            let expected: Vec<u16> = (0..n).map(|k| k as u16 * 257 + 1).collect();
            let mut by_next = Vec::new();
            for cipher in &list {
                by_next.push(cipher.0);
            }
            assert_eq!(by_next, expected, "{n} by next");
            assert_eq!(list.values().map(u16::from).collect::<Vec<_>>(), expected, "{n} folded");
            assert_eq!((list.len(), list.iter().len(), list.is_empty()), (n, n, n == 0));
            assert_eq!(list.as_bytes(), bytes);
        }
    }
}

#[test]
fn numbers_from_the_middle() {
    let bytes = numbers(200);
    let list: List<u16> = List::new(&bytes);
    let mut iter = list.values();
    for k in 0..200usize {
        assert_eq!(iter.len(), 200 - k);
        // what is left, folded
        assert_eq!(iter.clone().fold(0, |n, _| n + 1), 200 - k);
        assert_eq!(iter.next(), Some(k as u16 * 257 + 1));
    }
    assert_eq!((iter.next(), iter.next(), iter.len()), (None, None, 0));
}

#[test]
fn ciphers_of_a_hello() {
    for n in [0, 1, 63, 64, 65, 200] {
        let body = [&[0x03, 0x03][..], &[0; 33], &counted(2, &numbers(n)), &[2, 0, 1]].concat();
        let (_, hello) = parse_tls_handshake_client_hello(&body).expect("a hello");
        assert_eq!((hello.ciphers.len(), hello.ciphers.as_bytes()), (n, &numbers(n)[..]));
        assert_eq!(hello.ciphers.iter().last().map(|c| c.0), n.checked_sub(1).map(|k| k as u16 * 257 + 1));
        assert_eq!(hello.comp.to_vec(), [TlsCompressionID::Null, TlsCompressionID::Deflate]);
        assert_eq!((hello.comp.len(), hello.comp.is_empty(), hello.comp.as_bytes()), (2, false, &[0, 1][..]));
    }
}

#[test]
fn certificates() {
    for n in 0..=20 {
        // nothing, half a length, a length past the end
        for tail in [&[][..], &[0, 0], &[0, 0, 2, 9]] {
            let (parts, chain) = (parts(n), list(3, &parts(n), tail));
            let body = [&counted(3, &chain), &[0xbb][..]].concat();
            let (rest, message) = parse_tls_handshake_msg_certificate(&body).expect("a chain");
            let TlsMessageHandshake::Certificate(c) = message else { panic!("{message:?}") };
            assert!(c.cert_chain.iter().map(|c| c.data).eq(parts.iter().map(|p| &p[..])), "{n}");
            assert_eq!((c.cert_chain.len(), c.cert_chain.is_empty()), (n, n == 0));
            assert_eq!((c.cert_chain.as_bytes(), rest), (&chain[..], &[0xbb][..]));
        }
    }
}

#[test]
fn names_and_pairs() {
    for n in 0..=20 {
        let (parts, names) = (parts(n), list(2, &parts(n), &[0, 1]));
        // an odd byte behind the pairs
        let pairs = [numbers(n), vec![0xee]].concat();
        let body = [counted(1, &[1, 64]), counted(2, &pairs), counted(2, &names)].concat();
        let (rest, c) = parse_tls_handshake_certificaterequest(&body).expect("a request");
        let algs = c.sig_hash_algs.expect("the long form");
        assert!(c.unparsed_ca.iter().eq(parts.iter().map(|p| &p[..])), "{n}");
        assert_eq!((c.unparsed_ca.len(), algs.len(), algs.as_bytes()), (n, n, &pairs[..]));
        assert_eq!((c.cert_types.to_vec(), rest), (vec![1, 64], &[][..]));
    }
}

/// The kinds whose value is the body or nothing.
const WHOLE: [TlsHandshakeType; 7] = [
    TlsHandshakeType::HelloRequest,
    TlsHandshakeType::EndOfEarlyData,
    TlsHandshakeType::ServerKeyExchange,
    TlsHandshakeType::ServerDone,
    TlsHandshakeType::CertificateVerify,
    TlsHandshakeType::ClientKeyExchange,
    TlsHandshakeType::Finished,
];

fn framed(msg_type: TlsHandshakeType, body: &[u8]) -> Vec<u8> {
    [vec![msg_type.0], counted(3, body)].concat()
}

/// A message of each kind whose value is its body or nothing, and some that are opened, by turns.
fn message(k: usize) -> Vec<u8> {
    let body = vec![k as u8; k % 7];
    match k % 10 {
        0 => framed(TlsHandshakeType::KeyUpdate, &[k as u8]),
        1 => framed(TlsHandshakeType::Certificate, &counted(3, &body)),
        2 => framed(TlsHandshakeType::CertificateStatus, &[vec![1], counted(3, &body)].concat()),
        n => framed(WHOLE[n - 3], &body),
    }
}

#[test]
fn messages() {
    for n in [1, 2, 15, 16, 17, 31, 32, 33, 50] {
        // nothing, an unknown type, half a head
        for dropped in [&[][..], &[0x03, 0, 0, 0], &[0x14, 0]] {
            let all: Vec<Vec<u8>> = (0..n).map(message).collect();
            let content = [&all.concat(), dropped].concat();
            let record = [&[0x16, 0x03, 0x03][..], &counted(2, &content), &[0x17]].concat();
            let (rest, record) = parse_tls_plaintext(&record).expect("a record");
            assert_eq!((record.count(), record.dropped(), rest), (n, dropped.len(), &[0x17][..]));
            let alone = all.iter().map(|m| parse_tls_message_handshake(m).expect("a message").1);
            assert!(record.msg.iter().eq(alone), "{n} messages");
            let heads = record.msg.heads().map(|head| (head.kind.0, head.body));
            assert!(heads.eq(all.iter().map(|m| (m[0], &m[4..]))), "{n} heads");
            assert_eq!(record.msg, TlsMessages::new(&content));
            assert_eq!((record.msg.len(), record.msg.is_empty()), (n, false));
        }
    }
}

#[test]
fn content_without_messages() {
    for content in [&[][..], &[0x01, 0, 0, 0], &[0x03, 0, 0, 0], &[0, 0, 0]] {
        let messages = TlsMessages::new(content);
        assert!(messages.is_empty() && messages.iter().next().is_none() && messages.heads().next().is_none());
        assert_eq!(messages.len(), 0);
        assert!(record_walk_next(content, 0).is_err_and(|end| end == Reason::NoSuch));
    }
    assert!(record_walk_next(&[0, 0, 0, 0], usize::MAX).is_err_and(|end| end == Reason::NoSuch));
}

#[test]
fn lists_are_equal_by_their_items() {
    let (even, odd) = ([0, 1, 0, 2], [0, 1, 0, 2, 9]);
    assert_eq!(List::<u16>::new(&even), List::new(&odd));
    assert_ne!(List::<u16>::new(&even), List::new(&even[..2]));
    assert_eq!(format!("{:?}", List::<u16>::new(&odd)), "[1, 2]");
    assert_eq!(format!("{:?}", List::<TlsCompressionID>::new(&[0, 9])), "[Null, TlsCompressionID(9 / 0x9)]");
}

#[test]
fn numbers_by_their_places() {
    let bytes = numbers(200);
    for bytes in [&bytes[..], &[&bytes[..], &[0xee]].concat()] {
        let list: List<TlsCipherSuiteID> = List::new(bytes);
        let all = list.to_vec();
        assert_eq!((all.len(), list.first(), list.last()), (200, all.first(), all.last()));
        assert!(list.iter().eq(&all) && list.iter().rev().eq(all.iter().rev()));
        assert!(list.values().rev().eq(all.iter().rev().copied()) && list.into_iter().eq(all.clone()));
        for (place, cipher) in all.iter().enumerate() {
            assert_eq!((list.get(place), &list[place]), (Some(cipher), cipher));
            assert_eq!(list.iter().nth_back(place), all.iter().nth_back(place));
            assert!(list.contains(cipher));
        }
        assert_eq!((list.get(200), list.get(usize::MAX)), (None, None));
        assert!(!list.contains(&TlsCipherSuiteID(0)));
    }
}

/// Each value has a place of its own, which holds it.
#[test]
fn every_number_by_reference() {
    for n in 0..=u16::MAX {
        let bytes = n.to_be_bytes();
        assert_eq!(List::<TlsCipherSuiteID>::new(&bytes)[0], TlsCipherSuiteID(n));
        assert_eq!(List::<u16>::new(&bytes)[0], n);
        assert_eq!(List::<TlsCompressionID>::new(&bytes)[1], TlsCompressionID(bytes[1]));
        assert_eq!(List::<u8>::new(&bytes)[1], bytes[1]);
    }
}

#[test]
#[should_panic(expected = "index out of bounds: the len is 1 but the index is 1")]
fn no_such_place() {
    let _ = List::<u16>::new(&[0, 1, 2])[1];
}

#[test]
fn parts_by_their_places() {
    let parts = parts(20);
    let chain = list(3, &parts, &[0]);
    let chain: List<RawCertificate> = List::new(&chain);
    let all = chain.to_vec();
    assert!(all.iter().map(|cert| cert.data).eq(parts.iter().map(|part| &part[..])));
    assert_eq!((chain.first(), chain.last()), (all.first().copied(), all.last().copied()));
    assert_eq!((chain.get(7), chain.get(20)), (Some(all[7]), None));
    assert!(chain.contains(&all[19]) && chain.into_iter().eq(all.iter().copied()));
    assert_eq!(chain, all);
    assert_eq!(all, chain);
}

#[test]
fn made_of_a_vec() {
    for n in [0, 1, 2, 200, 40_000] {
        let ciphers: Vec<TlsCipherSuiteID> = (0..n).map(|k| TlsCipherSuiteID(k as u16)).collect();
        let list = List::from(ciphers.clone());
        assert_eq!((list.as_bytes(), list.len()), (&List::encode(&ciphers)[..], n));
        assert_eq!((&list, list == ciphers[..]), (&ciphers.iter().copied().collect(), true));
        assert_eq!(Vec::from(list), ciphers);
        // an equal list is the same memory
        assert_eq!(List::from(&ciphers[..]).as_bytes().as_ptr(), list.as_bytes().as_ptr());
    }
    assert_eq!(List::from([1u8, 2]).as_bytes(), [1, 2]);
    assert_eq!(List::<u16>::default(), []);
}

/// A message is a value of plain words: there is nothing to drop.
#[test]
fn nothing_to_drop() {
    assert!(!std::mem::needs_drop::<TlsMessageHandshake>() && !std::mem::needs_drop::<TlsMessage>());
}
