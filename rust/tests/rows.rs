//! The rows of RULES 8, one by one.

mod support;

use norrabist::TlsMessageHandshake::{Certificate, HelloRequest};
use norrabist::*;
use support::text::hex;

fn bytes(text: &str) -> Vec<u8> {
    hex(text).expect("hex")
}

fn reason<T>(answer: Result<T, Refusal>) -> Option<Reason> {
    answer.err().map(|refusal| refusal.reason)
}

/// `0303 Z` and what follows; Z is 32 zero bytes.
fn hello(rest: &str) -> Vec<u8> {
    [bytes("0303"), vec![0; 32], bytes(rest)].concat()
}

/// H, `0303 Z 00 0000 00`, and what follows.
fn h(rest: &str) -> Vec<u8> {
    [hello("00 0000 00"), bytes(rest)].concat()
}

fn client_refusal(body: &[u8]) -> Option<Reason> {
    reason(parse_tls_handshake_client_hello(body))
}

/// H is read with no id and all lists empty; extensions and the tail's place are given.
fn reads_h(rest: &str, ext: Option<&[u8]>, tail: usize) {
    let body = h(rest);
    let (left, hello) = parse_tls_handshake_client_hello(&body).expect("a hello");
    assert_eq!((hello.version, hello.random), (TlsVersion::Tls12, &[0; 32][..]));
    assert_eq!((hello.session_id, hello.ext), (None, ext));
    assert!(hello.ciphers.is_empty() && hello.comp.is_empty());
    assert_eq!((hello.tail, left), (&body[tail..], &body[tail..]));
}

#[test]
fn row_1_an_empty_client_hello() {
    assert_eq!(client_refusal(&[]), Some(Reason::Incomplete));
}

#[test]
fn rows_2_to_5_extensions_and_tail() {
    assert_eq!(h("").len(), 38);
    reads_h("", None, 38);
    reads_h("00", None, 38);
    reads_h("0000", Some(&[]), 40);
    reads_h("0001", None, 38);
}

/// Read strictly, none of them is taken: they have no ciphers.
#[test]
fn rows_2_to_5_read_strictly() {
    for rest in ["", "00", "0000", "0001"] {
        let body = h(rest);
        let (_, hello) = parse_tls_handshake_client_hello(&body).expect("a hello");
        assert_eq!(hello.exactness(), Exactness::NoCiphers);
        let strict = reason(parse_tls_handshake_client_hello_strict(&body));
        let message = reason(parse_tls_handshake_msg_client_hello_strict(&body));
        assert_eq!((strict, message), (Some(Reason::LengthValue), Some(Reason::LengthValue)));
    }
}

#[test]
fn rows_6_and_7_session_ids() {
    assert_eq!(client_refusal(&hello("21")), Some(Reason::Verify));
    let short = [hello("20"), vec![0; 31]].concat();
    assert_eq!(client_refusal(&short), Some(Reason::Incomplete));
}

#[test]
fn rows_8_and_9_list_lengths() {
    assert_eq!(client_refusal(&hello("00 0001 00")), Some(Reason::LengthValue));
    assert_eq!(client_refusal(&hello("00 0002 00")), Some(Reason::LengthValue));
    assert_eq!(client_refusal(&hello("00 0000 01")), Some(Reason::LengthValue));
}

#[test]
fn rows_10_and_11_messages() {
    let refusal = |message: &str| reason(parse_tls_message_handshake(&bytes(message)));
    assert_eq!(refusal("03 000000"), Some(Reason::Switch));
    assert_eq!(refusal("03 000001"), Some(Reason::Incomplete));
    assert_eq!(refusal("01 000000"), Some(Reason::Incomplete));
    let record = bytes("16 0301 0004 01000000");
    assert_eq!(reason(parse_tls_plaintext(&record)), Some(Reason::Complete));
}

#[test]
fn rows_12_and_13_records() {
    let refusal = |record: &str| reason(parse_tls_plaintext(&bytes(record)));
    assert_eq!(refusal("16 0301 4101"), Some(Reason::TooLarge));
    assert_eq!(refusal("16 0301 4100"), Some(Reason::Incomplete));
    let record = bytes("16 0303 0005 00000000 01");
    let (rest, record) = parse_tls_plaintext(&record).expect("a record");
    assert_eq!((record.count(), record.dropped(), rest), (1, 1, &[][..]));
    assert!(record.msg.handshakes().eq([HelloRequest]));
}

#[test]
fn row_14_server_hello_versions() {
    assert_eq!(reason(parse_tls_handshake_server_hello(&bytes("0304"))), Some(Reason::Tag));
    assert_eq!(reason(parse_tls_handshake_server_hello(&bytes("03"))), Some(Reason::Incomplete));
}

#[test]
fn row_15_h_written_back() {
    let body = h("");
    let (_, hello) = parse_tls_handshake_client_hello(&body).expect("a hello");
    let mut out = [0xff; 50];
    assert_eq!(gen_tls_clienthello(&hello, &mut out), Ok(44));
    let text = [bytes("01 000028"), h("0000")].concat();
    assert_eq!(out, [&text[..], &[0xff; 6]].concat()[..]);
}

#[test]
fn row_16_a_certificate_list() {
    let body = bytes("000005 000001 aa ff");
    let (rest, message) = parse_tls_handshake_msg_certificate(&body).expect("a list");
    let Certificate(contents) = message else { panic!("{message:?}") };
    assert!(contents.cert_chain.iter().eq([RawCertificate { data: &[0xaa] }]));
    assert_eq!((contents.cert_chain.len(), rest), (1, &[][..]));
}

#[test]
fn rows_17_and_18_certificate_requests() {
    let empty: &[u8] = &[];
    let request = |body: &str, pairs: Option<usize>, names: &[&[u8]]| {
        let body = bytes(body);
        let (rest, contents) = parse_tls_handshake_certificaterequest(&body).expect("a request");
        assert!(contents.cert_types.is_empty() && rest.is_empty());
        assert_eq!(contents.sig_hash_algs.map(|pairs| pairs.len()), pairs);
        assert_eq!(contents.unparsed_ca.iter().collect::<Vec<_>>(), names);
    };
    request("00 0002 0000", None, &[empty]);
    request("00 0000 0000", Some(0), &[]);
    request("00 0000", None, &[]);
    assert_eq!(reason(parse_tls_handshake_certificaterequest(&bytes("00 00"))), Some(Reason::Complete));
}
