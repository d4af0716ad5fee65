//! Time and bytes of a ClientHello's random, whatever its length.

use norrabist::*;

/// A made-up hello.
fn hello(random: &[u8]) -> TlsClientHelloContents<'_> {
    TlsClientHelloContents::new(TlsVersion::Tls12.0, random, None, List::new(&[]), List::new(&[]), None)
}

#[test]
fn made_up() {
    let bytes: Vec<u8> = (1..=32).collect();
    let told = |n: usize| {
        let hello = hello(&bytes[..n]);
        (hello.rand_time(), hello.gmt_unix_time(), hello.rand_bytes())
    };
    assert_eq!(told(0), (0, 0, &[][..]));
    assert_eq!(told(3), (0, 0, &[][..]));
    assert_eq!(told(4), (0x0102_0304, 0x0102_0304, &[][..]));
    assert_eq!(told(5), (0, 0x0102_0304, &[5][..]));
    assert_eq!(told(32), (0, 0x0102_0304, &bytes[4..]));
}

#[test]
fn largest() {
    let hello = hello(&[0xff; 4]);
    assert_eq!((hello.rand_time(), hello.gmt_unix_time()), (u32::MAX, u32::MAX));
}

#[test]
fn read() {
    let mut body = [0; 38];
    body[..6].copy_from_slice(&[0x03, 0x03, 0, 0, 0, 1]);
    let (_, hello) = parse_tls_handshake_client_hello(&body).expect("a hello");
    assert_eq!((hello.rand_time(), hello.gmt_unix_time()), (0, 1));
    assert_eq!(hello.rand_bytes().as_ptr_range(), body[6..34].as_ptr_range());
}
