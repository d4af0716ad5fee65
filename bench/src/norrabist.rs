//! Norrabist's side: the same work, by the same names.

use crate::each;
use norrabist::*;

fn len(part: Option<&[u8]>) -> usize {
    part.map_or(0, <[u8]>::len)
}

#[inline(never)]
fn hello(c: &TlsClientHelloContents) -> usize {
    // by value, the form of `List` without references: `iter()` would look up each in a table
    let ciphers: usize = c.ciphers.values().map(|id| usize::from(id.0)).sum();
    let methods: usize = c.comp.values().map(|id| usize::from(id.0)).sum();
    usize::from(c.version.0) + c.random.len() + len(c.session_id) + ciphers + methods + len(c.ext)
}

#[inline(never)]
fn answer(s: &TlsServerHelloContents) -> usize {
    let numbers = usize::from(s.version.0) + usize::from(s.cipher.0) + usize::from(s.compression.0);
    numbers + s.random.len() + len(s.session_id) + len(s.ext)
}

#[inline(never)]
fn request(r: &TlsCertificateRequestContents) -> usize {
    let types: usize = r.cert_types.values().map(usize::from).sum();
    let pairs: usize = r.sig_hash_algs.into_iter().flatten().map(usize::from).sum();
    types + pairs + r.unparsed_ca.iter().map(|name| name.len()).sum::<usize>()
}

#[inline(never)]
fn certificate(c: &TlsCertificateContents) -> usize {
    c.cert_chain.iter().map(|cert| cert.data.len()).sum()
}

#[inline]
fn opened(m: &TlsMessage) -> usize {
    match m {
        TlsMessage::Handshake(m) => message(m),
        // the classes hold handshake messages; a closure that looks at five cases is another one
        _ => 0,
    }
}

#[inline]
fn message(m: &TlsMessageHandshake) -> usize {
    match m {
        TlsMessageHandshake::HelloRequest => 1,
        TlsMessageHandshake::ClientHello(c) => hello(c),
        TlsMessageHandshake::ServerHello(s) => answer(s),
        TlsMessageHandshake::Certificate(c) => certificate(c),
        TlsMessageHandshake::CertificateRequest(r) => request(r),
        TlsMessageHandshake::CertificateStatus(s) => s.blob.len(),
        TlsMessageHandshake::NewSessionTicket(t) => t.ticket_lifetime_hint as usize + t.ticket.len(),
        TlsMessageHandshake::ServerKeyExchange(k) => k.parameters.len(),
        TlsMessageHandshake::ClientKeyExchange(TlsClientKeyExchangeContents::Unknown(k)) => k.len(),
        TlsMessageHandshake::ServerDone(b) | TlsMessageHandshake::CertificateVerify(b) => b.len(),
        TlsMessageHandshake::Finished(b) => b.len(),
        TlsMessageHandshake::NextProtocol(n) => n.selected_protocol.len() + n.padding.len(),
        TlsMessageHandshake::KeyUpdate(n) => usize::from(*n),
        _ => 2,
    }
}

/// The type, and what is in the kinds that all sides open.
#[inline]
fn extension(e: &TlsExtension) -> usize {
    let inside = match e {
        TlsExtension::SNI(all) => all.iter().map(|(of, name)| usize::from(of.0) + name.len()).sum(),
        TlsExtension::MaxFragmentLength(n) => usize::from(*n),
        TlsExtension::EllipticCurves(groups) => groups.values().map(|id| usize::from(id.0)).sum(),
        _ => 0,
    };
    usize::from(TlsExtensionType::from(e).0) + inside
}

/// The record at the front: what is behind it, and what was seen in it.
#[inline]
pub fn step(i: &[u8]) -> Option<(&[u8], usize)> {
    let (rest, record) = parse_tls_plaintext(i).ok()?;
    Some((rest, usize::from(record.hdr.len) + record.msg.iter().map(|m| opened(&m)).sum::<usize>()))
}

#[inline(never)]
pub fn record(i: &[u8]) -> usize {
    step(i).map_or(usize::MAX, |(rest, seen)| rest.len() + seen)
}

/// One record after the other.
#[inline(never)]
pub fn joined(i: &[u8]) -> usize {
    each(i, step)
}

/// One message after the other, by the list of them.
#[inline(never)]
pub fn walk(content: &[u8]) -> usize {
    TlsMessages::new(content).iter().map(|m| opened(&m)).sum()
}

/// One message after the other, by the reader of one.
#[inline(never)]
pub fn one(content: &[u8]) -> usize {
    each(content, |i| parse_tls_message_handshake(i).ok().map(|(rest, m)| (rest, opened(&m))))
}

#[inline(never)]
pub fn client_hello(i: &[u8]) -> usize {
    parse_tls_handshake_client_hello(i).map_or(usize::MAX, |(_, c)| hello(&c))
}

#[inline(never)]
pub fn server_hello(i: &[u8]) -> usize {
    parse_tls_handshake_server_hello(i).map_or(usize::MAX, |(_, s)| answer(&s))
}

/// All extensions of a block.
#[inline(never)]
pub fn block(i: &[u8]) -> usize {
    parse_tls_extensions(i).map_or(usize::MAX, |(_, all)| all.iter().map(|e| extension(&e)).sum())
}
