//! tls-parser's side: records, messages and extensions opened, and all that is in them visited.

use crate::each;
use tls_parser::*;

fn len(part: Option<&[u8]>) -> usize {
    part.map_or(0, <[u8]>::len)
}

#[inline(never)]
fn hello(c: &TlsClientHelloContents) -> usize {
    let ciphers: usize = c.ciphers.iter().map(|id| usize::from(id.0)).sum();
    let methods: usize = c.comp.iter().map(|id| usize::from(id.0)).sum();
    usize::from(c.version.0) + c.random.len() + len(c.session_id) + ciphers + methods + len(c.ext)
}

#[inline(never)]
fn answer(s: &TlsServerHelloContents) -> usize {
    let numbers = usize::from(s.version.0) + usize::from(s.cipher.0) + usize::from(s.compression.0);
    numbers + s.random.len() + len(s.session_id) + len(s.ext)
}

#[inline(never)]
fn request(r: &TlsCertificateRequestContents) -> usize {
    let types: usize = r.cert_types.iter().map(|t| usize::from(*t)).sum();
    let pairs: usize = r.sig_hash_algs.iter().flatten().map(|pair| usize::from(*pair)).sum();
    types + pairs + r.unparsed_ca.iter().map(|name| name.len()).sum::<usize>()
}

#[inline(never)]
fn certificate(c: &TlsCertificateContents) -> usize {
    c.cert_chain.iter().map(|cert| cert.data.len()).sum()
}

#[inline]
fn message(m: &TlsMessageHandshake) -> usize {
    match m {
        TlsMessageHandshake::HelloRequest => 1,
        TlsMessageHandshake::ClientHello(c) => hello(c),
        TlsMessageHandshake::ServerHello(s) => answer(s),
        TlsMessageHandshake::Certificate(c) => certificate(c),
        TlsMessageHandshake::CertificateRequest(r) => request(r),
        TlsMessageHandshake::CertificateStatus(s) => s.blob.len(),
        // its two bytes of length are part of the ticket here
        TlsMessageHandshake::NewSessionTicket(t) => t.ticket_lifetime_hint as usize + t.ticket.len() - 2,
        TlsMessageHandshake::ServerKeyExchange(k) => k.parameters.len(),
        TlsMessageHandshake::ClientKeyExchange(TlsClientKeyExchangeContents::Unknown(k)) => k.len(),
        TlsMessageHandshake::ServerDone(b) | TlsMessageHandshake::CertificateVerify(b) => b.len(),
        TlsMessageHandshake::Finished(b) => b.len(),
        TlsMessageHandshake::NextProtocol(n) => n.selected_protocol.len() + n.padding.len(),
        TlsMessageHandshake::KeyUpdate(n) => usize::from(*n),
        _ => 2,
    }
}

#[inline]
fn opened(m: &TlsMessage) -> usize {
    match m {
        TlsMessage::Handshake(m) => message(m),
        // the classes hold handshake messages; a closure that looks at five cases is another one
        _ => 0,
    }
}

/// The type, and what is in the kinds that all sides open.
#[inline]
fn extension(e: &TlsExtension) -> usize {
    let inside = match e {
        TlsExtension::SNI(all) => all.iter().map(|(of, name)| usize::from(of.0) + name.len()).sum(),
        TlsExtension::MaxFragmentLength(n) => usize::from(*n),
        TlsExtension::EllipticCurves(groups) => groups.iter().map(|id| usize::from(id.0)).sum(),
        _ => 0,
    };
    usize::from(TlsExtensionType::from(e).0) + inside
}

/// The record at the front: what is behind it, and what was seen in it.
#[inline]
pub fn step(i: &[u8]) -> Option<(&[u8], usize)> {
    let (rest, record) = parse_tls_plaintext(i).ok()?;
    Some((rest, usize::from(record.hdr.len) + record.msg.iter().map(opened).sum::<usize>()))
}

#[inline(never)]
pub fn record(i: &[u8]) -> usize {
    step(i).map_or(usize::MAX, |(rest, seen)| rest.len() + seen)
}

/// One record after the other.
#[inline(never)]
pub fn joined(i: &[u8]) -> usize {
    each(i, step)
}

/// One message after the other.
#[inline(never)]
pub fn walk(content: &[u8]) -> usize {
    each(content, |i| parse_tls_message_handshake(i).ok().map(|(rest, m)| (rest, opened(&m))))
}

#[inline(never)]
pub fn client_hello(i: &[u8]) -> usize {
    parse_tls_handshake_client_hello(i).map_or(usize::MAX, |(_, c)| hello(&c))
}

#[inline(never)]
pub fn server_hello(i: &[u8]) -> usize {
    parse_tls_handshake_server_hello(i).map_or(usize::MAX, |(_, s)| answer(&s))
}

/// All extensions of a block.
#[inline(never)]
pub fn block(i: &[u8]) -> usize {
    parse_tls_extensions(i).map_or(usize::MAX, |(_, all)| all.iter().map(extension).sum())
}
