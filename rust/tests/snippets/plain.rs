// Code such as is written for tls-parser. `tls` is the crate: the same text compiles with
// tls-parser 0.12.2 and with Norrabist (`tests/swap.rs`, `compare/swap`). One function is one
// snippet.

use std::collections::{BTreeSet, HashMap};
use tls::{ClientHello, Serialize};
use tls::{TlsCipherSuiteID, TlsCompressionID, TlsHandshakeType, TlsRecordType, TlsVersion};
use tls::{TlsCipherEnc, TlsCipherKx, TlsCipherMac, TlsCipherSuite};
use tls::{TlsClientHelloContents, TlsMessageHandshake, TlsServerHelloContents};

pub fn header_as_numbers(i: &[u8]) -> Option<(u8, u16, u16)> {
    let (_, hdr) = tls::parse_tls_record_header(i).ok()?;
    Some((hdr.record_type.0, hdr.version.0, hdr.len))
}

pub fn header_by_conversion(i: &[u8]) -> (u8, u16) {
    match tls::parse_tls_record_header(i) {
        Ok((_, hdr)) => (u8::from(hdr.record_type), hdr.version.into()),
        Err(_) => (0, 0),
    }
}

pub fn raw_records(mut i: &[u8]) -> usize {
    let mut bytes = 0;
    while let Ok((rest, record)) = tls::parse_tls_raw_record(i) {
        bytes += record.data.len();
        i = rest;
    }
    bytes
}

pub fn raw_records_by_type(mut i: &[u8]) -> HashMap<u8, usize> {
    let mut counts = HashMap::new();
    while let Ok((rest, record)) = tls::parse_tls_raw_record(i) {
        *counts.entry(record.hdr.record_type.0).or_insert(0) += 1;
        i = rest;
    }
    counts
}

pub fn type_is_known(i: &[u8]) -> &'static str {
    let Ok((_, record)) = tls::parse_tls_raw_record(i) else { return "not a record" };
    match record.hdr.record_type {
        TlsRecordType::ChangeCipherSpec => "change cipher spec",
        TlsRecordType::Alert => "alert",
        TlsRecordType::Handshake => "handshake",
        TlsRecordType::ApplicationData => "data",
        TlsRecordType::Heartbeat => "heartbeat",
        _ => "other",
    }
}

pub fn encrypted_lengths(i: &[u8]) -> Vec<usize> {
    let mut lengths = Vec::new();
    let mut rest = i;
    while !rest.is_empty() {
        match tls::parse_tls_encrypted(rest) {
            Ok((next, record)) => {
                lengths.push(record.msg.blob.len());
                rest = next;
            }
            Err(_) => break,
        }
    }
    lengths
}

pub fn too_long(len: u16) -> bool {
    len > tls::MAX_RECORD_LEN
}

pub fn older_than_12(i: &[u8]) -> bool {
    matches!(tls::parse_tls_record_header(i), Ok((_, hdr)) if hdr.version.0 < TlsVersion::Tls12.0)
}

pub fn version_by_name(version: TlsVersion) -> &'static str {
    match version {
        TlsVersion::Ssl30 => "SSLv3",
        TlsVersion::Tls10 => "TLSv1.0",
        TlsVersion::Tls11 => "TLSv1.1",
        TlsVersion::Tls12 => "TLSv1.2",
        TlsVersion::Tls13 => "TLSv1.3",
        _ => "unknown",
    }
}

pub fn version_as_text(version: TlsVersion) -> String {
    format!("{} {:?} {:x} {:?}", version, version, version, version.to_be_bytes())
}

pub fn ciphers_pushed(ch: &TlsClientHelloContents) -> Vec<u16> {
    let mut ids = Vec::with_capacity(ch.ciphers.len());
    for cipher in &ch.ciphers {
        ids.push(cipher.0);
    }
    ids
}

pub fn ciphers_pushed_by_pattern(ch: &TlsClientHelloContents) -> Vec<u16> {
    let mut ids = Vec::new();
    for &TlsCipherSuiteID(id) in ch.ciphers.iter() {
        ids.push(id);
    }
    ids
}

pub fn ciphers_mapped(ch: &TlsClientHelloContents) -> Vec<u16> {
    ch.ciphers.iter().map(|&cipher| u16::from(cipher)).collect()
}

pub fn ciphers_dereferenced(ch: &TlsClientHelloContents) -> Vec<u16> {
    ch.ciphers.iter().map(|cipher| **cipher).collect()
}

pub fn ciphers_without_grease(ch: &TlsClientHelloContents) -> Vec<TlsCipherSuiteID> {
    ch.ciphers.iter().copied().filter(|cipher| cipher.0 & 0x0f0f != 0x0a0a).collect()
}

pub fn offers_tls13(ch: &TlsClientHelloContents) -> bool {
    ch.ciphers.iter().any(|&cipher| cipher == TlsCipherSuiteID(0x1301))
}

pub fn offers(ch: &TlsClientHelloContents, id: u16) -> bool {
    ch.ciphers.contains(&TlsCipherSuiteID(id))
}

pub fn place_of(ch: &TlsClientHelloContents, wanted: TlsCipherSuiteID) -> Option<usize> {
    ch.ciphers.iter().position(|c| *c == wanted)
}

pub fn first_and_last(ch: &TlsClientHelloContents) -> Option<(u16, u16)> {
    Some((ch.ciphers.first()?.0, ch.ciphers.last()?.0))
}

pub fn second<'a>(ch: &'a TlsClientHelloContents) -> Option<&'a TlsCipherSuiteID> {
    ch.ciphers.get(1)
}

pub fn first_by_pattern(ch: &TlsClientHelloContents) -> u16 {
    if let Some(&TlsCipherSuiteID(id)) = ch.ciphers.get(0) {
        id
    } else {
        0
    }
}

pub fn by_index(ch: &TlsClientHelloContents) -> u16 {
    if ch.ciphers.is_empty() {
        return 0;
    }
    ch.ciphers[0].0 ^ *ch.ciphers[ch.ciphers.len() - 1]
}

pub fn backwards(ch: &TlsClientHelloContents) -> Vec<u16> {
    ch.ciphers.iter().rev().map(|c| c.0).collect()
}

fn take(cipher: TlsCipherSuiteID) -> u32 {
    u32::from(cipher.0)
}

pub fn by_value(ch: TlsClientHelloContents) -> u32 {
    let mut sum = 0;
    for cipher in ch.ciphers {
        sum += take(cipher);
    }
    sum
}

pub fn by_value_iterator(ch: TlsClientHelloContents) -> u32 {
    ch.ciphers.into_iter().map(take).sum()
}

pub fn sorted(ch: &TlsClientHelloContents) -> Vec<TlsCipherSuiteID> {
    let mut ciphers = ch.ciphers.to_vec();
    ciphers.sort_by_key(|c| c.0);
    ciphers.dedup();
    ciphers
}

pub fn as_a_set(ch: &TlsClientHelloContents) -> BTreeSet<u16> {
    ch.ciphers.iter().map(|c| c.0).collect()
}

pub fn gathered(hellos: &[TlsClientHelloContents]) -> Vec<TlsCipherSuiteID> {
    let mut all = Vec::new();
    for hello in hellos {
        all.extend(&hello.ciphers);
    }
    all
}

pub fn counted(hellos: &[TlsClientHelloContents]) -> HashMap<u16, u32> {
    let mut counts = HashMap::new();
    for cipher in hellos.iter().flat_map(|hello| hello.ciphers.iter()) {
        *counts.entry(cipher.0).or_default() += 1;
    }
    counts
}

fn ids<'a>(ciphers: impl IntoIterator<Item = &'a TlsCipherSuiteID>) -> Vec<u16> {
    ciphers.into_iter().map(|c| c.0).collect()
}

pub fn generic_over_lists(ch: &TlsClientHelloContents) -> Vec<u16> {
    ids(&ch.ciphers)
}

pub fn numbered(ch: &TlsClientHelloContents) -> Vec<String> {
    ch.ciphers.iter().enumerate().map(|(k, c)| format!("{k}: {c} {c:x}")).collect()
}

pub fn ja3_ciphers(ch: &TlsClientHelloContents) -> String {
    let ids: Vec<String> = ch.ciphers.iter().map(|c| c.to_string()).collect();
    format!("{},{}", u16::from(ch.version), ids.join("-"))
}

pub fn ja3_ciphers_by_loop(ch: &TlsClientHelloContents) -> String {
    let mut text = String::new();
    for val in &ch.ciphers {
        text.push_str(&u16::from(*val).to_string());
        text.push('-');
    }
    text.pop();
    text
}

pub fn same_offer(a: &TlsClientHelloContents, b: &TlsClientHelloContents) -> bool {
    a.ciphers == b.ciphers && a.ciphers.iter().zip(b.ciphers.iter()).all(|(x, y)| x == y)
}

pub fn compared_with_others(ch: &TlsClientHelloContents) -> [bool; 4] {
    let known = vec![TlsCompressionID::Null];
    [
        ch.comp == vec![TlsCompressionID::Null],
        known == ch.comp,
        ch.comp == [TlsCompressionID::Null],
        ch.comp == &known[..],
    ]
}

pub fn no_compression(ch: &TlsClientHelloContents) -> bool {
    ch.comp.len() == 1 && ch.comp[0] == TlsCompressionID::Null
}

pub fn methods_as_bytes(ch: &TlsClientHelloContents) -> Vec<u8> {
    ch.comp.iter().map(|c| *c.as_ref()).collect()
}

pub fn id_and_extensions(ch: &TlsClientHelloContents) -> (usize, usize) {
    (ch.session_id.map_or(0, |id| id.len()), ch.ext.unwrap_or(b"").len())
}

pub fn resumes(ch: &TlsClientHelloContents) -> bool {
    matches!(ch.session_id, Some(id) if !id.is_empty())
}

pub fn destructured<'a>(ch: &TlsClientHelloContents<'a>) -> (TlsVersion, &'a [u8]) {
    let TlsClientHelloContents { version, random, .. } = ch;
    (*version, random)
}

pub fn by_trait<'a>(ch: &impl ClientHello<'a>) -> Vec<u16> {
    ch.ciphers().iter().map(|c| c.0).collect()
}

pub fn by_trait_object(ch: &dyn ClientHello<'_>) -> usize {
    ch.random().len() + ch.comp().len() + ch.session_id().map_or(0, <[u8]>::len)
}

pub fn all_of_the_trait<'a, H: ClientHello<'a>>(ch: &H) -> (TlsVersion, u32, &'a [u8], Option<&'a [u8]>) {
    (ch.version(), ch.rand_time(), ch.rand_bytes(), ch.ext())
}

pub fn trait_of_contents(ch: &TlsClientHelloContents) -> bool {
    by_trait(ch).len() == ch.ciphers().len() && ch.version() == ch.get_version()
}

pub fn opened_hello(i: &[u8]) -> Result<TlsClientHelloContents<'_>, String> {
    tls::parse_tls_handshake_client_hello(i).map(|(_, hello)| hello).map_err(|e| format!("{e:?}"))
}

pub fn answered(i: &[u8]) -> Option<(TlsVersion, u16, u8)> {
    let (_, sh) = tls::parse_tls_handshake_server_hello(i).ok()?;
    Some((sh.get_version(), sh.cipher.0, *sh.compression))
}

pub fn answered_by_fields(sh: &TlsServerHelloContents) -> String {
    let TlsServerHelloContents { version, cipher, compression, ext, .. } = sh;
    format!("{version} {} {compression:?} {}", cipher.0, ext.is_some())
}

pub fn cipher_names(ch: &TlsClientHelloContents) -> Vec<String> {
    let mut names = Vec::new();
    for (suite, id) in ch.get_ciphers().iter().zip(&ch.ciphers) {
        names.push(suite.map_or_else(|| format!("{id:?}"), |s| s.name.to_string()));
    }
    names
}

pub fn known_ciphers<'a>(ch: &impl ClientHello<'a>) -> Vec<&'static TlsCipherSuite> {
    ch.cipher_suites().into_iter().flatten().collect()
}

pub fn offers_weak_ciphers(ch: &TlsClientHelloContents) -> bool {
    ch.ciphers.iter().filter_map(|c| c.get_ciphersuite()).any(|suite| match suite.enc {
        TlsCipherEnc::Null | TlsCipherEnc::Rc2 | TlsCipherEnc::Rc4 | TlsCipherEnc::Des => true,
        _ => suite.enc_key_size() < 16 || suite.mac == TlsCipherMac::HmacMd5,
    })
}

pub fn chosen_cipher(sh: &TlsServerHelloContents) -> &'static str {
    match sh.get_cipher() {
        Some(suite) => suite.name,
        None => "unknown",
    }
}

pub fn keeps_secrets(sh: &TlsServerHelloContents) -> Option<bool> {
    let TlsCipherSuite { kx, .. } = sh.get_cipher()?;
    Some(matches!(kx, TlsCipherKx::Dhe | TlsCipherKx::Ecdhe | TlsCipherKx::Tls13))
}

pub fn cipher_by_name(name: &str) -> Option<u16> {
    TlsCipherSuite::from_name(name).map(|suite| *suite.id)
}

pub fn cipher_by_conversion(id: u16) -> Result<&'static TlsCipherSuite, tls::CipherSuiteNotFound> {
    let suite: &'static TlsCipherSuite = id.try_into()?;
    let again = <&TlsCipherSuite>::try_from(suite.name)?;
    <&TlsCipherSuite>::try_from(TlsCipherSuiteID(again.id.0))
}

pub fn cipher_in_words(id: u16) -> Option<String> {
    let c = TlsCipherSuite::from_id(id)?;
    let sizes = (c.enc_size, c.enc_block_size(), c.mac_size, c.mac_length());
    Some(format!("{:?} {:?} {:?} {:?} {:?} {:?} {sizes:?}", c.kx, c.au, c.enc, c.enc_mode, c.mac, c.prf))
}

pub fn message_opened(i: &[u8]) -> bool {
    match tls::parse_tls_handshake_msg_server_hello(i) {
        Ok((_, TlsMessageHandshake::ServerHello(sh))) => sh.version == TlsVersion::Tls12,
        Ok((_, TlsMessageHandshake::ServerHelloV13Draft18(sh))) => sh.ext.is_some(),
        Ok(_) | Err(_) => false,
    }
}

pub fn chain_lengths(i: &[u8]) -> Vec<usize> {
    let Ok((_, TlsMessageHandshake::Certificate(c))) = tls::parse_tls_handshake_msg_certificate(i) else {
        return Vec::new();
    };
    c.cert_chain.iter().map(|cert| cert.data.len()).collect()
}

pub fn leaf(i: &[u8]) -> Option<Vec<u8>> {
    match tls::parse_tls_handshake_msg_certificate(i) {
        Ok((_, TlsMessageHandshake::Certificate(c))) => c.cert_chain.first().map(|cert| cert.data.to_vec()),
        _ => None,
    }
}

pub fn issuers(c: &tls::TlsCertificateContents) -> usize {
    let mut bytes = 0;
    for cert in &c.cert_chain {
        bytes += cert.data.len();
    }
    for cert in c.cert_chain.iter().skip(1) {
        bytes -= cert.data.len();
    }
    bytes
}

pub fn request(i: &[u8]) -> Option<(bool, usize, usize)> {
    let (_, r) = tls::parse_tls_handshake_certificaterequest(i).ok()?;
    let rsa = r.cert_types.contains(&1) && r.cert_types.iter().all(|&t| t < 65);
    let algs = r.sig_hash_algs.as_ref().map_or(0, |algs| algs.len());
    Some((rsa, algs, r.unparsed_ca.iter().map(|name| name.len()).sum()))
}

pub fn request_pairs(r: &tls::TlsCertificateRequestContents) -> Vec<(u8, u8)> {
    let mut pairs = Vec::new();
    if let Some(algs) = &r.sig_hash_algs {
        for alg in algs {
            pairs.push(((alg >> 8) as u8, (*alg & 0xff) as u8));
        }
    }
    pairs
}

pub fn status_and_protocol(i: &[u8]) -> usize {
    let status = tls::parse_tls_handshake_certificatestatus(i).map_or(0, |(_, s)| s.blob.len());
    let next = tls::parse_tls_handshake_next_protocol(i).map_or(0, |(_, n)| n.selected_protocol.len());
    status + next
}

pub fn ticket(i: &[u8]) -> Option<(u32, usize)> {
    match tls::parse_tls_handshake_msg_newsessionticket(i, i.len()) {
        Ok((_, TlsMessageHandshake::NewSessionTicket(t))) => Some((t.ticket_lifetime_hint, t.ticket.len())),
        _ => None,
    }
}

pub fn key_exchange(i: &[u8]) -> usize {
    match tls::parse_tls_handshake_msg_clientkeyexchange(i, i.len()) {
        Ok((_, TlsMessageHandshake::ClientKeyExchange(tls::TlsClientKeyExchangeContents::Unknown(k)))) => {
            k.len()
        }
        _ => 0,
    }
}

pub fn every_kind(m: &TlsMessageHandshake) -> usize {
    match m {
        TlsMessageHandshake::HelloRequest | TlsMessageHandshake::EndOfEarlyData => 0,
        TlsMessageHandshake::ClientHello(c) => c.ciphers.len(),
        TlsMessageHandshake::ServerHello(s) => s.random.len(),
        TlsMessageHandshake::ServerHelloV13Draft18(s) => s.random.len(),
        TlsMessageHandshake::NewSessionTicket(t) => t.ticket.len(),
        TlsMessageHandshake::HelloRetryRequest(h) => h.ext.map_or(0, <[u8]>::len),
        TlsMessageHandshake::Certificate(c) => c.cert_chain.len(),
        TlsMessageHandshake::ServerKeyExchange(k) => k.parameters.len(),
        TlsMessageHandshake::CertificateRequest(r) => r.cert_types.len(),
        TlsMessageHandshake::ServerDone(b) | TlsMessageHandshake::CertificateVerify(b) => b.len(),
        TlsMessageHandshake::ClientKeyExchange(_) => 1,
        TlsMessageHandshake::Finished(b) => b.len(),
        TlsMessageHandshake::CertificateStatus(s) => s.blob.len(),
        TlsMessageHandshake::NextProtocol(n) => n.padding.len(),
        TlsMessageHandshake::KeyUpdate(k) => usize::from(*k),
    }
}

pub struct Flow<'a> {
    pub hello: Option<TlsClientHelloContents<'a>>,
    pub answer: Option<TlsServerHelloContents<'a>>,
    pub seen: Vec<TlsHandshakeType>,
}

impl<'a> Flow<'a> {
    pub fn agreed(&self) -> bool {
        match (&self.hello, &self.answer) {
            (Some(hello), Some(answer)) => hello.ciphers.contains(&answer.cipher),
            _ => false,
        }
    }

    pub fn met(&mut self, m: TlsMessageHandshake<'a>) {
        match m {
            TlsMessageHandshake::ClientHello(hello) => {
                self.hello = Some(hello);
                self.seen.push(TlsHandshakeType::ClientHello);
            }
            TlsMessageHandshake::ServerHello(answer) => {
                self.answer = Some(answer.clone());
                self.seen.push(TlsHandshakeType::ServerHello);
            }
            _ => {}
        }
    }
}

pub fn printed(ch: &TlsClientHelloContents, sh: &TlsServerHelloContents) -> String {
    format!("{ch:?}\n{sh:#?}\n{:?} {}", ch.comp, TlsHandshakeType::Finished)
}

pub fn told_in_words(i: &[u8]) -> String {
    match tls::parse_tls_handshake_client_hello(i) {
        Ok((rest, hello)) => format!("{} ciphers, {} bytes left", hello.ciphers.len(), rest.len()),
        Err(e) => format!("refused: {e:?}"),
    }
}

pub fn moved_to_a_thread(hello: TlsClientHelloContents<'static>) -> usize {
    std::thread::spawn(move || hello.ciphers.len()).join().unwrap_or(0)
}

pub fn a_hello(random: &[u8]) -> TlsClientHelloContents<'_> {
    let ciphers = vec![TlsCipherSuiteID(0x1301), TlsCipherSuiteID(0xc02f)];
    TlsClientHelloContents::new(0x0303, random, None, ciphers, vec![TlsCompressionID(0)], None)
}

pub fn a_hello_offering_nothing(random: &[u8]) -> TlsClientHelloContents<'_> {
    TlsClientHelloContents::new(0x0303, random, None, vec![], Vec::new(), Some(&[]))
}

pub fn an_answer<'a>(random: &'a [u8], id: &'a [u8]) -> TlsServerHelloContents<'a> {
    TlsServerHelloContents::new(TlsVersion::Tls12.0, random, Some(id), 0xc02f, 0, None)
}

pub fn written_hello(random: &[u8]) -> Option<Vec<u8>> {
    TlsMessageHandshake::ClientHello(a_hello(random)).serialize().ok()
}

pub fn written_messages(random: &[u8], verify: &[u8]) -> Result<Vec<u8>, tls::GenError> {
    let mut flight = TlsMessageHandshake::ServerHello(an_answer(random, &[7; 32])).serialize()?;
    flight.extend(TlsMessageHandshake::Finished(verify).serialize()?);
    flight.extend_from_slice(&TlsMessageHandshake::HelloRequest.serialize()?);
    Ok(flight)
}

pub fn written_key_exchange(point: &[u8]) -> bool {
    let key = tls::TlsClientKeyExchangeContents::Ecdh(tls::ECPoint { point });
    TlsMessageHandshake::ClientKeyExchange(key).serialize().is_ok()
}

pub fn written_and_read_again(random: &[u8]) -> bool {
    let Some(text) = written_hello(random) else { return false };
    let hello = a_hello(random);
    match tls::parse_tls_handshake_client_hello(&text[4..]) {
        Ok((_, again)) => {
            again.ciphers == hello.ciphers && again.comp == hello.comp && again.random == hello.random
        }
        Err(_) => false,
    }
}

pub fn changed(ch: &TlsClientHelloContents, version: TlsVersion) -> Option<Vec<u8>> {
    let mut hello = ch.clone();
    hello.version = version;
    hello.session_id = None;
    TlsMessageHandshake::ClientHello(hello).serialize().ok()
}
