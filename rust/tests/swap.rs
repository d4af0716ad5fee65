//! Code for tls-parser compiles with Norrabist: nothing here is run but what is said below.

/// What compiles with both.
#[allow(dead_code, clippy::all)]
mod plain {
    use norrabist as tls;
    include!("snippets/plain.rs");
}

/// What compiles with both, over the messages of records.
#[allow(dead_code, clippy::all)]
mod messages {
    use norrabist as tls;
    include!("snippets/messages.rs");
}

/// What compiles with both, over the extensions of hellos.
#[allow(dead_code, clippy::all)]
mod extensions {
    use norrabist as tls;
    include!("snippets/extensions.rs");
}

#[test]
fn a_made_up_hello_is_written_and_read_again() {
    assert!(plain::written_and_read_again(&[9; 32]));
    assert_eq!(plain::written_hello(&[9; 31]), None);
    assert!(plain::trait_of_contents(&plain::a_hello(&[9; 32])));
}

#[test]
fn a_list_is_compared_as_a_vec_is() {
    let hello = plain::a_hello(&[9; 32]);
    assert_eq!(plain::compared_with_others(&hello), [true; 4]);
    assert_eq!(plain::ciphers_dereferenced(&hello), [0x1301, 0xc02f]);
    assert_eq!(plain::backwards(&hello), [0xc02f, 0x1301]);
    assert_eq!(plain::by_value(hello), 0x1301 + 0xc02f);
    assert_eq!(plain::ja3_ciphers(&hello), "771,4865-49199");
}

#[test]
fn ciphers_are_named() {
    let hello = plain::a_hello(&[9; 32]);
    let names = ["TLS_AES_128_GCM_SHA256", "TLS_ECDHE_RSA_WITH_AES_128_GCM_SHA256"];
    assert_eq!(plain::cipher_names(&hello), names);
    assert_eq!((plain::known_ciphers(&hello).len(), plain::offers_weak_ciphers(&hello)), (2, false));
    let answer = plain::an_answer(&[9; 32], &[7]);
    assert_eq!((plain::chosen_cipher(&answer), plain::keeps_secrets(&answer)), (names[1], Some(true)));
    assert_eq!((plain::cipher_by_name(names[0]), plain::cipher_by_name("none")), (Some(0x1301), None));
    assert!(plain::cipher_by_conversion(0xc02f).is_ok_and(|suite| suite.name == names[1]));
    assert_eq!(
        plain::cipher_in_words(0x002f).as_deref(),
        Some("Rsa Rsa Aes Cbc HmacSha1 Default (128, 16, 160, 20)")
    );
}

#[test]
fn messages_are_walked_and_written_again() {
    let record = [0x16, 0x03, 0x03, 0, 5, 0x14, 0, 0, 1, 9];
    let Ok((_, read)) = norrabist::parse_tls_plaintext(&record) else { panic!("a record") };
    assert_eq!(messages::written_again(&record).as_deref(), Some(&record[..]));
    assert_eq!((messages::by_value(&record), messages::by_value_iterator(read)), (vec![1], 1));
    assert_eq!(messages::compared(&read, &[9]), [true; 3]);
    assert_eq!(messages::second_and_last(&read), (false, false));
    assert_eq!(messages::in_a_vec(&read), []);
    assert_eq!(messages::all_of_a_stream(&record.repeat(3)).len(), 3);
    assert!(messages::handed_on(&record[5..]) && !messages::first_is_a_hello(&read));
}

#[test]
fn records_of_every_type_are_told_apart() {
    let heartbeat = [&[0x18, 3, 3, 0, 19, 1, 0, 0][..], &[0; 16]].concat();
    let records: [&[u8]; 6] = [
        &[0x16, 3, 3, 0, 5, 0x14, 0, 0, 1, 9],
        &[0x14, 3, 3, 0, 1, 1],
        &[0x15, 3, 3, 0, 4, 1, 0, 2, 40],
        &[0x17, 3, 3, 0, 2, 8, 9],
        &heartbeat,
        &[0x15, 3, 3, 0, 1, 0],
    ];
    let all = records.concat();
    let kinds = ["handshake", "change", "alert", "fatal", "data", "heartbeat"];
    assert_eq!(messages::told_by_kinds(&all), kinds);
    assert_eq!(messages::alerts(records[2]), [(1, 0), (2, 40)]);
    assert_eq!((messages::bleeds(&heartbeat), messages::bleeds(records[2])), (Some(false), None));
    let closed =
        |record| norrabist::parse_tls_plaintext(record).map(|(_, record)| messages::is_closed(&record));
    assert_eq!((closed(records[1]), closed(records[2])), (Ok(false), Ok(true)));
    assert_eq!(records.map(messages::one_by_its_type), [None, Some(0), Some(3), Some(2), Some(0), None]);
    assert_eq!(records.map(messages::behind_a_header), [Some(2), Some(2), Some(4), Some(2), Some(2), None]);
    assert_eq!((messages::many_records(&all), messages::many_counted(&all)), (Some(2), (6, 6)));
    assert_eq!((messages::many_in_a_vec(&all).len(), messages::many_records(records[5])), (5, None));
    let norrabist::TlsMessage::Alert(alert) = messages::an_alert(norrabist::TlsAlertSeverity::Fatal) else {
        panic!("no alert");
    };
    let text = messages::alert_in_words(&alert);
    assert!(
        text.starts_with("Fatal HandshakeFailure TlsAlertSeverity(2) TlsAlertDescription(40) "),
        "{text}"
    );
    assert_eq!(messages::written_again(records[2]).as_deref(), Some(records[2]));
}

#[test]
fn extensions_are_looked_through() {
    let block = [&[0, 0, 0, 16, 0, 14, 0, 0, 11][..], b"example.org", &[0, 1, 0, 1, 4]].concat();
    let block = [&block[..], &[0, 10, 0, 8, 0, 6, 0x4a, 0x4a, 0, 29, 0, 24, 0, 23, 0, 0]].concat();
    let hello = norrabist::TlsClientHelloContents { ext: Some(&block), ..Default::default() };
    assert_eq!(extensions::host_name(&hello).as_deref(), Some("example.org"));
    assert_eq!(extensions::first_name(&block), Some(&b"example.org"[..]));
    assert_eq!((extensions::ja3_groups(&block), extensions::offers_x25519(&block)), (vec![29, 24], true));
    assert_eq!(
        (extensions::strongest_curve(&block), extensions::fragment_length(&block)),
        (Some(384), Some(4096))
    );
    assert_eq!(extensions::types(&block), [0, 1, 10, 23]);
    let groups =
        "TlsExtension::EllipticCurves([\"NamedGroup(19018 / 0x4a4a)\", \"EcdhX25519\", \"Secp384r1\"])";
    let by_name = extensions::by_name(&block);
    assert_eq!(by_name[0], "TlsExtension::SNI([\"type=HostName,name=example.org\"])");
    assert_eq!(
        by_name[1..],
        ["MaxFragmentLength TlsExtensionType(1)", groups, "ExtendedMasterSecret TlsExtensionType(23)"]
    );
    assert_eq!(extensions::groups_in_words(&block), format!("4 Some({groups}) 0"));
}

/// What `MOVING.md` has on the right of its table: each function is a row or a part of one.
#[allow(dead_code)]
mod moved {
    use norrabist::*;

    fn ids(ciphers: &[TlsCipherSuiteID]) -> usize {
        ciphers.len()
    }

    fn a_slice(hello: &TlsClientHelloContents) -> usize {
        let list: &List<TlsCipherSuiteID> = &hello.ciphers;
        ids(&hello.ciphers.to_vec()) + hello.ciphers.to_vec()[..2].len() + list.len()
    }

    fn collected(numbers: &[u16]) -> TlsClientHelloContents<'static> {
        let ids = numbers.iter().copied().map(TlsCipherSuiteID);
        TlsClientHelloContents::new(0x0303, &[], None, ids.collect::<Vec<_>>(), vec![], None)
    }

    fn literals(ext: Option<&[u8]>) -> (TlsClientHelloContents<'_>, TlsServerHelloContents<'_>) {
        let (id, m) = (TlsCipherSuiteID(0x1301), TlsCompressionID::Null);
        let (ciphers, comp) = (vec![id].into(), vec![m].into());
        let client = TlsClientHelloContents { ciphers, comp, ext, ..Default::default() };
        (client, TlsServerHelloContents { version: TlsVersion::Tls12, ext, ..Default::default() })
    }

    fn data(cert: &RawCertificate) -> usize {
        cert.data.len()
    }

    fn certificates(c: &TlsCertificateContents) -> usize {
        let chain = c.cert_chain;
        let first = chain.first().map_or(0, |cert| data(&cert)) + chain.get(0).map_or(0, |cert| data(&cert));
        let mut all = chain.to_vec().iter().rev().map(data).sum::<usize>();
        for cert in &chain {
            all += data(&cert);
        }
        first + all
    }

    fn names(r: &TlsCertificateRequestContents) -> usize {
        r.unparsed_ca.iter().map(|name| name.len()).sum()
    }

    fn message(m: &TlsMessage) -> bool {
        matches!(m, TlsMessage::Handshake(_))
    }

    fn messages(record: &TlsPlaintext) -> bool {
        let mut all = record.msg.to_vec().iter().rev().all(message);
        for msg in &record.msg {
            match msg {
                TlsMessage::Handshake(ref m) => all &= *m == TlsMessageHandshake::HelloRequest,
                _ => all = false,
            }
            all &= message(&msg);
        }
        all && record.msg.first() == record.msg.get(0)
    }

    fn heartbeats(i: &[u8], len: u16) -> Result<bool, Refusal> {
        let heartbeat_type = TlsHeartbeatMessageType::HeartBeatRequest;
        let empty =
            TlsMessageHeartbeat { heartbeat_type, payload_len: 0, payload: &[], ..Default::default() };
        let (_, message) = parse_tls_message_heartbeat(i, len)?;
        Ok(message == TlsMessage::Heartbeat(empty))
    }

    fn of_headers(data: &[u8], hdr: &TlsRecordHeader) -> Result<usize, Refusal> {
        let v: Vec<TlsMessage> = parse_tls_record_with_header(data, hdr)?.1.to_vec();
        Ok(v.len())
    }

    fn of_many(i: &[u8]) -> Result<bool, Refusal> {
        let (_, records) = tls_parser_many(i)?;
        let v: Vec<TlsPlaintext> = records.to_vec();
        Ok(records.first().as_ref() == v.first())
    }

    fn of_blocks(i: &[u8]) -> Result<usize, Damage> {
        let v: Vec<TlsExtension> = parse_tls_extensions(i)?.1.to_vec();
        Ok(v.len())
    }

    fn damaged(i: &[u8]) -> Option<(Reason, usize)> {
        parse_tls_extensions(i).err().map(|damage| (damage.refusal.reason, damage.index))
    }

    fn named(kind: SNIType, name: &[u8]) -> usize {
        usize::from(kind.0) + name.len()
    }

    fn extensions(i: &[u8]) -> Result<usize, Damage> {
        let mut all = 0;
        for ext in &parse_tls_extensions(i)?.1 {
            all += match ext {
                TlsExtension::SNI(ref names) => {
                    let first = names.first().map_or(0, |name| name.1.len());
                    let mut sum = names.iter().map(|(kind, name)| named(kind, name)).sum::<usize>();
                    for (kind, name) in names {
                        sum += named(kind, name);
                    }
                    first + sum
                }
                TlsExtension::Unknown(TlsExtensionType::ApplicationLayerProtocolNegotiation, data) => {
                    data.len()
                }
                TlsExtension::Unknown(TlsExtensionType(id), data) if id & 0x0f0f == 0x0a0a => data.len(),
                _ => 0,
            };
        }
        Ok(all)
    }

    fn written_extensions(name: &[u8], group: NamedGroup, out: &mut [u8]) -> Result<Vec<u8>, Refusal> {
        let names = List::encode_names(&[(SNIType::HostName, name)])?;
        let exts = [TlsExtension::SNI(List::new(&names)), TlsExtension::EllipticCurves(vec![group].into())];
        let mut vec = exts[0].serialize()?;
        gen_tls_extensions(&exts, out)?;
        gen_tls_extensions_vec(&exts, &mut vec)?;
        Ok(vec)
    }

    fn written(hello: &TlsClientHelloContents, out: &mut [u8]) -> Result<Vec<u8>, Refusal> {
        let m = TlsMessageHandshake::ClientHello(*hello);
        let (mut vec, version) = (hello.serialize()?, hello.version);
        gen_tls_clienthello(hello, out)?;
        gen_tls_clienthello_vec(hello, &mut vec)?;
        let hdr = TlsRecordHeader { record_type: TlsRecordType::Handshake, version, len: 0 };
        gen_tls_plaintext_vec(&hdr, &m.serialize()?, &mut vec)?;
        Ok(vec)
    }

    fn waits(i: &[u8]) -> bool {
        matches!(parse_tls_plaintext(i), Err(refusal) if refusal.reason == Reason::Incomplete)
    }

    fn lent(random: &[u8], ciphers: &[TlsCipherSuiteID]) -> Option<Vec<u8>> {
        let bytes = List::encode(ciphers);
        let comp: List<TlsCompressionID> = List::default();
        TlsClientHelloContents::new(0x0303, random, None, List::new(&bytes), comp, None).serialize().ok()
    }
}
