//! Values are printed with tls-parser's text. The text here is that of tls-parser 0.12.2;
//! `compare/swap` compares the two crates themselves.

use norrabist::*;

const RANDOM: [u8; 4] = [0, 1, 0xfe, 0xff];

#[test]
fn hellos() {
    let ciphers = vec![TlsCipherSuiteID(0x1301), TlsCipherSuiteID(0xfafa)];
    let comp = vec![TlsCompressionID(0), TlsCompressionID(7)];
    let hello =
        TlsClientHelloContents::new(0x0303, &RANDOM, Some(&[1, 2]), ciphers, comp, Some(&[0, 23, 0, 0]));
    assert_eq!(
        format!("{hello:?}"),
        "TlsClientHelloContents { version: Tls12, random: [00 01 fe ff], session_id: Some([01 02]), \
         ciphers: [0x1301(TLS_AES_128_GCM_SHA256), 0xfafa(Unknown cipher)], \
         comp: [Null, TlsCompressionID(7 / 0x7)], ext: Some([00 17 00 00]) }"
    );
    // the tail is not printed
    assert_eq!(format!("{:?}", TlsClientHelloContents { tail: &[9], ..hello }), format!("{hello:?}"));
    assert_eq!(
        format!("{:#?}", TlsServerHelloContents::new(0x0305, &RANDOM, Some(&[]), 0xc02f, 1, None)),
        "TlsServerHelloContents {\n    version: TlsVersion(773 / 0x305),\n    random: [00 01 fe ff],\n    \
         session_id: Some(\n        [],\n    ),\n    \
         cipher: 0xc02f(TLS_ECDHE_RSA_WITH_AES_128_GCM_SHA256),\n    compression: Deflate,\n    \
         ext: None,\n}"
    );
    let (version, cipher) = (TlsVersion::Tls13Draft18, TlsCipherSuiteID(0x1301));
    let draft = TlsServerHelloV13Draft18Contents { version, cipher, ext: Some(&[]), ..Default::default() };
    assert_eq!(
        format!("{draft:?}"),
        "TlsServerHelloV13Draft18Contents { version: Tls13Draft18, random: [], \
         cipher: 0x1301(TLS_AES_128_GCM_SHA256), ext: Some([]) }"
    );
    let retry = TlsHelloRetryRequestContents { version, cipher, ext: Some(&[9]), tail: &[] };
    assert_eq!(
        format!("{retry:?}"),
        "TlsHelloRetryRequestContents { version: Tls13Draft18, ext: Some([09]) }"
    );
}

#[test]
fn other_contents() {
    let chain = TlsCertificateContents { cert_chain: List::new(&[0, 0, 2, 0x30, 0x82]) };
    assert_eq!(
        format!("{chain:?}"),
        "TlsCertificateContents { cert_chain: [RawCertificate { data: [30 82] }] }"
    );
    let request = TlsCertificateRequestContents {
        cert_types: List::new(&[1, 64]),
        sig_hash_algs: Some(List::new(&[4, 1])),
        unparsed_ca: List::new(&[0, 2, 1, 2]),
    };
    assert_eq!(
        format!("{request:?}"),
        "TlsCertificateRequestContents { cert_types: [1, 64], sig_hash_algs: Some([1025]), \
         unparsed_ca: [[1, 2]] }"
    );
    let key = TlsServerKeyExchangeContents { parameters: &[3, 0] };
    assert_eq!(format!("{key:?}"), "TlsServerKeyExchangeContents { parameters: [03 00] }");
    let point = ECPoint { point: &[10, 11] };
    let dh = TlsClientKeyExchangeContents::Dh(&[1]);
    let ecdh = TlsClientKeyExchangeContents::Ecdh(point);
    let unknown = TlsClientKeyExchangeContents::Unknown(&[0xff]);
    assert_eq!(format!("{dh:?} {ecdh:?} {unknown:#?}"), "[01] ECPoint { point: [10, 11] } [ff]");
    let ticket = TlsNewSessionTicketContent { ticket_lifetime_hint: 300, ticket: &[17] };
    assert_eq!(
        format!("{ticket:?}"),
        "TlsNewSessionTicketContent { ticket_lifetime_hint: 300, ticket: [17] }"
    );
    let hdr = TlsRecordHeader { record_type: TlsRecordType::Handshake, version: TlsVersion::Tls10, len: 5 };
    assert_eq!(format!("{hdr:?}"), "TlsRecordHeader { type: Handshake, version: Tls10, len: 5 }");
}

#[test]
fn messages_of_the_other_types() {
    let alert = TlsMessageAlert { severity: TlsAlertSeverity::Fatal, code: TlsAlertDescription(40) };
    assert_eq!(
        format!("{:?}", TlsMessage::Alert(alert)),
        "Alert(TlsMessageAlert { severity: TlsAlertSeverity(2), code: TlsAlertDescription(40) })"
    );
    assert_eq!(
        format!("{} {} {} {}", alert.severity, alert.code, TlsAlertSeverity(3), TlsAlertDescription(1)),
        "Fatal HandshakeFailure TlsAlertSeverity(3 / 0x3) TlsAlertDescription(1 / 0x1)"
    );
    let heartbeat = TlsMessageHeartbeat {
        heartbeat_type: TlsHeartbeatMessageType::HeartBeatRequest,
        payload_len: 2,
        payload: &[10, 11],
        // is not printed
        padding: &[0; 16],
    };
    assert_eq!(
        format!("{:?}", TlsMessage::Heartbeat(heartbeat)),
        "Heartbeat(TlsMessageHeartbeat { heartbeat_type: HeartBeatRequest, payload_len: 2, \
         payload: [10, 11] })"
    );
    let data = TlsMessage::ApplicationData(TlsMessageApplicationData { blob: &[22] });
    assert_eq!(
        format!("{:?} {data:?} {}", TlsMessage::ChangeCipherSpec, TlsHeartbeatMessageType(9)),
        "ChangeCipherSpec ApplicationData(TlsMessageApplicationData { blob: [22] }) \
         TlsHeartbeatMessageType(9 / 0x9)"
    );
    let record = [0x15, 3, 3, 0, 2, 1, 0];
    assert_eq!(
        format!("{:?}", parse_tls_plaintext(&record).expect("a record").1),
        "TlsPlaintext { hdr: TlsRecordHeader { type: Alert, version: Tls12, len: 2 }, msg: [Alert(\
         TlsMessageAlert { severity: TlsAlertSeverity(1), code: TlsAlertDescription(0) })] }"
    );
}

#[test]
fn numbers() {
    let (known, unknown) = (TlsVersion(0x0303), TlsVersion(0x0305));
    assert_eq!(
        format!("{known:?} {unknown} {known:x} {known:#06x} {known:8}|"),
        "Tls12 TlsVersion(773 / 0x305) 303 303 Tls12|"
    );
    let cipher = TlsCipherSuiteID(0x1301);
    assert_eq!(format!("{cipher:?} {cipher} {cipher:x}"), "0x1301(TLS_AES_128_GCM_SHA256) 4865 1301");
    let (kind, record) = (TlsHandshakeType(0x99), TlsRecordType(0x18));
    assert_eq!(
        format!("{:?} {kind} {record:?}", TlsHandshakeType(0x14)),
        "Finished TlsHandshakeType(153 / 0x99) Heartbeat"
    );
    assert_eq!((known.to_be_bytes(), *cipher, cipher.as_ref()), ([3, 3], 0x1301, &0x1301));
}

#[test]
fn extensions() {
    let names = b"\0\0\x03a.b\x07\0\x05'\"\\\n\x7f\0\0\x01\xff\0\0\x04\xc3\xa9\xcc\x81";
    assert_eq!(
        format!("{:?}", TlsExtension::SNI(List::new(names))),
        "TlsExtension::SNI([\"type=HostName,name=a.b\", \
         \"type=SNIType(7 / 0x7),name='\\\"\\\\\\n\\u{7f}\", \
         \"type=HostName,name=<error decoding utf8 string>\", \
         \"type=HostName,name=é\\u{301}\"])"
    );
    let groups = TlsExtension::EllipticCurves(List::new(&[0, 29, 1, 0, 0x4a, 0x4a]));
    assert_eq!(
        format!("{groups:?} {groups:#?}"),
        "TlsExtension::EllipticCurves([\"EcdhX25519\", \"Ffdhe2048\", \"NamedGroup(19018 / 0x4a4a)\"]) \
         TlsExtension::EllipticCurves([\"EcdhX25519\", \"Ffdhe2048\", \"NamedGroup(19018 / 0x4a4a)\"])"
    );
    let (fragment, kind) = (TlsExtension::MaxFragmentLength(4), TlsExtensionType::RenegotiationInfo);
    let raw = TlsExtension::Unknown(kind, &[10]);
    assert_eq!(
        format!("{fragment:?} {raw:?} {kind} {kind:?} {}", TlsExtensionType(0x4a4a)),
        "TlsExtension::MaxFragmentLength(4) TlsExtension::Unknown(type=0xff01,data=[10]) \
         RenegotiationInfo TlsExtensionType(65281) TlsExtensionType(19018 / 0x4a4a)"
    );
    let block = [0, 1, 0, 1, 4, 0, 10, 0, 2, 0, 0];
    let (_, all) = parse_tls_extensions(&block).expect("a block");
    assert_eq!(
        format!("{all:?} {:?} {}", SNIType::HostName, SNIType(1)),
        "[TlsExtension::MaxFragmentLength(4), TlsExtension::EllipticCurves([])] SNIType(0) \
         SNIType(1 / 0x1)"
    );
    assert_eq!((TlsExtensionType::from_u16(10), TlsExtensionType::from(&groups)), (10.into(), 10.into()));
}

#[test]
fn key_bits() {
    let named = (0..=u16::MAX).filter_map(|n| Some((n, NamedGroup(n).key_bits()?)));
    let right = [
        163, 163, 163, 193, 193, 233, 233, 239, 283, 283, 409, 409, 571, 571, 160, 160, 160, 192, 192, 224,
        224, 256, 256, 384, 521, 256, 384, 521, 253,
    ];
    assert!(named.eq((1..).zip(right)));
}
