//! The table of cipher suites. `compare/swap` compares each row with tls-parser's.

use norrabist::*;

#[test]
fn rows() {
    let null = TlsCipherSuite::from_id(0).expect("the first row");
    assert_eq!(
        (null.name, null.kx, null.au),
        ("TLS_NULL_WITH_NULL_NULL", TlsCipherKx::Null, TlsCipherAu::Null)
    );
    let expected = TlsCipherSuite {
        name: "TLS_ECDHE_ECDSA_WITH_AES_256_CBC_SHA384",
        id: TlsCipherSuiteID(0xc024),
        kx: TlsCipherKx::Ecdhe,
        au: TlsCipherAu::Ecdsa,
        enc: TlsCipherEnc::Aes,
        enc_mode: TlsCipherEncMode::Cbc,
        enc_size: 256,
        mac: TlsCipherMac::HmacSha384,
        mac_size: 384,
        prf: TlsPRF::Sha384,
    };
    let row = TlsCipherSuite::from_id(0xc024).expect("a row");
    assert_eq!(row, &expected);
    assert_eq!((row.enc_key_size(), row.enc_block_size(), row.mac_length()), (32, 16, 48));
    let last = TlsCipherSuite::from_id(0xd005).expect("the last row");
    assert_eq!((last.name, last.mac_length()), ("TLS_ECDHE_PSK_WITH_AES_128_CCM_SHA256", 0));
}

#[test]
fn the_table_is_in_order_and_every_row_is_found() {
    assert_eq!(CIPHERS.len(), 343);
    assert!(CIPHERS.windows(2).all(|pair| pair[0].id < pair[1].id));
    for row in CIPHERS {
        for found in [TlsCipherSuite::from_id(row.id.0), TlsCipherSuite::from_name(row.name)] {
            assert!(found.is_some_and(|found| std::ptr::eq(found, row)), "{row:?}");
        }
    }
    assert_eq!((0..=u16::MAX).filter_map(TlsCipherSuite::from_id).count(), CIPHERS.len());
}

#[test]
fn what_has_no_name_is_not_found() {
    for id in [0x0a0a, 0x1300, 0xc0b6, 0xfafa, 0xffff] {
        assert_eq!((TlsCipherSuite::from_id(id), TlsCipherSuiteID(id).get_ciphersuite()), (None, None));
        assert_eq!(format!("{:?}", TlsCipherSuiteID(id)), format!("0x{id:04x}(Unknown cipher)"));
        assert!(<&TlsCipherSuite>::try_from(id).is_err());
    }
    for name in ["", "TLS_AES_128_GCM_SHA25", "tls_aes_128_gcm_sha256", "AES128-SHA"] {
        assert_eq!(TlsCipherSuite::from_name(name), None);
        assert!(<&TlsCipherSuite>::try_from(name).is_err());
    }
}

#[test]
fn ciphers_of_hellos() {
    let ciphers = List::new(&[0x13, 0x01, 0xfa, 0xfa, 0xc0, 0x2f]);
    let hello = TlsClientHelloContents { ciphers, ..Default::default() };
    let names = |suites: Vec<Option<&'static TlsCipherSuite>>| suites.into_iter().map(|s| s.map(|s| s.name));
    let expected = [Some("TLS_AES_128_GCM_SHA256"), None, Some("TLS_ECDHE_RSA_WITH_AES_128_GCM_SHA256")];
    assert!(names(hello.get_ciphers()).eq(expected) && names(hello.cipher_suites()).eq(expected));
    let answer = TlsServerHelloContents::new(0x0303, &[], None, 0xc02f, 0, None);
    assert_eq!(answer.get_cipher().map(|suite| suite.name), expected[2]);
    assert!(TlsServerHelloContents { cipher: TlsCipherSuiteID(0xfafa), ..answer }.get_cipher().is_none());
}
