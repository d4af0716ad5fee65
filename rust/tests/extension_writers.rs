//! Extensions, written (RULES 11): the text of each kind and of a list, the longest that fit, the
//! order of refusals, what a writing leaves alone, and that a list comes back as it was written.

mod support;

use norrabist::*;
use support::{reasons, text};

fn bytes(text: &str) -> Vec<u8> {
    text::hex(text).expect("hex")
}

fn names(list: &[u8]) -> TlsExtension<'_> {
    TlsExtension::SNI(List::new(list))
}

fn groups(list: &[u8]) -> TlsExtension<'_> {
    TlsExtension::EllipticCurves(List::new(list))
}

const FRAGMENT: TlsExtension = TlsExtension::MaxFragmentLength(4);
const RAW: TlsExtension = TlsExtension::Unknown(TlsExtensionType::Padding, &[0]);

/// What a writer gives in its three forms, which are one text. In every room that is too small it
/// changes nothing, and else no byte behind the text.
fn forms(
    write: impl Fn(&mut [u8]) -> Result<usize, Refusal>,
    len: Result<usize, Refusal>,
    append: impl Fn(&mut Vec<u8>) -> Result<usize, Refusal>,
) -> Result<Vec<u8>, Reason> {
    let mut vec = vec![9, 9];
    let appended = append(&mut vec);
    assert_eq!((appended, &vec[..2]), (len, &[9, 9][..]));
    let need = len.unwrap_or(0);
    let mut out = vec![0xa5; need + 3];
    // a short text in every room, a long one where it just does not fit
    let rooms = if need < 100 { 0..need } else { need - 1..need };
    for room in rooms {
        assert_eq!(reasons(write(&mut out[..room])), Err(Reason::NoRoom), "{room} bytes");
    }
    assert!(out.iter().all(|byte| *byte == 0xa5), "a refused writing changed the output");
    assert_eq!(write(&mut out), len);
    assert!(out[need..].iter().all(|byte| *byte == 0xa5));
    assert_eq!(vec[2..], out[..need]);
    reasons(len).map(|_| out[..need].to_vec())
}

fn one(m: TlsExtension) -> Result<Vec<u8>, Reason> {
    let text = forms(
        |out| gen_tls_extension(&m, out),
        gen_tls_extension_len(&m),
        |to| gen_tls_extension_vec(&m, to),
    );
    assert_eq!(reasons(m.serialize()), text);
    text
}

fn list(m: &[TlsExtension]) -> Result<Vec<u8>, Reason> {
    forms(|out| gen_tls_extensions(m, out), gen_tls_extensions_len(m), |to| gen_tls_extensions_vec(m, to))
}

fn name(kind: SNIType, name: &[u8]) -> Result<Vec<u8>, Reason> {
    forms(
        |out| gen_tls_server_name(kind, name, out),
        gen_tls_server_name_len(kind, name),
        |to| gen_tls_server_name_vec(kind, name, to),
    )
}

/// The list as it is read behind its length.
fn back(text: &[u8]) -> TlsExtensions<'_> {
    let (len, block) = text.split_at(2);
    assert_eq!(usize::from(len[0]) * 256 + usize::from(len[1]), block.len());
    parse_tls_extensions(block).expect("a block").1
}

#[test]
fn each_kind() {
    let entries = bytes("000003 612e62 070000");
    assert_eq!(one(names(&entries)), Ok(bytes("0000 000b 0009 000003 612e62 070000")));
    assert_eq!(one(names(&[])), Ok(bytes("0000 0002 0000")));
    assert_eq!(one(FRAGMENT), Ok(bytes("0001 0001 04")));
    assert_eq!(one(groups(&bytes("001d 4a4a"))), Ok(bytes("000a 0006 0004 001d 4a4a")));
    assert_eq!(one(groups(&[])), Ok(bytes("000a 0002 0000")));
    assert_eq!(one(RAW), Err(Reason::NotYetImplemented));
}

#[test]
fn a_server_name() {
    assert_eq!(name(SNIType::HostName, b"a.b"), Ok(bytes("000003 612e62")));
    assert_eq!(name(SNIType(0xff), &[]), Ok(bytes("ff0000")));
    let long = vec![b'a'; 65_536];
    assert_eq!(name(SNIType::HostName, &long), Err(Reason::BadLength));
    let text = name(SNIType::HostName, &long[1..]).expect("an entry");
    assert_eq!((text.len(), &text[..4]), (65_538, &[0, 0xff, 0xff, b'a'][..]));
}

#[test]
fn names_encoded() {
    let list = [(SNIType::HostName, &b"a.b"[..]), (SNIType(7), &[]), (SNIType(0), b"c")];
    let encoded = List::encode_names(&list).expect("names");
    assert_eq!(encoded, bytes("000003 612e62 070000 000001 63"));
    assert_eq!(List::<(SNIType, &[u8])>::new(&encoded), list);
    assert_eq!(List::encode_names(&[]), Ok(vec![]));
    let long = vec![b'a'; 65_536];
    let refused = List::encode_names(&[list[0], (SNIType(0), &long)]);
    assert_eq!(reasons(refused), Err(Reason::BadLength));
}

#[test]
fn a_list_of_them() {
    let entries = List::encode_names(&[(SNIType::HostName, b"example.org")]).expect("names");
    let numbers = List::encode(&[NamedGroup::EcdhX25519, NamedGroup::Secp256r1]);
    let all = [names(&entries), FRAGMENT, groups(&numbers), FRAGMENT, names(&[])];
    let text = list(&all).expect("a list");
    let items: Vec<_> = all.iter().map(|m| one(*m).expect("an extension")).collect();
    assert_eq!(text, [&[0, 46], &items.concat()[..]].concat());
    assert_eq!(back(&text), all);
    assert_eq!(list(&[]), Ok(vec![0, 0]));
    // a hello's extensions are the text without its length
    let (ciphers, comp) = (List::new(&[0x13, 0x01]), List::new(&[0]));
    let hello = TlsClientHelloContents::new(0x0303, &[7; 32], None, ciphers, comp, Some(&text[2..]));
    let written = hello.serialize().expect("a hello");
    assert!(written.ends_with(&text));
    let (_, read) = parse_tls_handshake_client_hello(&written[4..]).expect("a hello");
    assert_eq!(parse_tls_extensions(read.ext.expect("a block")).expect("a block").1, all);
}

/// One name alone: 65,526 bytes in a list, 65,530 where no list is round its extension.
#[test]
fn the_longest_name() {
    let long = vec![b'a'; 65_531];
    let entry = |len: usize| name(SNIType::HostName, &long[..len]).expect("an entry");
    for (len, in_list, alone) in
        [(65_526, true, true), (65_527, false, true), (65_530, false, true), (65_531, false, false)]
    {
        let entry = entry(len);
        let (written, text) = (list(&[names(&entry)]), one(names(&entry)));
        assert_eq!((written.is_ok(), text.is_ok()), (in_list, alone), "{len} bytes");
        for refused in [written.as_ref().err(), text.as_ref().err()].into_iter().flatten() {
            assert_eq!(*refused, Reason::BadLength);
        }
        if let Ok(text) = &text {
            assert_eq!(text.len(), 4 + 2 + 3 + len);
        }
        if let Ok(written) = &written {
            assert_eq!((written.len(), &written[..2]), (65_537, &[0xff, 0xff][..]));
            let Some(TlsExtension::SNI(read)) = back(written).first() else { panic!("no names") };
            assert_eq!(read, [(SNIType::HostName, &long[..len])]);
        }
    }
}

/// One list of groups alone: 32,764 in a list, 32,766 where no list is round its extension.
#[test]
fn the_longest_groups() {
    let many: Vec<_> = (0..32_767).map(NamedGroup).collect();
    for (count, in_list, alone) in
        [(32_764, true, true), (32_765, false, true), (32_766, false, true), (32_767, false, false)]
    {
        let encoded = List::encode(&many[..count]);
        let (written, text) = (list(&[groups(&encoded)]), one(groups(&encoded)));
        assert_eq!((written.is_ok(), text.is_ok()), (in_list, alone), "{count} groups");
        for refused in [written.as_ref().err(), text.as_ref().err()].into_iter().flatten() {
            assert_eq!(*refused, Reason::BadLength);
        }
        if let Ok(written) = &written {
            assert_eq!(written.len(), 2 + 4 + 2 + 2 * count);
            let Some(TlsExtension::EllipticCurves(read)) = back(written).first() else { panic!("no groups") };
            assert_eq!(read, many[..count]);
        }
    }
}

/// All together have 65,535 bytes at most.
#[test]
fn the_longest_list() {
    // 13,107 times five bytes
    let most = vec![FRAGMENT; 13_107];
    let text = list(&most).expect("a list");
    assert_eq!((text.len(), &text[..2]), (65_537, &[0xff, 0xff][..]));
    assert_eq!(back(&text), most);
    assert_eq!(list(&[FRAGMENT].repeat(13_108)), Err(Reason::BadLength));
    let entry = name(SNIType::HostName, &[b'a'; 65_521]).expect("an entry");
    assert_eq!(list(&[names(&entry), FRAGMENT]).map(|text| text.len()), Ok(65_537));
    assert_eq!(list(&[FRAGMENT, names(&entry), FRAGMENT]), Err(Reason::BadLength));
    assert_eq!(list(&[names(&entry), names(&[])]), Err(Reason::BadLength));
}

/// Lists that are made up of bytes that hold none.
#[test]
fn lists_that_are_none() {
    let entries = bytes("000003 612e62 070000");
    for len in [1, 2, 3, 4, 5, 7, 8] {
        assert_eq!(one(names(&entries[..len])), Err(Reason::BadLength), "{len} bytes of names");
        assert_eq!(list(&[FRAGMENT, names(&entries[..len])]), Err(Reason::BadLength));
    }
    for len in [1, 3, 9] {
        assert_eq!(one(groups(&entries[..len])), Err(Reason::BadLength), "{len} bytes of groups");
        assert_eq!(list(&[groups(&entries[..len]), FRAGMENT]), Err(Reason::BadLength));
    }
    assert!(one(names(&entries[..6])).is_ok() && one(groups(&entries[..8])).is_ok());
}

/// A raw one anywhere comes first, then a bad length anywhere, then the room.
#[test]
fn the_order_of_refusals() {
    let long = vec![0; 70_000];
    let (odd, huge, fits) = (groups(&[0]), groups(&long), groups(&[0, 29]));
    let refused = |m: &[TlsExtension]| {
        let mut out = [0xa5; 64];
        let roomy = reasons(gen_tls_extensions(m, &mut out));
        let tight = reasons(gen_tls_extensions(m, &mut out[..1]));
        assert_eq!(out, [0xa5; 64]);
        (roomy, tight)
    };
    for bad in [odd, huge, names(&[0])] {
        for m in [vec![bad], vec![bad, fits], vec![fits, bad], vec![fits, bad, FRAGMENT]] {
            assert_eq!(refused(&m), (Err(Reason::BadLength), Err(Reason::BadLength)));
            for at in 0..=m.len() {
                let mut m = m.clone();
                m.insert(at, RAW);
                assert_eq!(refused(&m), (Err(Reason::NotYetImplemented), Err(Reason::NotYetImplemented)));
            }
        }
    }
    let mut long_list = vec![FRAGMENT; 20_000];
    assert_eq!(refused(&long_list).0, Err(Reason::BadLength));
    long_list.push(RAW);
    assert_eq!(refused(&long_list).0, Err(Reason::NotYetImplemented));
    let mut out = [0xa5; 64];
    assert_eq!(reasons(gen_tls_extensions(&[fits], &mut out[..9])), Err(Reason::NoRoom));
    assert_eq!(gen_tls_extensions(&[fits], &mut out[..10]), Ok(10));
    assert_eq!(reasons(gen_tls_extension(&odd, &mut out[..1])), Err(Reason::BadLength));
    assert_eq!(reasons(gen_tls_server_name(SNIType(0), &long, &mut [])), Err(Reason::BadLength));
}

/// One that is raw is not written, whatever its type is said to be.
#[test]
fn a_raw_one_of_any_type() {
    for of in 0..=u16::MAX {
        for data in [&[][..], &[4], &[0, 0]] {
            let raw = TlsExtension::Unknown(TlsExtensionType(of), data);
            let answers = [gen_tls_extension_len(&raw), gen_tls_extensions_len(&[FRAGMENT, raw])];
            assert_eq!(answers.map(reasons), [Err(Reason::NotYetImplemented); 2], "{raw:?}");
        }
    }
}

/// A block of the three kinds is written back as it was.
#[test]
fn blocks_written_back() {
    let items = [
        "0000 0002 0000",
        "0000 0005 0003 000000",
        "0000 0009 0007 000001 61 ff0000",
        "0001 0001 00",
        "0001 0001 ff",
        "000a 0002 0000",
        "000a 0006 0004 001d 4a4a",
    ]
    .map(bytes);
    for (a, b, c) in (0..343).map(|n| (n / 49, n / 7 % 7, n % 7)) {
        let block = [&items[a][..], &items[b], &items[c]].concat();
        let (_, all) = parse_tls_extensions(&block).expect("a block");
        let text = list(&all.to_vec()).expect("a list");
        assert_eq!(text[2..], block);
        assert_eq!(back(&text), all);
    }
}
