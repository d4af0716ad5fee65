//! Extension blocks, read (RULES 11): what is damaged and with which index, every kind, names and
//! groups by count, place and walk, the blocks of real hellos whole and cut, and every short block
//! beside an account of the rules.

mod support;

use norrabist::*;
use support::text;

/// One sample of each ClientHello, and a flight that begins with a ServerHello.
const SAMPLES: [&str; 5] = [
    include_str!("../../compare/samples/client-hello-10.hex"),
    include_str!("../../compare/samples/client-hello-12.hex"),
    include_str!("../../compare/samples/client-hello-13.hex"),
    include_str!("../../compare/samples/client-hello-gnutls.hex"),
    include_str!("../../compare/samples/server-flight-12.hex"),
];

fn bytes(text: &str) -> Vec<u8> {
    text::hex(text).expect("hex")
}

/// The index of the first bad item, or the extensions in a `Vec`.
fn read(block: &[u8]) -> Result<Vec<TlsExtension<'_>>, usize> {
    match parse_tls_extensions(block) {
        Ok((rest, extensions)) => {
            assert_eq!(rest.as_ptr_range(), block[block.len()..].as_ptr_range(), "{block:x?}");
            Ok(extensions.to_vec())
        }
        Err(damage) => {
            assert_eq!(damage.refusal.reason, Reason::LengthValue, "{block:x?}");
            Err(damage.index)
        }
    }
}

/// Items of which each is a damaged block by itself, also with others behind it.
const DAMAGED: [&str; 18] = [
    // server names: the list's length missing, cut, too large, too small
    "0000 0000",
    "0000 0001 00",
    "0000 0002 0001",
    "0000 0003 0003 00",
    "0000 0003 0000 00",
    "0000 0006 0003 000000 00",
    // a name without its length or its end, and a byte behind the last
    "0000 0003 0001 00",
    "0000 0004 0002 0000",
    "0000 0005 0003 000001",
    "0000 0006 0004 000000 00",
    "0000 0009 0007 000001 61 000001",
    // a fragment length of no byte and of two
    "0001 0000",
    "0001 0002 0000",
    // groups: the list's length missing, cut, too large, too small; an odd list
    "000a 0000",
    "000a 0001 00",
    "000a 0002 0002",
    "000a 0003 0000 00",
    "000a 0003 0001 00",
];

/// What is left of an item that is cut off, of which nothing is behind.
const CUT: [&str; 6] = ["00", "0017", "0017 00", "0017 0001", "0000 0002 00", "ffff ffff 00"];

#[test]
fn the_smallest_that_are_damaged() {
    for item in DAMAGED.iter().chain(&CUT) {
        assert_eq!(read(&bytes(item)), Err(0), "{item}");
    }
}

/// Each kind of damage behind none, one and two good items, which are not handed out, and before
/// others.
#[test]
fn the_index_is_that_of_the_first() {
    let good = ["0000 0008 0006 000003 612e62", "0001 0001 04", "0017 0000"].map(bytes);
    assert_eq!(read(&good.concat()).map(|all| all.len()), Ok(3));
    for place in 0..=2 {
        let before = good[..place].concat();
        for item in DAMAGED.map(bytes) {
            for behind in [&[][..], &good[2], &item, &[0]] {
                assert_eq!(read(&[&before, &item, behind].concat()), Err(place), "{place} {item:x?}");
            }
        }
        for item in CUT.map(bytes) {
            assert_eq!(read(&[before.clone(), item].concat()), Err(place));
        }
    }
}

#[test]
fn a_damage_is_told_in_words_and_as_a_refusal() {
    let damage = parse_tls_extensions(&[0, 23, 0, 0, 0]).expect_err("damage");
    assert_eq!((damage.index, damage.refusal.number()), (1, 4));
    assert_eq!(damage.to_string(), format!("extension 1: {}", damage.refusal));
    assert!(Refusal::from(damage) == Reason::LengthValue);
    let error: Box<dyn std::error::Error> = damage.into();
    assert!(error.source().is_none());
    let by_refusal = || -> Result<usize, Refusal> { Ok(parse_tls_extensions(&[0])?.1.len()) };
    assert!(by_refusal().is_err_and(|refusal| refusal == Reason::LengthValue));
}

#[test]
fn every_kind() {
    let (names, groups) = ("0000 000b 0009 000003 612e62 070000", "000a 0006 0004 001d 4a4a");
    let block = [names, "0001 0001 04", groups, "4a4a 0001 ff", "0000 0002 0000"].map(bytes).concat();
    let (rest, all) = parse_tls_extensions(&block).expect("a block");
    assert!(rest.is_empty() && all.as_bytes() == block && all.len() == 5 && !all.is_empty());
    let kinds: Vec<_> = all.iter().map(|extension| TlsExtensionType::from(&extension)).collect();
    assert_eq!(kinds.iter().map(|of| of.0).collect::<Vec<_>>(), [0, 1, 10, 0x4a4a, 0]);
    let names = [(SNIType::HostName, &b"a.b"[..]), (SNIType(7), &[])];
    let groups = [NamedGroup::EcdhX25519, NamedGroup(0x4a4a)];
    let Some(TlsExtension::SNI(list)) = all.first() else { panic!("no names") };
    assert_eq!((list, list.as_bytes()), (List::new(&block[6..15]), &block[6..15]));
    assert_eq!(list, names);
    assert_eq!(all.get(1), Some(TlsExtension::MaxFragmentLength(4)));
    let Some(TlsExtension::EllipticCurves(list)) = all.get(2) else { panic!("no groups") };
    assert_eq!((list, list.as_bytes()), (List::new(&block[26..30]), &block[26..30]));
    assert_eq!(list, groups);
    assert_eq!(all.get(3), Some(TlsExtension::Unknown(TlsExtensionType(0x4a4a), &[0xff])));
    assert_eq!((all.last(), all.get(5)), (Some(TlsExtension::SNI(List::default())), None));
    // each way through them is the same
    let vec = all.to_vec();
    assert_eq!(all, vec);
    assert_eq!(vec, all);
    assert!(all == vec[..] && all == vec.as_slice());
    assert_eq!((Vec::from(all), all.into_iter().count(), (&all).into_iter().count()), (vec, 5, 5));
    assert_ne!(all, [TlsExtension::MaxFragmentLength(4)]);
}

/// What is handed out lies in the bytes that were read.
#[test]
fn nothing_is_copied() {
    let block = bytes("0017 0002 0102  0000 0009 0007 000004 61626364");
    let (_, all) = parse_tls_extensions(&block).expect("a block");
    let Some(TlsExtension::Unknown(_, data)) = all.get(0) else { panic!("no data") };
    assert_eq!(data.as_ptr_range(), block[4..6].as_ptr_range());
    let Some(TlsExtension::SNI(names)) = all.get(1) else { panic!("no names") };
    let (_, name) = names.first().expect("a name");
    assert_eq!(name.as_ptr_range(), block[15..19].as_ptr_range());
}

/// No bytes are a block with no extensions.
#[test]
fn what_is_no_damage() {
    let (rest, none) = parse_tls_extensions(&[]).expect("a block");
    assert!(rest.is_empty() && none.is_empty() && none.first().is_none());
    assert_eq!((none.len(), none.to_vec()), (0, vec![]));
    assert_eq!((format!("{none:?}"), none.iter().next()), ("[]".into(), None));
    for value in 0..=u8::MAX {
        assert_eq!(read(&[0, 1, 0, 1, value]), Ok(vec![TlsExtension::MaxFragmentLength(value)]));
    }
    let twice = bytes("0001 0001 01  0001 0001 02");
    assert_eq!(read(&twice).map(|all| all.len()), Ok(2));
    assert_eq!(read(&bytes("000a 0002 0000")), Ok(vec![TlsExtension::EllipticCurves(List::default())]));
    let unnamed = [(SNIType(0), &[][..]), (SNIType(0xff), &[])];
    let read_names = bytes("0000 0008 0006 000000 ff0000");
    let Ok(&[TlsExtension::SNI(names)]) = read(&read_names).as_deref() else { panic!("no names") };
    assert_eq!(names, unnamed);
}

/// Any other type is raw, whatever it holds.
#[test]
fn every_type() {
    for of in 0..=u16::MAX {
        let [high, low] = of.to_be_bytes();
        let opened = [0, 1, 10].contains(&of);
        for data in [&[][..], &[0, 1], &[0, 3, 0]] {
            let block = [&[high, low, 0, data.len() as u8], data].concat();
            let right = vec![TlsExtension::Unknown(TlsExtensionType(of), data)];
            assert_eq!(read(&block), if opened { Err(0) } else { Ok(right) }, "{block:x?}");
        }
    }
}

#[test]
fn names_by_count_place_and_walk() {
    let entries = bytes("000003 612e62  000000  ff0001 63");
    let names: List<(SNIType, &[u8])> = List::new(&entries);
    let right = [(SNIType(0), &b"a.b"[..]), (SNIType(0), &[]), (SNIType(0xff), b"c")];
    assert_eq!((names.len(), names.to_vec()), (3, right.to_vec()));
    assert!(right.iter().enumerate().all(|(place, name)| names.get(place) == Some(*name)));
    assert_eq!((names.get(3), names.first(), names.last()), (None, Some(right[0]), Some(right[2])));
    assert!(names.contains(&right[2]) && !names.contains(&(SNIType(1), b"c")));
    assert!(names.iter().eq(right) && names.values().eq(right) && !names.is_empty());
    // made up of bytes that they do not fill, they end at the first that does not fit
    assert_eq!(List::<(SNIType, &[u8])>::new(&entries[..9]).to_vec(), right[..2]);
    assert_eq!(format!("{names:?}"), "[(SNIType(0), [97, 46, 98]), (SNIType(0), []), (SNIType(255), [99])]");
}

#[test]
fn groups_by_count_place_and_walk() {
    let numbers = [0x001d, 0x0017, 0x4a4a, 0xff02];
    let groups: Vec<_> = numbers.into_iter().map(NamedGroup).collect();
    let encoded = List::encode(&groups);
    assert_eq!(encoded, [0, 0x1d, 0, 0x17, 0x4a, 0x4a, 0xff, 2]);
    let list: List<NamedGroup> = List::new(&encoded);
    assert!(list == groups && list.len() == 4 && list[3] == groups[3] && list.get(4).is_none());
    assert!(list.values().rev().eq(groups.iter().rev().copied()) && list.iter().eq(&groups));
    assert_eq!((list.first(), list.last()), (groups.first(), groups.last()));
    assert_eq!(List::<NamedGroup>::from(groups.clone()), list);
    for group in &list {
        assert!(groups.contains(group));
    }
}

/// The block of the first hello of a sample.
fn block(sample: &str) -> Vec<u8> {
    let records = bytes(&sample.split_whitespace().collect::<String>());
    let (_, record) = parse_tls_plaintext(&records).expect("a record");
    match record.msg.handshakes().next() {
        Some(TlsMessageHandshake::ClientHello(hello)) => hello.ext,
        Some(TlsMessageHandshake::ServerHello(hello)) => hello.ext,
        _ => None,
    }
    .expect("a block")
    .to_vec()
}

#[test]
fn the_samples() {
    let [old, new, newest, gnutls, server] = SAMPLES.map(block);
    let hosts = [&old, &new, &newest, &gnutls].map(|block| {
        let all = read(block).expect("extensions");
        let names = all.iter().find_map(|extension| match extension {
            TlsExtension::SNI(names) => names.first(),
            _ => None,
        });
        let groups = all.iter().find_map(|extension| match extension {
            TlsExtension::EllipticCurves(groups) => Some(groups.len()),
            _ => None,
        });
        (names.map(|(kind, name)| (kind.0, name)), groups, all.len())
    });
    let bench = Some((0, &b"bench.test"[..]));
    let right = [(bench, Some(5), 6), (bench, Some(5), 8), (bench, Some(10), 10), (None, Some(10), 12)];
    assert_eq!(hosts, right);
    assert_eq!(read(&server).map(|all| all.len()), Ok(5));
}

/// A server that took the name sends it without data: what stands before and behind it can be read.
#[test]
fn a_server_that_took_the_name() {
    let answer = block(SAMPLES[4]);
    let sent = [&answer[..5], &[0; 4], &answer[5..]].concat();
    assert_eq!(read(&sent), Err(1));
    let (before, behind) = (read(&sent[..5]).expect("before"), read(&sent[9..]).expect("behind"));
    assert_eq!(Ok([before, behind].concat()), read(&answer));
}

/// Cut off between two extensions a block is whole; cut off in one, that is the damaged one.
#[test]
fn cut_samples() {
    for block in SAMPLES.map(block) {
        let mut ends = vec![0];
        while let Some(head) = block.get(*ends.last().expect("an end")..).and_then(|left| left.get(2..4)) {
            ends.push(ends[ends.len() - 1] + 4 + usize::from(head[0]) * 256 + usize::from(head[1]));
        }
        assert_eq!(ends.last(), Some(&block.len()));
        for n in 0..=block.len() {
            let whole = ends.iter().filter(|end| **end <= n).count() - 1;
            let right = if ends.contains(&n) { Ok(whole) } else { Err(whole) };
            assert_eq!(read(&block[..n]).map(|all| all.len()), right, "{n} bytes");
        }
    }
}

/// The account of the rules, by places alone: how many extensions, or the index of the bad one.
fn account(mut block: &[u8]) -> Result<usize, usize> {
    let mut count = 0;
    while !block.is_empty() {
        let [a, b, c, d, left @ ..] = block else { return Err(count) };
        let len = usize::from(*c) * 256 + usize::from(*d);
        if len > left.len() || !is_kind(usize::from(*a) * 256 + usize::from(*b), &left[..len]) {
            return Err(count);
        }
        (block, count) = (&left[len..], count + 1);
    }
    Ok(count)
}

fn is_kind(of: usize, data: &[u8]) -> bool {
    match (of, data) {
        (1, _) => data.len() == 1,
        (0 | 10, [a, b, list @ ..]) if usize::from(*a) * 256 + usize::from(*b) == list.len() => {
            if of == 10 {
                list.len() % 2 == 0
            } else {
                are_names(list)
            }
        }
        (0 | 10, _) => false,
        _ => true,
    }
}

fn are_names(list: &[u8]) -> bool {
    match list {
        [] => true,
        [_, a, b, left @ ..] => left.get(usize::from(*a) * 256 + usize::from(*b)..).is_some_and(are_names),
        _ => false,
    }
}

/// Every block of up to eight bytes out of five, and up to seven more behind the front of a list.
#[test]
fn short_blocks() {
    fn each(block: &mut Vec<u8>, of: &[u8], most: usize, see: &mut impl FnMut(&[u8])) {
        see(block);
        if most > 0 {
            for byte in of {
                block.push(*byte);
                each(block, of, most - 1, see);
                block.pop();
            }
        }
    }
    let (mut whole, mut damaged) = (0, 0);
    let mut see = |block: &[u8]| {
        let right = account(block);
        assert_eq!(read(block).map(|all| all.len()), right, "{block:x?}");
        if let Ok((_, all)) = parse_tls_extensions(block) {
            assert_eq!((all.len(), all.iter().count()), (right.unwrap_or(0), right.unwrap_or(0)));
        }
        *(if right.is_ok() { &mut whole } else { &mut damaged }) += 1;
    };
    each(&mut vec![], &[0, 1, 2, 3, 10], 8, &mut see);
    for front in ["0000 0007 0005", "0000 0008 0006", "000a 0006 0004", "0001 0001 00 0000 0005 0003"] {
        each(&mut bytes(front), &[0, 1, 2, 3], 7, &mut see);
    }
    assert!(whole > 1_000 && damaged > 400_000, "{whole} whole, {damaged} damaged");
}
