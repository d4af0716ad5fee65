//! Extension blocks, and extensions to be written, held to an account of them by itself: over the
//! recorded list, and over real blocks that are cut, drawn out and changed.

mod support;
// the account of extension blocks, by which `compare/run` judges too, and its own tests
#[path = "../../compare/judge-rs/src/account/extensions.rs"]
mod extensions;
#[path = "../../compare/judge-rs/src/account/extensions_tests.rs"]
mod extensions_tests;
#[path = "../../compare/judge-rs/src/account/extensions_written.rs"]
mod extensions_written;
#[path = "../../compare/judge-rs/src/account/extensions_written_tests.rs"]
mod extensions_written_tests;

use extensions::{block, split, Damage, Harm, Item};
use extensions_written::{row, values, Value};
use norrabist::*;
use support::text;

const LIST: &str = concat!(env!("CARGO_MANIFEST_DIR"), "/../compare/recorded.txt");
const SAMPLES: [&str; 7] = [
    include_str!("../../compare/samples/client-hello-10.hex"),
    include_str!("../../compare/samples/client-hello-12.hex"),
    include_str!("../../compare/samples/client-hello-13.hex"),
    include_str!("../../compare/samples/client-hello-gnutls.hex"),
    include_str!("../../compare/samples/server-hello-13.hex"),
    include_str!("../../compare/samples/server-flight-10.hex"),
    include_str!("../../compare/samples/server-flight-12.hex"),
];

/// That the extension is the item of the account, in the bytes of the block themselves.
fn same(i: &[u8], got: TlsExtension, right: &Item) {
    let is_part = |part: &[u8], (at, len): (usize, usize)| {
        assert_eq!(part.as_ptr_range(), i[at..at + len].as_ptr_range(), "{i:x?}");
    };
    match (got, right) {
        (TlsExtension::SNI(names), Item::Names(right)) => {
            assert_eq!(names.len(), right.len(), "{i:x?}");
            names.values().zip(right).for_each(|((of, name), right)| {
                assert_eq!(of.0, right.0, "{i:x?}");
                is_part(name, right.1);
            });
        }
        (TlsExtension::MaxFragmentLength(value), Item::Fragment(right)) => assert_eq!(value, *right),
        (TlsExtension::EllipticCurves(groups), Item::Groups(right)) => {
            assert!(groups.values().map(|group| group.0).eq(right.iter().copied()), "{i:x?}");
        }
        (TlsExtension::Unknown(of, data), Item::Raw(right, part)) => {
            assert_eq!(of.0, *right, "{i:x?}");
            is_part(data, *part);
        }
        (got, right) => panic!("{i:x?}: {got:?}, and not {right:?}"),
    }
}

/// What is said of a block, by Norrabist and by the account; one that is taken is written back.
fn said(i: &[u8]) -> Result<usize, Damage> {
    let right = block(i);
    match (parse_tls_extensions(i), &right) {
        (Ok((rest, all)), Ok(items)) => {
            assert_eq!(rest.as_ptr_range(), i[i.len()..].as_ptr_range(), "{i:x?}");
            assert_eq!(all.len(), items.len(), "{i:x?}");
            all.iter().zip(items).for_each(|(got, right)| same(i, got, right));
            written(&values(i).expect("a block"), &all.to_vec());
        }
        (Err(got), Err(damage)) => {
            assert_eq!((got.refusal.number(), got.index), (4, damage.index), "{i:x?}");
        }
        (got, _) => panic!("{i:x?}: {got:?}, and not {right:?}"),
    }
    right.map(|items| items.len())
}

/// That a row of extensions is written as the account writes its values, in a room that fits, and
/// that nothing is changed where it is refused.
fn written(right: &[Value], extensions: &[TlsExtension]) {
    let (right, fill) = (row(right), 0xa5);
    let room = right.as_ref().map_or(8, Vec::len);
    let mut out = vec![fill; room];
    let got = gen_tls_extensions(extensions, &mut out).map_err(|refused| u64::from(refused.number()));
    assert_eq!(got, right.as_ref().map(Vec::len).map_err(|unwritten| unwritten.number()));
    assert_eq!(out, right.unwrap_or(vec![fill; room]));
}

/// The extension blocks of the hellos of the samples.
fn samples() -> Vec<Vec<u8>> {
    let mut blocks = Vec::new();
    for sample in SAMPLES {
        let records = text::hex(&sample.split_whitespace().collect::<String>()).expect("hex");
        let (_, record) = parse_tls_plaintext(&records).expect("a record");
        let ext = match record.msg.handshakes().next().expect("a message") {
            TlsMessageHandshake::ClientHello(hello) => hello.ext,
            TlsMessageHandshake::ServerHello(hello) => hello.ext,
            other => panic!("no hello: {other:?}"),
        };
        blocks.extend(ext.map(<[u8]>::to_vec));
    }
    blocks
}

#[test]
fn real_blocks() {
    let counts: Vec<_> = samples().iter().map(|block| said(block)).collect();
    assert!(counts.len() >= 6 && counts.iter().all(|count| count.is_ok_and(|n| n > 0)), "{counts:?}");
}

/// Cut at each place: taken where an item ends, and else refused at the item that is cut.
#[test]
fn cut_blocks() {
    for block in samples() {
        let ends = split(&block).0.into_iter().map(|entry| entry.data.0 + entry.data.1);
        let ends: Vec<usize> = [0].into_iter().chain(ends).collect();
        for n in 0..=block.len() {
            let index = ends.iter().filter(|end| **end <= n).count() - 1;
            let right = match ends.contains(&n) {
                true => Ok(index),
                false => Err(Damage { index, harm: Harm::Cut }),
            };
            assert_eq!(said(&block[..n]), right, "{n} bytes");
        }
        for more in [&[0][..], &[0; 3], &[0xff; 4], &[0; 4]] {
            assert!(said(&[&block[..], more].concat()).is_err());
        }
        assert_eq!(said(&[&block[..], &[0, 2, 0, 0]].concat()), Ok(ends.len()));
    }
}

/// Each byte changed, left out and put in: what is said is what the account says, taken or not.
#[test]
fn changed_blocks() {
    let mut seen = Vec::new();
    for block in samples() {
        for at in 0..block.len() {
            let (before, behind) = block.split_at(at);
            let changes = [1, 2, 254, 255, 128].map(|change| behind[0].wrapping_add(change));
            let changed = changes.map(|byte| [before, &[byte], &behind[1..]].concat());
            let moved = [[before, &behind[1..]].concat(), [before, &[0], behind].concat()];
            for block in changed.into_iter().chain(moved) {
                seen.push(said(&block).map(|_| ()).map_err(|damage| damage.harm));
            }
        }
    }
    for said in [Ok(()), Err(Harm::Cut), Err(Harm::Unlike), Err(Harm::Name)] {
        assert!(seen.contains(&said), "{said:?}");
    }
}

#[test]
fn the_recorded_blocks() {
    let list = std::fs::read_to_string(LIST).unwrap_or_else(|e| panic!("{LIST}: {e}"));
    let cases = list.lines().filter(|line| !line.starts_with('#'));
    let cases = cases.map(|line| text::line(line).expect("a case"));
    let mut counts = [0; 2];
    for case in cases.filter(|case| case.function == support::extensions::READER) {
        match said(&case.input) {
            Ok(count) => assert_eq!((case.answer[0], case.answer[2]), (0, count as u64)),
            Err(damage) => assert_eq!(case.answer, [4, damage.index as u64]),
        }
        counts[usize::from(case.answer[0] == 0)] += 1;
    }
    assert!(counts[0] > 500 && counts[1] > 500, "{counts:?}");
}
