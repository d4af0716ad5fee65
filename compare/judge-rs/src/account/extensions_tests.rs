//! Tests of `extensions.rs`, which those of the Rust binding run too
//! (`rust/tests/extension_blocks.rs`).

use super::extensions::{block, split, Damage, Harm, Item};

/// The bytes of a text of hex digits; blanks are skipped.
fn bytes(text: &str) -> Vec<u8> {
    let text = text.replace(' ', "");
    (0..text.len() / 2)
        .map(|k| u8::from_str_radix(&text[2 * k..2 * k + 2], 16).expect("hex digits"))
        .collect()
}

fn taken(text: &str) -> Vec<Item> {
    block(&bytes(text)).unwrap_or_else(|damage| panic!("{text}: {damage:?}"))
}

fn damaged(text: &str, index: usize, harm: Harm) {
    assert_eq!(block(&bytes(text)), Err(Damage { index, harm }), "{text}");
}

/// An item of that type with a length that is right.
fn item(of: u16, data: &[u8]) -> Vec<u8> {
    let len = u16::try_from(data.len()).expect("a length");
    [&of.to_be_bytes()[..], &len.to_be_bytes(), data].concat()
}

#[test]
fn the_smallest() {
    assert_eq!(taken(""), []);
    assert_eq!(taken("0000 0002 0000"), [Item::Names(vec![])]);
    assert_eq!(taken("0000 0005 0003 00 0000"), [Item::Names(vec![(0, (9, 0))])]);
    assert_eq!(taken("0001 0001 00"), [Item::Fragment(0)]);
    assert_eq!(taken("000a 0002 0000"), [Item::Groups(vec![])]);
    assert_eq!(taken("000a 0004 0002 001d"), [Item::Groups(vec![0x1d])]);
    assert_eq!(taken("0002 0000"), [Item::Raw(2, (4, 0))]);
    damaged("00", 0, Harm::Cut);
    damaged("0000 0000", 0, Harm::NoLength);
    damaged("0001 0002 0000", 0, Harm::Fragment);
    damaged("000a 0003 0000 00", 0, Harm::Unlike);
}

/// An item of each kind, and each way to damage it.
const GOOD: [&str; 4] =
    ["0000 0008 0006 00 0003 612e62", "0001 0001 02", "000a 0006 0004 001d 0017", "0017 0000"];
const BAD: [(&str, Harm); 24] = [
    ("0000 0000", Harm::NoLength),
    ("0000 0001 00", Harm::NoLength),
    ("0000 0002 0001", Harm::Unlike),
    ("0000 0003 0000 00", Harm::Unlike),
    ("0000 0008 0007 00 0003 612e62", Harm::Unlike),
    ("0000 0008 0005 00 0003 612e62", Harm::Unlike),
    ("0000 0003 0001 00", Harm::Name),
    ("0000 0004 0002 0000", Harm::Name),
    ("0000 0005 0003 00 0001", Harm::Name),
    ("0000 0006 0004 00 0000 00", Harm::Name),
    ("0000 0008 0006 00 0002 612e62", Harm::Name),
    ("0000 0008 0006 00 0004 612e62", Harm::Name),
    ("0000 000a 0008 00 0000 01 0003 6162", Harm::Name),
    ("0001 0000", Harm::Fragment),
    ("0001 0002 0000", Harm::Fragment),
    ("0001 0003 010203", Harm::Fragment),
    ("000a 0000", Harm::NoLength),
    ("000a 0001 00", Harm::NoLength),
    ("000a 0002 0001", Harm::Unlike),
    ("000a 0002 0002", Harm::Unlike),
    ("000a 0003 0000 00", Harm::Unlike),
    ("000a 0004 0004 001d", Harm::Unlike),
    ("000a 0003 0001 00", Harm::Odd),
    ("000a 0005 0003 001d00", Harm::Odd),
];

/// At index 0, 1 and 2, with good and bad items behind it: the first that is damaged is told.
#[test]
fn damage_at_each_index() {
    for (bad, harm) in BAD {
        for first in GOOD {
            for second in GOOD {
                for behind in ["", GOOD[0], GOOD[3], "00", "0001 0000", bad] {
                    damaged(&format!("{bad} {behind}"), 0, harm);
                    damaged(&format!("{first} {bad} {behind}"), 1, harm);
                    damaged(&format!("{first} {second} {bad} {behind}"), 2, harm);
                }
            }
        }
    }
}

/// An item of any kind cut at each place, at index 0, 1 and 2; one that is opened is not looked into.
#[test]
fn cut_at_each_index() {
    let bad = BAD.iter().map(|(bad, _)| *bad);
    for last in GOOD.into_iter().chain(["0017 0004 01020304", "0a0a 0001 00"]).chain(bad) {
        let last = bytes(last);
        for before in ["", GOOD[3], "0001 0001 02 000a 0002 0000"] {
            let before = bytes(before);
            let index = split(&before).0.len();
            for n in 1..last.len() {
                let i = [&before[..], &last[..n]].concat();
                assert_eq!(block(&i), Err(Damage { index, harm: Harm::Cut }), "{i:x?}");
            }
        }
    }
    damaged("0001 0001 00 0000 0000 00", 1, Harm::NoLength);
    damaged("0017 ffff", 0, Harm::Cut);
}

/// Whatever they hold, and whatever their type would hold by its RFC.
#[test]
fn raw_items() {
    for of in (2..=9).chain(11..=60).chain([0x0a0a, 0x3374, 0xfafa, 0xff01, 0xffce, 0xffff, 0x0100, 0x0a00]) {
        for data in [&[][..], &[0], &[0xff; 3], &[0, 0], &[0, 1], &[0, 0, 0, 0, 0]] {
            let i = item(of, data);
            assert_eq!(block(&i), Ok(vec![Item::Raw(of, (4, data.len()))]));
        }
    }
    let longest = item(21, &[0; 65_535]);
    assert_eq!(block(&longest), Ok(vec![Item::Raw(21, (4, 65_535))]));
    assert_eq!(block(&longest.repeat(2)).map(|items| items.len()), Ok(2));
    // items of 10,798 bytes
    assert_eq!(block(&[0x2a; 64_788]).map(|items| items.len()), Ok(6));
    assert_eq!(block(&[0x2a; 64_789]), Err(Damage { index: 6, harm: Harm::Cut }));
}

#[test]
fn repeated_types() {
    let (names, value, groups) = (Item::Names(vec![]), Item::Fragment(7), Item::Groups(vec![]));
    let row = [&names, &value, &groups, &names, &value, &groups].map(Item::clone);
    assert_eq!(taken(&"0000 0002 0000 0001 0001 07 000a 0002 0000 ".repeat(2)), row);
    assert_eq!(taken("0017 0000 0017 0000"), [Item::Raw(0x17, (4, 0)), Item::Raw(0x17, (8, 0))]);
}

/// Empty names, several, and types other than 0; fragment values of every byte.
#[test]
fn what_is_not_looked_at() {
    let two = taken("0000 000b 0009 ff 0000 01 0003 000000");
    assert_eq!(two, [Item::Names(vec![(0xff, (9, 0)), (1, (12, 3))])]);
    for value in 0..=0xff {
        assert_eq!(block(&item(1, &[value])), Ok(vec![Item::Fragment(value)]));
    }
}

/// The longest lists that an item holds, and one more byte or group told than there are.
#[test]
fn the_longest() {
    let name = |told: u16, there: usize| [&[0][..], &told.to_be_bytes(), &vec![0x61; there]].concat();
    let list = |told: u16, list: &[u8]| [&told.to_be_bytes()[..], list].concat();
    for n in [65_526, 65_527, 65_529, 65_530_u16] {
        let names = item(0, &list(n + 3, &name(n, n.into())));
        assert_eq!(block(&names), Ok(vec![Item::Names(vec![(0, (9, n.into()))])]));
        let under = item(0, &list(n + 3, &name(n - 1, n.into())));
        assert_eq!(block(&under), Err(Damage { index: 0, harm: Harm::Name }));
        let over = item(0, &list(n + 3, &name(n + 1, n.into())));
        assert_eq!(block(&over), Err(Damage { index: 0, harm: Harm::Name }));
    }
    for n in [32_764, 32_765, 32_766_u16] {
        let groups = item(10, &list(2 * n, &[0, 29].repeat(n.into())));
        assert_eq!(block(&groups), Ok(vec![Item::Groups(vec![29; n.into()])]));
        let odd = item(10, &list(2 * n + 1, &vec![0; usize::from(n) * 2 + 1]));
        assert_eq!(block(&odd), Err(Damage { index: 0, harm: Harm::Odd }));
    }
}
