//! Tests of `extensions_ways.rs` and `extensions_there.rs`: against tls-parser itself.

use super::{of, Class, Stands};
use crate::account::extensions_written::Value;
use crate::answer::answer;
use crate::bytes::{be, counted, hex, join, run};
use crate::case::Case;
use crate::extension::{said, said_row, Name};
use crate::table::{EXTENSIONS, GEN_EXTENSION, GEN_EXTENSIONS, GEN_SERVER_NAME};
use crate::text;

/// How the two stand, the answer to be given and tls-parser's.
fn stands(function: &'static str, input: Vec<u8>) -> (Stands, String, String) {
    let case = Case { function, length: None, input };
    let (theirs, mut ours) = (answer(&case), Vec::new());
    let stands = of(&case, &theirs, &mut ours);
    (stands, text::numbers(&ours), text::numbers(&theirs))
}

fn read(block: &str) -> (Stands, String, String) {
    stands(EXTENSIONS, hex(block))
}

fn alike(block: &str, answer: &str) {
    assert_eq!(read(block), (Stands::Alike, answer.into(), answer.into()), "{block}");
}

fn parted(block: &str, class: Class, ours: &str, theirs: &str) {
    assert_eq!(read(block), (Stands::Parted(class), ours.into(), theirs.into()), "{block}");
}

#[test]
fn read_alike() {
    alike("", "0 0 0");
    alike("0000 0002 0000", "0 6 1 0 1 0");
    alike("0000 0009 0007 00 0001 61 07 0000", "0 13 1 0 1 2 0 9 1 7 13 0");
    alike("0001 0001 09", "0 5 1 1 1 9");
    alike("000a 0006 0004 001d 0100", "0 10 1 10 1 2 29 256");
    alike("0017 0000 0a0a 0001 00 fafa 0000", "0 13 3 23 0 4 0 2570 0 8 1 64250 0 13 0");
    alike("000b 0003 01 00 ff 002c 0001 00 0002 0000", "0 16 3 11 0 4 3 44 0 11 1 2 0 16 0");
}

#[test]
fn read_otherwise() {
    parted("00", Class::ExtensionCut, "4 0", "0 0 0");
    parted("0017 0000 000000", Class::ExtensionCut, "4 1", "0 4 1 23 0 4 0");
    parted("0000 0000", Class::EmptyServerName, "4 0", "0 4 1 0 1 0");
    parted("0000 0001 00", Class::NameList, "4 0", "0 0 0");
    parted("0000 0002 0001", Class::NameList, "4 0", "0 0 0");
    parted("0000 0003 0000 00", Class::NameList, "4 0", "0 7 1 0 1 0");
    parted("0000 0003 0001 00", Class::NameLength, "4 0", "0 7 1 0 1 0");
    parted("0000 0008 0006 00 0000 00 0001", Class::NameLength, "4 0", "0 12 1 0 1 1 0 9 0");
    parted("0001 0000", Class::FragmentLength, "4 0", "0 0 0");
    parted("0001 0002 0203", Class::FragmentLength, "4 0", "0 6 1 1 1 2");
    parted("000a 0001 00", Class::GroupList, "4 0", "0 0 0");
    parted("000a 0002 0001", Class::GroupList, "4 0", "0 0 0");
    parted("000a 0003 0000 00", Class::GroupList, "4 0", "0 7 1 10 1 0");
    parted("000a 0003 0001 00", Class::OddGroups, "4 0", "0 0 0");
    parted("000b 0000", Class::OpenedThere, "0 4 1 11 0 4 0", "0 0 0");
}

/// The first item of which the two make something else names the difference.
#[test]
fn the_first_difference() {
    parted("000b 0000 00", Class::OpenedThere, "4 1", "0 0 0");
    parted("000b 0000 0000 0000", Class::OpenedThere, "4 1", "0 0 0");
    parted("0000 0000 000b 0000", Class::EmptyServerName, "4 0", "0 4 1 0 1 0");
    parted("0000 0000 0001 0000 00", Class::EmptyServerName, "4 0", "0 4 1 0 1 0");
    parted("0001 0002 0000 0017 0000", Class::FragmentLength, "4 0", "0 10 2 1 1 0 23 0 10 0");
}

/// Every type with short data: no answer is amiss, and of the types that tls-parser does not open all
/// are alike.
#[test]
fn every_type() {
    let data = ["", "00", "01", "0000", "0001", "000000", "00000000", "0002 0001", "04 00000000"].map(hex);
    let mut parted = 0;
    for of_type in 0..=u16::MAX {
        for data in &data {
            let block = join(&[&of_type.to_be_bytes(), &counted(2, data)]);
            let (stands, ours, theirs) = stands(EXTENSIONS, block);
            assert_ne!(stands, Stands::Amiss, "{of_type} {data:x?}: {ours}, {theirs}");
            parted += u32::from(stands != Stands::Alike);
        }
    }
    // of server names, fragment lengths and groups; behind a length of one byte, and of two; empty,
    // or 1, 2 or 4 bytes; versions; and the encrypted name
    let others = 3 * 2 + 3 * 5 + 4 * 8 + 1 + 3 + 5 + 3 + 9;
    assert_eq!(parted, 8 + 7 + 7 + others);
}

/// Every word over a few letters as the data of each type that tls-parser opens.
#[test]
fn every_small_item() {
    let (types, letters) = ([0, 1, 5, 10, 11, 13, 15, 16, 18, 21, 22, 23, 28, 35, 40, 41], [0_u8, 1, 2, 3]);
    for of_type in types.into_iter().chain([42, 43, 44, 45, 48, 49, 51, 13172, 0xff01, 0xffce]) {
        for n in 0..=7 {
            for code in 0..4_usize.pow(n) {
                let data: Vec<u8> = (0..n).map(|k| letters[code / 4_usize.pow(k) % 4]).collect();
                let block = join(&[&be(2, of_type), &counted(2, &data), &[0, 1, 0, 1, 1]]);
                let (stands, ours, theirs) = stands(EXTENSIONS, block);
                assert_ne!(stands, Stands::Amiss, "{of_type} {data:x?}: {ours}, {theirs}");
            }
        }
    }
}

fn written(values: &[Value]) -> (Stands, String, String) {
    stands(GEN_EXTENSIONS, said_row(values))
}

#[test]
fn written_alike() {
    let row = [Value::Names(&[0, 0, 1, 0x61]), Value::Fragment(2), Value::Groups(&[0, 29])];
    let text = "0 25 0 23 0 0 0 6 0 4 0 0 1 97 0 1 0 1 2 0 10 0 4 0 2 0 29";
    assert_eq!(written(&row), (Stands::Alike, text.into(), text.into()));
    assert_eq!(written(&[]), (Stands::Alike, "0 2 0 0".into(), "0 2 0 0".into()));
    let raw = [Value::Fragment(1), Value::Raw(23, &[])];
    assert_eq!(written(&raw), (Stands::Alike, "12".into(), "12".into()));
    let long = run(0, 65_536);
    assert_eq!(written(&[Value::Groups(&long), raw[1]]), (Stands::Alike, "12".into(), "12".into()));
}

#[test]
fn written_otherwise() {
    let parted = |got: (Stands, String, String), class, ours: &str, theirs: &str| {
        assert_eq!((got.0, &got.1[..]), (Stands::Parted(class), ours));
        assert!(got.2.starts_with(theirs), "{}", got.2);
    };
    let (odd, raw) = (Value::Groups(&[0]), Value::Raw(23, &[]));
    parted(written(&[odd]), Class::OddGroupsWritten, "8", "101");
    parted(written(&[raw, odd]), Class::OddGroupsWritten, "12", "101");
    parted(written(&[Value::Names(&[0])]), Class::NoNamesWritten, "8", "101");
    let name = Name { of: 0, name: &run(0, 65_536) }.bytes();
    parted(stands(GEN_SERVER_NAME, name), Class::NameWritten, "8", "0 65539 0*65539");
    let (long, zeros) = (run(0, 65_536), run(0, 65_534));
    let one = |value: Value| stands(GEN_EXTENSION, said(&value));
    parted(one(Value::Groups(&long)), Class::ListWritten, "8", "0 65542 0 10 0 2 0*65538");
    parted(one(Value::Groups(&zeros)), Class::ExtensionWritten, "8", "0 65540 0 10 0 0 255 254 0*65534");
    let groups = Value::Groups(&long[..65_530]);
    assert_eq!(one(groups).0, Stands::Alike);
    parted(written(&[groups]), Class::RowWritten, "8", "0 65538 0 0 0 10 255 252 255 250 0*65530");
}
