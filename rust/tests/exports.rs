//! The Rust binding declares what the archive exports, by the same names and types, and has the
//! numbers of `norrabist.h` for types, versions and limits.

#[path = "support/rattle.rs"]
mod rattle;

use norrabist::*;
use rattle::{text, Typed};
use std::path::Path;

const HERE: &str = env!("CARGO_MANIFEST_DIR");

/// `i: *const u8, i_len: usize` of `i: &[u8]`.
fn parameter((name, of): &Typed) -> String {
    match of.as_str() {
        "&[u8]" => format!("{name}: *const u8, {name}_len: usize"),
        "&mut [u8]" => format!("{name}: *mut u8, {name}_len: usize"),
        _ => format!("{name}: {of}"),
    }
}

/// All of a list, one behind the other.
fn joined(list: &[Typed]) -> String {
    list.iter().map(parameter).collect::<Vec<_>>().join(", ")
}

/// What stands in a file of the binding behind each `before`, up to `end`, each blank one space.
fn declared(file: &str, before: &str, end: char) -> Vec<String> {
    let text = text(&Path::new(HERE).join(file));
    let pieces = text.split(before).skip(1).map(|piece| piece.split(end).next().unwrap_or(piece));
    sorted(pieces.map(|piece| piece.split_whitespace().collect::<Vec<_>>().join(" ")).collect())
}

fn sorted(mut all: Vec<String>) -> Vec<String> {
    all.sort();
    all
}

fn header() -> String {
    text(&Path::new(HERE).join("norrabist.h"))
}

/// The constants of the header whose numbers stand there in hex, without `NORRABIST_`.
fn numbers(header: &str) -> Vec<(&str, u32)> {
    let constants = header.lines().filter_map(|line| line.trim().strip_prefix("NORRABIST_"));
    let rows = constants.filter_map(|row| row.trim_end_matches(',').split_once(" = 0x"));
    rows.map(|(name, hex)| (name, u32::from_str_radix(hex, 16).expect("hex"))).collect()
}

/// `CLIENT_HELLO` of `ClientHello`.
fn in_capitals(name: &str) -> String {
    let letters = name.chars().enumerate();
    letters.fold(String::new(), |mut all, (k, letter)| {
        all.extend((k > 0 && letter.is_ascii_uppercase()).then_some('_'));
        all.push(letter.to_ascii_uppercase());
        all
    })
}

/// One enum of the header has these numbers, by the names that the binding has for them.
fn has(of: &str, known: Vec<u16>, name: impl Fn(u16) -> String) {
    let header = header();
    let (_, rows) = header.split_once(&format!("enum norrabist_{of} {{")).expect("an enum");
    let (rows, _) = rows.split_once('}').expect("its end");
    let known: Vec<_> = known.into_iter().map(|n| (in_capitals(&name(n)), u32::from(n))).collect();
    let told: Vec<_> = numbers(rows).into_iter().map(|(name, n)| (name.to_string(), n)).collect();
    assert_eq!(told, known, "{of}");
}

/// The numbers that a reader knows: those that it does not refuse so.
fn known(most: u16, unknown: Reason, refused: impl Fn(u16) -> Option<Refusal>) -> Vec<u16> {
    (0..=most).filter(|n| refused(*n).is_none_or(|refusal| refusal.reason != unknown)).collect()
}

#[test]
fn the_header_has_the_numbers_of_the_binding() {
    let records = known(0xff, Reason::Switch, |n| parse_tls_plaintext(&[n as u8, 0, 0, 0, 0]).err());
    has("record_type", records, |n| TlsRecordType(n as u8).to_string());
    let levels = known(0xff, Reason::LengthValue, |n| parse_tls_message_alert(&[n as u8, 0]).err());
    has("severity", levels, |n| TlsAlertSeverity(n as u8).to_string());
    let heartbeat = |n: u16| [&[n as u8, 0, 0][..], &[0; 16]].concat();
    let types = known(0xff, Reason::LengthValue, |n| parse_tls_message_heartbeat(&heartbeat(n), 19).err());
    has("heartbeat_type", types, |n| TlsHeartbeatMessageType(n as u8).to_string());
    let versions =
        known(0xffff, Reason::Tag, |n| parse_tls_handshake_msg_server_hello(&n.to_be_bytes()).err());
    has("version", versions, |n| TlsVersion(n).to_string());
    let kinds = known(0xff, Reason::Switch, |n| parse_tls_message_handshake(&[n as u8, 0, 0, 0]).err());
    has("kind", kinds, |n| TlsHandshakeType(n as u8).to_string());
    // without data, the extensions that are opened are refused, and no others
    let block = |n: u16| [n.to_be_bytes(), [0, 0]].concat();
    let opened = (0..=u16::MAX).filter(|n| parse_tls_extensions(&block(*n)).is_err()).collect();
    has("extension_type", opened, |n| format!("Ext{}", TlsExtensionType(n)));
    has("name_type", vec![0], |n| SNIType(n as u8).to_string());
    assert!(numbers(&header()).contains(&("MAX_RECORD_LEN", MAX_RECORD_LEN.into())));
}

/// The readers that tell why they refuse, by their numbers: those of the binding are the header's,
/// which has the one of a content by its type besides.
#[test]
fn the_header_has_the_readers_of_the_binding() {
    let header = header();
    let of_header = numbers(&header).into_iter();
    let of_header = of_header.filter_map(|(name, n)| Some((name.strip_prefix("READER_")?, n)));
    let table = text(&Path::new(HERE).join("src/table.rs"));
    let (_, readers) = table.split_once("mod reader {").expect("the readers");
    let (readers, _) = readers.split_once("\n}").expect("their end");
    let constants = readers.lines().filter_map(|line| line.trim().strip_prefix("pub const "));
    let rows = constants.filter_map(|row| row.strip_suffix(';')?.split_once(": u16 = 0x"));
    let rows = rows.map(|(name, hex)| (name, u32::from_str_radix(hex, 16).expect("hex")));
    assert!(of_header.eq(rows.chain([("CONTENT", 0x0200)])));
}

#[test]
fn the_binding_declares_the_exports() {
    let exports = rattle::exports().into_iter();
    let exports = exports.map(|e| format!("{}({}) -> {}", e.name, joined(&e.parameters), e.answer));
    let declared = declared("src/ffi.rs", "    fn norrabist_", ';').into_iter();
    assert_eq!(declared.map(|d| format!("norrabist_{d}")).collect::<Vec<_>>(), sorted(exports.collect()));
}

#[test]
fn the_binding_has_the_structs_of_the_exports() {
    let told = rattle::told().into_iter().map(|t| format!("{} {{ {},", t.name, joined(&t.fields)));
    assert_eq!(declared("src/ffi/told.rs", "    struct ", '}'), sorted(told.collect()));
}

/// The sizes to which the binding holds its structs are those of the header.
#[test]
fn the_binding_has_the_sizes_of_the_header() {
    let header = header();
    let rows = header.lines().filter_map(|line| line.strip_prefix("NORRABIST_HAS_SIZE(norrabist_"));
    let rows = rows.filter_map(|row| row.strip_suffix(");")?.split_once(", "));
    let told = text(&Path::new(HERE).join("src/ffi/told.rs"));
    let (_, sizes) = told.split_once("sizes! {").expect("the sizes");
    let sizes = sizes.lines().filter_map(|line| line.trim().strip_suffix(';')?.split_once(" is "));
    let sizes = sizes.map(|(name, size)| format!("{} {size}", in_capitals(name).to_lowercase()));
    let of_header = rows.map(|(name, size)| format!("{name} {size}"));
    let of_header = sorted(of_header.collect());
    assert_eq!((of_header.len(), sorted(sizes.collect())), (rattle::told().len(), of_header));
}
