//! The examples `records` and `extensions`, in Rust, C and C++, print one text of records that were
//! captured; the first tells in a sentence what is no records.

#[path = "support/programs.rs"]
mod programs;

use norrabist::*;
use programs::{compiled, example, lent, of_tree, printed, ran, LANGUAGES};
use std::path::PathBuf;
use std::process::Stdio;
use std::sync::OnceLock;

/// The example in each language.
fn in_each_language(name: &str) -> Vec<PathBuf> {
    let in_c = LANGUAGES.iter().map(|language| compiled(&format!("examples/{name}.c"), language));
    in_c.chain([example(name)]).collect()
}

/// The example `records` in each language, compiled once.
fn programs() -> &'static [PathBuf] {
    static ALL: OnceLock<Vec<PathBuf>> = OnceLock::new();
    ALL.get_or_init(|| in_each_language("records"))
}

#[test]
fn records_are_printed_alike_of_a_file_and_of_standard_input() {
    for path in ["crates/look/handshake", "crates/look/cut", "crates/look/stdin", "examples/server.records"] {
        let said: Vec<_> = programs()
            .iter()
            .flat_map(|program| {
                let of_file = printed(program, &[of_tree(path)], Stdio::null());
                [of_file, printed(program, &[], lent(path))]
            })
            .collect();
        assert!(said.iter().all(|text| !text.is_empty() && *text == said[0]), "{path}: {said:#?}");
    }
}

#[test]
fn messages_and_ciphers_are_printed() {
    let look = |path: &str| printed(&example("records"), &[of_tree(path)], Stdio::null());
    let (whole, cut) = (look("crates/look/handshake"), look("crates/look/cut"));
    let first = "record at 0: version 0301, 211 bytes, 1 messages, 0 bytes dropped\n  \
                 ClientHello, 207 bytes\n    version 0303, 28 ciphers: c02c c030 009f ";
    assert!(whole.starts_with(first), "{whole}");
    let messages: Vec<_> =
        whole.lines().filter(|line| line.contains(" bytes") && line.starts_with("  ")).collect();
    let kinds: Vec<_> =
        messages.iter().filter_map(|line| line.trim().split_once(',')).map(|(kind, _)| kind).collect();
    let right = [
        "ClientHello",
        "extensions present",
        "ServerHello",
        "Certificate",
        "CertificateStatus",
        "ServerKeyExchange",
        "CertificateRequest",
        "ServerDone",
        "Certificate",
        "ClientKeyExchange",
        "CertificateVerify",
        "NewSessionTicket",
    ];
    assert_eq!(kinds, right);
    assert_eq!(whole.matches("\n  ChangeCipherSpec\n").count(), 2, "{whole}");
    assert!(!whole.contains("refused"), "{whole}");
    assert!(cut.ends_with("\n    extensions absent, and 102 bytes follow\n"), "{cut}");
}

#[test]
fn the_sample_is_shown_where_it_is_asked_for() {
    for program in programs() {
        let said = printed(program, &["--sample".into()], Stdio::null());
        assert!(
            said.ends_with("3 ciphers: c02c c030 009f\n    extensions absent, and 6 bytes follow\n"),
            "{said}"
        );
    }
}

/// A file with these bytes; where it is.
fn made(name: &str, bytes: &[u8]) -> PathBuf {
    let path = PathBuf::from(env!("CARGO_TARGET_TMPDIR")).join(name);
    std::fs::write(&path, bytes).expect("a file");
    path
}

#[test]
fn records_of_every_type_and_refusals_are_printed_alike() {
    let heartbeat = [&[0x18, 3, 3, 0, 22, 2, 0, 2, 7, 8][..], &[0; 17]].concat();
    let records: [&[u8]; 7] = [
        &[0x14, 3, 3, 0, 1, 1],
        &[0x15, 3, 3, 0, 5, 1, 90, 2, 40, 0],
        &[0x17, 3, 3, 0, 0],
        &heartbeat,
        &[0x15, 3, 3, 0, 1, 0],
        &[0x19, 3, 3, 0, 0],
        &[0x16, 3, 3, 0, 4, 1, 0, 0, 0, 0x17, 3, 3, 0, 1],
    ];
    let right = "record at 0: version 0303, 1 bytes, 1 messages, 0 bytes dropped\n  \
                 ChangeCipherSpec\n\
                 record at 6: version 0303, 5 bytes, 2 messages, 1 bytes dropped\n  \
                 Alert, level 1, description 90\n  Alert, level 2, description 40\n\
                 record at 16: version 0303, 0 bytes, 1 messages, 0 bytes dropped\n  \
                 ApplicationData, 0 bytes\n\
                 record at 21: version 0303, 22 bytes, 1 messages, 0 bytes dropped\n  \
                 Heartbeat, type 2, 2 bytes, padding 17\n\
                 record at 48: refused, LengthValue (4)\n\
                 record at 54: refused, Switch (6)\n\
                 record at 59: refused, Complete (2)\n\
                 record at 68: refused, Incomplete (1)\n";
    let file = made("every type", &records.concat());
    for program in programs() {
        assert_eq!(printed(program, std::slice::from_ref(&file), Stdio::null()), right);
    }
}

#[test]
fn what_is_no_records_is_told_in_a_sentence() {
    let pcap: [&[u8]; 4] =
        [b"\xa1\xb2\xc3\xd4\0", b"\xd4\xc3\xb2\xa1\0", b"\xa1\xb2\x3c\x4d\0", b"\x4d\x3c\xb2\xa1\0"];
    let pcap = pcap.iter().enumerate().map(|(k, bytes)| (made(&format!("pcap{k}"), bytes), "is a pcap and"));
    let others = [
        (of_tree("examples/handshake.pcap"), "is a pcap and"),
        (made("pcapng", b"\x0a\x0d\x0d\x0a\x6c\0\0\0"), "is a pcapng and"),
        (made("hex", b"16 03 01 00\n37 01 00 00 33 03 03"), "is hex text and"),
        (made("nothing", b""), "has no byte"),
        ("--unknown".into(), "usage: "),
    ];
    let cases: Vec<_> = pcap.chain(others).collect();
    for program in programs() {
        for (word, sentence) in &cases {
            let ran = ran(program, std::slice::from_ref(word), Stdio::null());
            let said = String::from_utf8_lossy(&ran.stderr).into_owned();
            assert!(ran.stdout.is_empty() && said.contains(sentence), "{}: {said}", word.display());
            assert_eq!(ran.status.code(), Some(2), "{}", word.display());
        }
    }
}

/// A ClientHello in a record, with these extensions.
fn with_extensions(ext: &[u8]) -> Vec<u8> {
    let (ciphers, comp) = (List::new(&[0x13, 0x01]), List::new(&[0]));
    let hello = TlsClientHelloContents::new(0x0303, &[7; 32], None, ciphers, comp, Some(ext));
    let hdr = TlsRecordHeader { record_type: TlsRecordType::Handshake, version: TlsVersion::Tls12, len: 0 };
    let mut record = Vec::new();
    gen_tls_plaintext_vec(&hdr, &hello.serialize().expect("a hello"), &mut record).expect("a record");
    record
}

#[test]
fn names_and_groups_are_printed_alike() {
    let odd = b"\0\0\0\x0d\0\x0b\0\0\x05a%_\x00B\x07\0\0\0\x01\0\x01\x04";
    let made = made(
        "extensions",
        &[with_extensions(odd), with_extensions(&[]), with_extensions(&[0, 23, 0, 0, 0, 0, 0, 0])].concat(),
    );
    let captured = |path: &str| (of_tree(path), printed(&example("extensions"), &[], lent(path)));
    let (handshake, cut) = (captured("crates/look/handshake"), captured("crates/look/cut"));
    let whole = "ClientHello, 8 extensions\n  server name, type 0: bench.test\n  \
                 groups: 001d 0017 001e 0019 0018\n";
    assert_eq!((&handshake.1[..], &cut.1[..]), (whole, "ClientHello, extensions absent\n"));
    let of_made = "ClientHello, 2 extensions\n  server name, type 0: a<25><5f><00>B\n  \
                   server name, type 7: \n  fragment length 4\n\
                   ClientHello, 0 extensions\n\
                   ClientHello, extension 1 is damaged, LengthValue (4)\n";
    for program in in_each_language("extensions") {
        for (path, right) in [&handshake, &cut, &(made.clone(), of_made.into())] {
            let input = std::fs::File::open(path).expect("a file");
            assert_eq!(printed(&program, &[], input.into()), *right, "{}", program.display());
        }
    }
}
