//! The recorded answers, tls-parser's or those of a listed difference, given by Norrabist.

mod support;

use norrabist::{parse_tls_plaintext, record_walk_next, Reason, TlsMessage, TlsPlaintext, TlsRecordType};
use std::io::{self, Write};
use support::{answer, functions, reasons, text, writing};

/// The recorded list, and the smallest inputs at which tls-parser and the RFCs part.
const LIST: &str = concat!(env!("CARGO_MANIFEST_DIR"), "/../compare/recorded.txt");
const DIFFERENCES: &str = concat!(env!("CARGO_MANIFEST_DIR"), "/../compare/differences.txt");

#[test]
fn answers_as_recorded() {
    let counts = replay("recorded list", LIST, 15_300);
    assert!(counts.iter().all(|count| *count > 0), "a function without a case");
}

#[test]
fn differences_are_as_listed() {
    replay("differences", DIFFERENCES, 108);
}

/// How many cases there are of each function; none of them differs.
fn replay(name: &str, path: &str, at_least: usize) -> Vec<usize> {
    let list = std::fs::read_to_string(path).unwrap_or_else(|e| panic!("{path}: {e}"));
    let mut counts = vec![0; functions().count()];
    let mut faults = Vec::new();
    for (k, text) in list.lines().enumerate().filter(|(_, text)| !text.starts_with('#')) {
        match compare(text) {
            Ok(function) => counts[function] += 1,
            Err(fault) => faults.push(format!("line {}: {fault}", k + 1)),
        }
    }
    let cases: usize = counts.iter().sum();
    // not by `println!`, which is seen where a test fails alone
    writeln!(io::stdout(), "{name}: {cases} cases as recorded, {} not", faults.len()).expect("output");
    assert!(faults.is_empty(), "{} differ:\n{}", faults.len(), faults[..faults.len().min(20)].join("\n"));
    assert!(cases >= at_least, "{cases} cases, and not {at_least}");
    counts
}

/// The place of the function among all, or what differs.
fn compare(line: &str) -> Result<usize, String> {
    let case = text::line(line).ok_or("cannot be read")?;
    let place = functions().position(|name| name == case.function).ok_or("no such function")?;
    let got = answer(case.function, case.len, &case.input);
    if got != case.answer {
        let k = got.iter().zip(&case.answer).take_while(|(a, b)| a == b).count();
        let (got, recorded) = (got.get(k), case.answer.get(k));
        return Err(format!("{}, number {k}: {got:?}, recorded {recorded:?}", case.function));
    }
    if case.function.starts_with("gen_") {
        outputs(case.function, &case.input, &case.answer)?;
    }
    if case.function == "parse_tls_plaintext" {
        walks(&case.input)?;
    }
    Ok(place)
}

/// Whatever the output held, its front is the text and the rest as it was; one byte less is no
/// room, and a refusal changes nothing.
fn outputs(name: &str, input: &[u8], answer: &[u64]) -> Result<(), String> {
    let text: Vec<u8> = answer.iter().skip(2).map(|b| *b as u8).collect();
    for fill in [0x00, 0xa5, 0xff] {
        let mut out = vec![fill; writing::room(input)];
        let mut expected = out.clone();
        expected[..text.len()].copy_from_slice(&text);
        writing::write(name, input, &mut out);
        if out != expected {
            return Err(format!("{name}: an output of {fill:#x} is not the text and {fill:#x} behind it"));
        }
        if answer[0] != 0 {
            continue;
        }
        let mut out = vec![fill; text.len() - 1];
        let got = writing::write(name, input, &mut out);
        if got.map(reasons) != Some(Err(Reason::NoRoom)) || out.iter().any(|b| *b != fill) {
            return Err(format!("{name}: one byte too few gives {got:?}"));
        }
    }
    Ok(())
}

/// The messages of a record are the same by their list, by their heads and by the walk, and end
/// before the bytes dropped.
fn walks(input: &[u8]) -> Result<(), String> {
    let Ok((_, record)) = parse_tls_plaintext(input) else { return Ok(()) };
    if record.hdr.record_type != TlsRecordType::Handshake {
        return others(&record);
    }
    let content = record.msg.as_bytes();
    let (mut at, mut count) = (0, 0);
    let mut heads = record.msg.heads();
    for message in &record.msg {
        let TlsMessage::Handshake(message) = message else { return Err("no handshake message".into()) };
        let (walked, next) =
            record_walk_next(content, at).map_err(|r| format!("the walk ends at {at}: {r}"))?;
        let head = heads.next().ok_or("no head")?;
        if walked != message || head.kind != message.handshake_type() || head.body != &content[at + 4..next] {
            return Err(format!("the message at {at} differs"));
        }
        (at, count) = (next, count + 1);
    }
    let ended =
        record_walk_next(content, at).is_err_and(|end| end == Reason::NoSuch) && heads.next().is_none();
    let counted = count == record.count() && count == record.msg.len() && !record.msg.is_empty();
    if ended && counted && content.len() - at == record.dropped() {
        return Ok(());
    }
    Err(format!("{count} messages, the last ends at {at}: ended {ended}, counted {counted}"))
}

/// Of a record of another type too, whose messages have one length each.
fn others(record: &TlsPlaintext) -> Result<(), String> {
    let content = record.msg.as_bytes();
    let len = match record.hdr.record_type {
        TlsRecordType::ChangeCipherSpec => 1,
        TlsRecordType::Alert => 2,
        _ => content.len(),
    };
    let count = record.msg.iter().count();
    let counted = count == record.count() && count == record.msg.len() && !record.msg.is_empty();
    let ended = content.len() - count * len == record.dropped();
    if counted && ended && record.msg.handshakes().next().is_none() {
        return Ok(());
    }
    Err(format!("{count} messages of {len} bytes: counted {counted}, {} dropped", record.dropped()))
}
