//! Prints the records and messages of joined records, as they are on the wire: of each message its
//! type, of a ClientHello its ciphers too; a refusal by its name. `records.c` prints the same.
//!
//! Each record is read as plaintext, also one that is encrypted, which none of them shows:
//! `parse_tls_plaintext` has the loop for the records of one direction.
//!
//!     cargo run --example records -- FILE
//!     cargo run --example records < FILE
//!     cargo run --example records -- --sample    (a ClientHello whose extension block is cut off)

use norrabist::{parse_tls_plaintext, parse_tls_raw_record};
use norrabist::{TlsClientHelloContents, TlsMessage, TlsMessageHandshake, TlsPlaintext};
use std::io::{stdin, IsTerminal, Read};
use std::process::ExitCode;

const USAGE: &str = "\
usage: records FILE, or records < FILE: joined records, as bytes
       records --sample: a ClientHello whose extension block is cut off";

const SAMPLE: &[u8] = b"\
    \x16\x03\x01\x00\x37\x01\x00\x00\x33\x03\x03\
    \xfd\x42\x9e\x16\x30\xd2\x25\x3a\x7c\x0f\x4c\x0a\xa3\x62\xaf\xc1\
    \xa0\x36\x91\x6b\x52\x20\x14\x0e\x46\x98\x5c\x6b\x73\x02\xcd\xe9\
    \x00\x00\x06\xc0\x2c\xc0\x30\x00\x9f\x01\x00\x00\x6e\x00\x00\x00\x0f";

fn main() -> ExitCode {
    let words: Vec<_> = std::env::args().skip(1).collect();
    let input = match words.iter().map(String::as_str).collect::<Vec<_>>()[..] {
        ["--sample"] => Ok(SAMPLE.to_vec()),
        [file] if !file.starts_with('-') => std::fs::read(file),
        [] if !stdin().is_terminal() => {
            let mut bytes = Vec::new();
            stdin().read_to_end(&mut bytes).map(|_| bytes)
        }
        _ => {
            eprintln!("{USAGE}");
            return ExitCode::from(2);
        }
    };
    let bytes = match input {
        Ok(bytes) => bytes,
        Err(e) => {
            eprintln!("records: the input cannot be read: {e}");
            return ExitCode::FAILURE;
        }
    };
    if let Some(words) = something_else(&bytes) {
        eprintln!("records: {words}");
        return ExitCode::from(2);
    }
    records(&bytes);
    ExitCode::SUCCESS
}

/// What the bytes are, where they are plainly no records.
fn something_else(bytes: &[u8]) -> Option<&'static str> {
    let blank_or_digit = |byte: &u8| byte.is_ascii_whitespace() || byte.is_ascii_hexdigit();
    match bytes {
        [] => Some("the input has no byte"),
        [0xa1, 0xb2, 0xc3, 0xd4, ..]
        | [0xd4, 0xc3, 0xb2, 0xa1, ..]
        | [0xa1, 0xb2, 0x3c, 0x4d, ..]
        | [0x4d, 0x3c, 0xb2, 0xa1, ..] => {
            Some("the input is a pcap and not joined records; the README has the line that makes them of it")
        }
        [0x0a, 0x0d, 0x0d, 0x0a, ..] => Some(
            "the input is a pcapng and not joined records; the README has the line that makes them of it",
        ),
        _ if bytes.iter().take(16).all(blank_or_digit) => {
            Some("the input is hex text and not bytes; `xxd -r -p` makes bytes of it")
        }
        _ => None,
    }
}

fn records(bytes: &[u8]) {
    let mut left = bytes;
    while !left.is_empty() {
        print!("record at {}: ", bytes.len() - left.len());
        match parse_tls_plaintext(left) {
            Ok((_, record)) => show(&record),
            Err(refusal) => println!("refused, {} ({})", refusal.reason.name(), refusal.number()),
        }
        // a record that is not opened may still be whole
        left = parse_tls_raw_record(left).map_or(&[], |(rest, _)| rest);
    }
}

fn show(record: &TlsPlaintext) {
    let (version, len) = (record.hdr.version.0, record.hdr.len);
    let (count, dropped) = (record.count(), record.dropped());
    println!("version {version:04x}, {len} bytes, {count} messages, {dropped} bytes dropped");
    for (head, message) in record.msg.heads().zip(record.msg.handshakes()) {
        println!("  {}, {} bytes", head.kind, head.body.len());
        if let TlsMessageHandshake::ClientHello(hello) = message {
            client_hello(&hello);
        }
    }
    record.msg.iter().for_each(other);
}

fn other(message: TlsMessage) {
    match message {
        TlsMessage::Handshake(_) => {} // it has a head
        TlsMessage::ChangeCipherSpec => println!("  ChangeCipherSpec"),
        TlsMessage::Alert(alert) => {
            println!("  Alert, level {}, description {}", alert.severity.0, alert.code.0)
        }
        TlsMessage::ApplicationData(data) => println!("  ApplicationData, {} bytes", data.blob.len()),
        TlsMessage::Heartbeat(heartbeat) => {
            let (payload, padding) = (heartbeat.payload_len, heartbeat.padding.len());
            println!("  Heartbeat, type {}, {payload} bytes, padding {padding}", heartbeat.heartbeat_type.0)
        }
    }
}

fn client_hello(hello: &TlsClientHelloContents) {
    print!("    version {:04x}, {} ciphers:", hello.version.0, hello.ciphers.len());
    hello.ciphers.values().for_each(|cipher| print!(" {:04x}", cipher.0));
    match (hello.ext, hello.tail.len()) {
        (Some(ext), tail) => {
            println!("\n    extensions present, {} bytes, and {tail} behind them", ext.len())
        }
        (None, tail) => println!("\n    extensions absent, and {tail} bytes follow"),
    }
}
