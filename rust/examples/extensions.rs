//! Prints the server names, the fragment length and the groups of each ClientHello that begins a
//! record, or which of its extensions is damaged. `extensions.c` prints the same.
//!
//!     cargo run --example extensions < FILE

use norrabist::{parse_tls_extensions, parse_tls_plaintext, parse_tls_raw_record};
use norrabist::{TlsExtension, TlsMessageHandshake};
use std::io::Read;

fn main() -> Result<(), Box<dyn std::error::Error>> {
    let mut bytes = Vec::new();
    std::io::stdin().read_to_end(&mut bytes)?;
    let mut left = &bytes[..];
    while !left.is_empty() {
        let first = parse_tls_plaintext(left).ok().and_then(|(_, record)| record.msg.handshakes().next());
        if let Some(TlsMessageHandshake::ClientHello(hello)) = first {
            match hello.ext {
                Some(block) => extensions(block),
                None => println!("ClientHello, extensions absent"),
            }
        }
        // a record that is not opened may still be whole
        left = parse_tls_raw_record(left).map_or(&[], |(rest, _)| rest);
    }
    Ok(())
}

/// The extensions of a block, which is taken whole or not at all.
fn extensions(block: &[u8]) {
    let extensions = match parse_tls_extensions(block) {
        Ok((_, extensions)) => extensions,
        Err(damage) => {
            let (name, number) = (damage.refusal.name(), damage.refusal.number());
            return println!("ClientHello, extension {} is damaged, {name} ({number})", damage.index);
        }
    };
    println!("ClientHello, {} extensions", extensions.len());
    for extension in extensions {
        match extension {
            TlsExtension::SNI(names) => names
                .iter()
                .for_each(|(kind, name)| println!("  server name, type {}: {}", kind.0, host(name))),
            TlsExtension::MaxFragmentLength(value) => println!("  fragment length {value}"),
            TlsExtension::EllipticCurves(groups) => {
                let numbers: String = groups.values().map(|group| format!(" {:04x}", group.0)).collect();
                println!("  groups:{numbers}");
            }
            _ => {}
        }
    }
}

/// A name; a byte that is no letter, digit, hyphen or stop as two digits in hex.
fn host(name: &[u8]) -> String {
    let shown = |byte: &u8| match byte {
        b'a'..=b'z' | b'A'..=b'Z' | b'0'..=b'9' | b'-' | b'.' => char::from(*byte).to_string(),
        _ => format!("<{byte:02x}>"),
    };
    name.iter().map(shown).collect()
}
