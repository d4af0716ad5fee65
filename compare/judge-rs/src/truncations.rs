//! What tls-parser writes for values just outside of what may be written.

use crate::bytes::run;
use crate::made::{Client, Draft, Key, Record, Server};
use crate::table::record_type::HANDSHAKE;
use crate::table::version::{DRAFT_18, TLS12};
use crate::write::{self, Written};
use std::panic::{catch_unwind, set_hook, AssertUnwindSafe};

const RANDOM: &[u8] = &[0; 32];
const CLIENT: Client =
    Client { version: TLS12, random: RANDOM, id: None, ciphers: &[], methods: &[], ext: None };
const SERVER: Server =
    Server { version: TLS12, cipher: 0x1301, compression: 0, random: RANDOM, id: None, ext: None };
const DRAFT: Draft = Draft { version: DRAFT_18, cipher: 0x1301, random: RANDOM, ext: None };

/// Where the length of the part stands in the writing, and its bytes; none for a random.
type Place = Option<(usize, usize)>;

pub fn table() -> String {
    // A panic is told in its row.
    set_hook(Box::new(|_| {}));
    let built = if cfg!(debug_assertions) { "with" } else { "without" };
    let mut out = format!("tls-parser is built {built} debug assertions and overflow checks.\n");
    out += &row("value", "bytes", "its length", "message", "written");
    clients(&mut out);
    servers(&mut out);
    others(&mut out);
    records(&mut out);
    out
}

fn clients(out: &mut String) {
    for n in [31, 33] {
        let random = &run(1, n);
        add(out, "ClientHello, random", n, None, || write::client(&Client { random, ..CLIENT }));
    }
    for n in [33, 256] {
        let id = Some(&run(1, n)[..]);
        add(out, "ClientHello, id", n, Some((38, 1)), || write::client(&Client { id, ..CLIENT }));
    }
    let ciphers = &run(1, 65_536);
    add(out, "ClientHello, ciphers", 65_536, Some((39, 2)), || write::client(&Client { ciphers, ..CLIENT }));
    let methods = &run(1, 256);
    add(out, "ClientHello, methods", 256, Some((41, 1)), || write::client(&Client { methods, ..CLIENT }));
    let ext = Some(&run(1, 65_536)[..]);
    add(out, "ClientHello, extensions", 65_536, Some((42, 2)), || write::client(&Client { ext, ..CLIENT }));
}

fn servers(out: &mut String) {
    for n in [31, 33] {
        let random = &run(1, n);
        add(out, "ServerHello, random", n, None, || write::server(&Server { random, ..SERVER }));
    }
    for n in [33, 256] {
        let id = Some(&run(1, n)[..]);
        add(out, "ServerHello, id", n, Some((38, 1)), || write::server(&Server { id, ..SERVER }));
    }
    let ext = Some(&run(1, 65_536)[..]);
    add(out, "ServerHello, extensions", 65_536, Some((42, 2)), || write::server(&Server { ext, ..SERVER }));
    for n in [31, 33] {
        let random = &run(1, n);
        add(out, "draft 18, random", n, None, || write::draft(&Draft { random, ..DRAFT }));
    }
    add(out, "draft 18, extensions", 65_536, Some((40, 2)), || write::draft(&Draft { ext, ..DRAFT }));
}

fn others(out: &mut String) {
    let (dh, point, long) = (run(1, 65_536), run(1, 256), run(1, 16_777_216));
    add(out, "key exchange, Dh", 65_536, Some((4, 2)), || write::key(&Key::Dh(&dh)));
    add(out, "key exchange, Ecdh", 256, Some((4, 1)), || write::key(&Key::Ecdh(&point)));
    add(out, "key exchange, Unknown", 16_777_216, Some((1, 3)), || write::key(&Key::Unknown(&long)));
    add(out, "Finished", 16_777_216, Some((1, 3)), || write::finished(&long));
}

/// Records of one Finished each.
fn records(out: &mut String) {
    for n in [16_641, 65_536] {
        let content = write::finished(&run(1, n - 4)).expect("a message");
        let record = Record { record_type: HANDSHAKE, version: TLS12, content: &content };
        let text = told(n, Some((3, 2)), None, write::record(&record));
        out.push_str(&row("record, content", &text[0], &text[1], &text[2], &text[3]));
    }
}

/// A row of a message, which has a length of its own at its second byte.
fn add(out: &mut String, what: &str, n: usize, place: Place, write: impl FnOnce() -> Written) {
    let text = match catch_unwind(AssertUnwindSafe(write)) {
        Ok(written) => told(n, place, Some((1, 3)), written),
        Err(_) => [n.to_string(), "panic".into(), "panic".into(), "panic".into()],
    };
    out.push_str(&row(what, &text[0], &text[1], &text[2], &text[3]));
}

fn told(n: usize, part: Place, message: Place, written: Written) -> [String; 4] {
    let bytes = written.expect("a writing");
    let said = |place: Place| match place {
        None => "-".into(),
        Some((at, width)) => bytes[at..at + width].iter().fold(0, |n, b| n << 8 | u64::from(*b)).to_string(),
    };
    [n.to_string(), said(part), said(message), bytes.len().to_string()]
}

fn row(what: &str, bytes: &str, length: &str, message: &str, written: &str) -> String {
    format!("{what:<26}{bytes:>12}{length:>12}{message:>12}{written:>12}\n")
}
