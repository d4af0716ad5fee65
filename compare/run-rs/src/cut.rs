//! What docs/DIFFERENCES.md says that tls-parser writes for a value outside of what
//! may be written: every part, with as many bytes of its length as there is place for.

use judge::bytes::{be, counted, join, message};
use judge::case::Case;
use judge::made::{Client, Draft, Key, Record, Server};
use judge::table::*;

/// None for a value that tls-parser's types cannot hold.
pub fn written(case: &Case) -> Option<Vec<u8>> {
    let i = &case.input[..];
    match case.function {
        GEN_CLIENT_HELLO => client(&Client::read(i)),
        GEN_SERVER_HELLO => Some(server(&Server::read(i))),
        GEN_DRAFT_18 => Some(draft(&Draft::read(i))),
        GEN_CLIENT_KEY => Some(key(&Key::read(i))),
        GEN_FINISHED => Some(message(kind::Finished, i)),
        GEN_PLAINTEXT => Some(record(&Record::read(i))),
        _ => None,
    }
}

fn optional(width: usize, part: Option<&[u8]>) -> Vec<u8> {
    counted(width, part.unwrap_or(&[]))
}

fn client(m: &Client) -> Option<Vec<u8>> {
    let lists = join(&[&counted(2, m.ciphers), &counted(1, m.methods)]);
    let body = join(&[&be(2, m.version.into()), m.random, &optional(1, m.id), &lists, &optional(2, m.ext)]);
    m.ciphers.len().is_multiple_of(2).then(|| message(kind::ClientHello, &body))
}

fn server(m: &Server) -> Vec<u8> {
    let numbers = join(&[&be(2, m.cipher.into()), &[m.compression]]);
    let body = join(&[&be(2, m.version.into()), m.random, &optional(1, m.id), &numbers, &optional(2, m.ext)]);
    message(kind::ServerHello, &body)
}

fn draft(m: &Draft) -> Vec<u8> {
    message(
        kind::ServerHello,
        &join(&[&be(2, m.version.into()), m.random, &be(2, m.cipher.into()), &optional(2, m.ext)]),
    )
}

fn key(m: &Key) -> Vec<u8> {
    match m {
        Key::Unknown(part) => message(kind::ClientKeyExchange, part),
        Key::Dh(part) => message(kind::ClientKeyExchange, &counted(2, part)),
        Key::Ecdh(part) => message(kind::ClientKeyExchange, &counted(1, part)),
    }
}

fn record(m: &Record) -> Vec<u8> {
    join(&[&[m.record_type], &be(2, m.version.into()), &counted(2, m.content)])
}
