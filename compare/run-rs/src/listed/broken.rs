//! Why a value may not be written.

use super::Listed::{self, *};
use judge::case::Case;
use judge::made::{Client, Draft, Key, Record, Server};
use judge::table::*;

/// The first part in the order of the fields.
pub fn outside(case: &Case) -> Option<Listed> {
    let i = &case.input[..];
    match case.function {
        GEN_CLIENT_HELLO => client(&Client::read(i)),
        GEN_SERVER_HELLO => server(&Server::read(i)),
        GEN_DRAFT_18 => draft(&Draft::read(i)),
        GEN_CLIENT_KEY => key(&Key::read(i)),
        GEN_FINISHED => over(Raw, i, limit::BODY),
        GEN_PLAINTEXT => over(Content, Record::read(i).content, limit::RECORD),
        _ => None,
    }
}

fn over(listed: Listed, part: &[u8], most: usize) -> Option<Listed> {
    (part.len() > most).then_some(listed)
}

fn optional(listed: Listed, part: Option<&[u8]>, most: usize) -> Option<Listed> {
    over(listed, part.unwrap_or(&[]), most)
}

fn random(listed: Listed, part: &[u8]) -> Option<Listed> {
    (part.len() != limit::RANDOM).then_some(listed)
}

fn client(m: &Client) -> Option<Listed> {
    random(Random, m.random)
        .or(optional(Id, m.id, limit::ID))
        .or(over(Ciphers, m.ciphers, limit::CIPHERS + 1))
        .or((!m.ciphers.len().is_multiple_of(2)).then_some(OddCiphers))
        .or(over(Methods, m.methods, limit::METHODS))
        .or(optional(Extensions, m.ext, limit::EXTENSIONS))
}

fn server(m: &Server) -> Option<Listed> {
    random(Random, m.random).or(optional(Id, m.id, limit::ID)).or(optional(
        Extensions,
        m.ext,
        limit::EXTENSIONS,
    ))
}

fn draft(m: &Draft) -> Option<Listed> {
    random(DraftRandom, m.random).or(optional(DraftExtensions, m.ext, limit::EXTENSIONS))
}

fn key(m: &Key) -> Option<Listed> {
    match m {
        Key::Unknown(part) => over(Raw, part, limit::BODY),
        Key::Dh(part) => over(DiffieHellman, part, limit::DH),
        Key::Ecdh(part) => over(Curve, part, limit::POINT),
    }
}
