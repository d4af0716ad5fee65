//! Values that may not be written, at the edges and drawn; and the longest that may.

use crate::parts::Parts;
use judge::bytes::{message, run, telling};
use judge::case::Case;
use judge::generate;
use judge::made::{Client, Draft, Key, Record, Server};
use judge::rng::Rng;
use judge::table::limit::BODY;
use judge::table::record_type::HANDSHAKE;
use judge::table::version::{DRAFT_18, TLS12};
use judge::table::*;
use std::io;

type Out<'a> = &'a mut dyn FnMut(&Case) -> io::Result<()>;

const RANDOM: [usize; 9] = [0, 1, 3, 4, 5, 31, 33, 64, 288];
const ID: [usize; 6] = [33, 34, 255, 256, 257, 288];
const CIPHERS: [usize; 8] = [1, 3, 65_533, 65_535, 65_536, 65_537, 65_538, 131_072];
const METHODS: [usize; 5] = [256, 257, 511, 512, 65_536];
const BLOCK: [usize; 5] = [65_536, 65_537, 65_568, 131_071, 131_072];

pub fn edges(out: Out) -> io::Result<()> {
    let random = &telling(32)[..];
    let client = Client { version: TLS12, random, id: None, ciphers: &[0x13, 1], methods: &[0], ext: None };
    let server = Server { version: TLS12, cipher: 0x1301, compression: 0, random, id: None, ext: None };
    let draft = Draft { version: DRAFT_18, cipher: 0x1301, random, ext: None };
    for (part, lengths) in [&RANDOM[..], &ID, &CIPHERS, &METHODS, &BLOCK].into_iter().enumerate() {
        with_lengths(GEN_CLIENT_HELLO, &client.bytes(), part, lengths, out)?;
    }
    for (part, lengths) in [&RANDOM[..], &ID, &BLOCK].into_iter().enumerate() {
        with_lengths(GEN_SERVER_HELLO, &server.bytes(), part, lengths, out)?;
    }
    for (part, lengths) in [&RANDOM[..], &BLOCK].into_iter().enumerate() {
        with_lengths(GEN_DRAFT_18, &draft.bytes(), part, lengths, out)?;
    }
    with_lengths(GEN_CLIENT_KEY, &Key::Dh(&[]).bytes(), 0, &BLOCK, out)?;
    with_lengths(GEN_CLIENT_KEY, &Key::Ecdh(&[]).bytes(), 0, &METHODS, out)?;
    // A byte less may still be written.
    with_lengths(GEN_CLIENT_KEY, &Key::Unknown(&[]).bytes(), 0, &[BODY, BODY + 1, BODY + 2], out)?;
    with_lengths(GEN_FINISHED, &[], 0, &[BODY, BODY + 1, BODY + 2], out)?;
    for n in [limit::RECORD + 1, limit::RECORD + 2, 65_535, 65_536, 65_537, 131_072] {
        let content = &message(kind::Finished, &telling(n - 4));
        let input = Record { record_type: HANDSHAKE, version: TLS12, content }.bytes();
        out(&Case { function: GEN_PLAINTEXT, length: None, input })?;
    }
    Ok(())
}

/// A value with one of its parts in each of the lengths.
fn with_lengths(
    function: &'static str,
    input: &[u8],
    part: usize,
    lengths: &[usize],
    out: Out,
) -> io::Result<()> {
    let value = Parts::split(&Case { function, length: None, input: input.to_vec() });
    for n in lengths {
        let mut value = value.clone();
        value.parts[part].there = true;
        value.parts[part].bytes = telling(*n);
        out(&Case { function, length: None, input: value.input() })?;
    }
    Ok(())
}

/// The generator's values, `many` of them, those that can be broken with a part too long
/// or too short.
pub fn drawn(seed: u64, many: u64, out: Out) -> io::Result<()> {
    let mut rng = Rng::new(!seed);
    generate::generate_writes(seed.rotate_left(32), many, &mut |case| match broken(&mut rng, case) {
        Some(input) => out(&Case { function: case.function, length: None, input }),
        None => Ok(()),
    })
}

/// The input with one or two parts that break their rules.
fn broken(rng: &mut Rng, case: &Case) -> Option<Vec<u8>> {
    let mut value = Parts::split(case);
    for _ in 0..1 + rng.below(2) {
        let at = rng.below(value.parts.len());
        let n = match (case.function, at) {
            (GEN_CLIENT_HELLO | GEN_SERVER_HELLO | GEN_DRAFT_18, 0) => not_32(rng),
            (GEN_CLIENT_HELLO | GEN_SERVER_HELLO, 1) => limit::ID + 1 + rng.below(300),
            (GEN_CLIENT_HELLO, 2) if rng.below(8) > 0 => 2 * rng.below(40) + 1,
            (GEN_CLIENT_HELLO, 2) => limit::CIPHERS + 2 + rng.below(1000),
            (GEN_CLIENT_HELLO, 3) => limit::METHODS + 1 + rng.below(600),
            (GEN_CLIENT_HELLO | GEN_SERVER_HELLO | GEN_DRAFT_18, _) => {
                limit::EXTENSIONS + 1 + rng.below(1000)
            }
            (GEN_CLIENT_KEY, _) if value.numbers == [form::DH] => limit::DH + 1 + rng.below(1000),
            (GEN_CLIENT_KEY, _) if value.numbers == [form::ECDH] => limit::POINT + 1 + rng.below(600),
            (GEN_PLAINTEXT, _) => 0,
            _ => return None,
        };
        let part = &mut value.parts[at];
        part.there = true;
        if case.function == GEN_PLAINTEXT {
            part.bytes.extend(message(kind::Finished, &run(rng.byte(), limit::RECORD - 3 + rng.below(1000))));
        } else {
            part.bytes.resize(n, rng.byte());
        }
    }
    Some(value.input())
}

/// One in eight has four bytes, of which tls-parser's `rand_time` is the number.
fn not_32(rng: &mut Rng) -> usize {
    if rng.below(8) == 0 {
        return 4;
    }
    (33 + rng.below(99)) % 100
}
