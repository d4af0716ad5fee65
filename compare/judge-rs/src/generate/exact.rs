//! ClientHellos that match exactly, and those a step from it: a list emptied, the block cut or left
//! out, bytes behind it, a byte dropped, put in or changed.

use super::chance::case;
use super::collect::Cases;
use super::damage::harm;
use super::good::{real_hellos, short_hellos};
use crate::bytes::join;
use crate::case::Case;
use crate::rng::Rng;
use crate::table::{kind, of_type, CLIENT_HELLO_STRICT};

/// A hello up to its ciphers, then ciphers, methods and block, each with its length.
struct Parts<'a> {
    head: &'a [u8],
    ciphers: &'a [u8],
    methods: &'a [u8],
    block: &'a [u8],
}

impl<'a> Parts<'a> {
    /// The parts of a hello that matches exactly.
    fn of(hello: &'a [u8]) -> Self {
        let (head, rest) = hello.split_at(35 + usize::from(hello[34]));
        let (ciphers, rest) = rest.split_at(2 + (usize::from(rest[0]) << 8 | usize::from(rest[1])));
        let (methods, block) = rest.split_at(1 + usize::from(rest[0]));
        Parts { head, ciphers, methods, block }
    }

    fn join(&self) -> Vec<u8> {
        join(&[self.head, self.ciphers, self.methods, self.block])
    }

    /// Where the lengths stand, of the id first, and the hello's end.
    fn places(&self) -> [usize; 7] {
        let ciphers = self.head.len();
        let methods = ciphers + self.ciphers.len();
        let block = methods + self.methods.len();
        [34, ciphers, ciphers + 1, methods, block, block + 1, block + self.block.len()]
    }
}

pub fn add(cases: &mut Cases) {
    for hello in short_hellos() {
        for body in steps(&hello) {
            cases.mostly(kind::ClientHello, &body);
        }
        for at in (0..=hello.len()).filter(|at| !(3..33).contains(at)) {
            bytes_at(&hello, at).iter().for_each(|body| cases.one(kind::ClientHello, body));
        }
    }
    for hello in real_hellos() {
        for body in steps(&hello) {
            cases.add(CLIENT_HELLO_STRICT, &body);
        }
        for at in Parts::of(&hello).places() {
            bytes_at(&hello, at).iter().for_each(|body| cases.add(CLIENT_HELLO_STRICT, body));
        }
    }
}

/// The hello with each list as it is and empty, and each of these with the block as it is, cut,
/// followed, absent, empty, and as less than a block.
fn steps(hello: &[u8]) -> Vec<Vec<u8>> {
    let whole = Parts::of(hello);
    let cut = &whole.block[..whole.block.len().saturating_sub(1)];
    let followed = join(&[whole.block, &[0xee]]);
    let blocks = [whole.block, cut, &followed, &[], &[0, 0], &[0, 0, 0], &[0], &[0, 1]];
    let mut all = Vec::new();
    for ciphers in [whole.ciphers, &[0, 0]] {
        for methods in [whole.methods, &[0]] {
            all.extend(blocks.map(|block| Parts { ciphers, methods, block, ..whole }.join()));
        }
    }
    all
}

/// The hello with a byte dropped at a place, put in there, and made one more and one less.
fn bytes_at(hello: &[u8], at: usize) -> Vec<Vec<u8>> {
    let (before, behind) = hello.split_at(at);
    let mut all = vec![join(&[before, &[0], behind]), join(&[before, &[1], behind])];
    if let [byte, rest @ ..] = behind {
        let changed = [1, 255].map(|change| join(&[before, &[byte.wrapping_add(change)], rest]));
        all.extend(changed.into_iter().chain([join(&[before, rest])]));
    }
    all
}

/// A hello that matches exactly in one of two, else a step from it; either is harmed in one of
/// four.
pub fn draw(rng: &mut Rng, hellos: &[Vec<u8>]) -> Case {
    let hello = rng.pick(hellos);
    let mut input = match rng.below(4) {
        0 | 1 => hello.clone(),
        _ => stepped(rng, hello),
    };
    if rng.below(4) == 0 {
        harm(rng, &mut input);
    }
    let name = rng.pick(of_type(kind::ClientHello));
    case(rng, name, input)
}

/// A list emptied now and then, and the block as it is, cut anywhere, followed or absent.
fn stepped(rng: &mut Rng, hello: &[u8]) -> Vec<u8> {
    let whole = Parts::of(hello);
    let ciphers = if rng.below(4) == 0 { &[0, 0] } else { whole.ciphers };
    let methods = if rng.below(4) == 0 { &[0] } else { whole.methods };
    let block = match rng.below(4) {
        0 => whole.block.to_vec(),
        1 => whole.block[..rng.below(whole.block.len() + 1)].to_vec(),
        2 => {
            let n = 1 + rng.below(3);
            join(&[whole.block, &rng.small_bytes(n)])
        }
        _ => Vec::new(),
    };
    Parts { ciphers, methods, block: &block, ..whole }.join()
}
