//! The classes: what is read, by which functions of each side, and what is asked.

use crate::tap::{self, Pass, Tap};
use crate::{floor, inputs, norrabist, tls_parser};
use std::hint::black_box;

/// Opens the bytes and visits all that is in them; the sum of what was seen, the same on all sides.
pub type Visit = fn(&[u8]) -> usize;

/// Who reads: the places in a class's three functions.
pub const SIDES: [&str; 3] = ["norrabist", "tls-parser", "floor"];

/// What is asked of the ratio Norrabist / tls-parser: at most that.
#[derive(Clone, Copy)]
pub struct Asked {
    pub release: Option<f64>,
    pub lto: Option<f64>,
}

/// One class: its inputs are made when it is run.
pub struct Class {
    pub name: &'static str,
    pub asked: Asked,
    /// How often a counter of instructions has it run; 0 where its instructions are those of
    /// another class.
    pub times: u32,
    /// What a figure is divided by: the records of a tap; all inputs of another class are one.
    pub parts: usize,
    make: Box<dyn Fn() -> Work>,
}

/// The inputs of a class with the functions of the three sides.
pub enum Work {
    /// Inputs that are read by themselves.
    Inputs(Vec<Vec<u8>>, [Visit; 3]),
    /// Flows whose records are read in turn.
    Flows(Tap, [Pass; 3]),
}

impl Class {
    pub fn work(&self) -> Work {
        (self.make)()
    }
}

impl Work {
    /// All inputs so many times, by one side: the sum of what was seen.
    pub fn run(&mut self, side: usize, times: u32) -> usize {
        let mut sum = 0usize;
        match self {
            Work::Inputs(inputs, visits) => {
                let visit = visits[side];
                for _ in 0..times {
                    sum = inputs.iter().fold(sum, |sum, i| sum.wrapping_add(visit(black_box(i))));
                }
            }
            Work::Flows(tap, passes) => {
                for _ in 0..times {
                    sum = sum.wrapping_add(passes[side](black_box(tap)));
                }
            }
        }
        sum
    }
}

const RECORD: [Visit; 3] = [norrabist::record, tls_parser::record, floor::record];
const CLIENT: [Visit; 3] = [norrabist::client_hello, tls_parser::client_hello, floor::client_hello];
const SERVER: [Visit; 3] = [norrabist::server_hello, tls_parser::server_hello, floor::server_hello];
const WALK: [Visit; 3] = [norrabist::walk, tls_parser::walk, floor::walk];
const ONE: [Visit; 3] = [norrabist::one, tls_parser::walk, floor::walk];
const JOINED: [Visit; 3] = [norrabist::joined, tls_parser::joined, floor::joined];
const BLOCK: [Visit; 3] = [norrabist::block, tls_parser::block, floor::block];
const TAP: [Pass; 3] = [tap::norrabist, tap::tls_parser, tap::floor];
/// Norrabist called from C; the other sides are those of `TAP`.
const TAP_C: [Pass; 3] = [tap::norrabist_c, tap::tls_parser, tap::floor];

/// Counted so often: small inputs, and large ones.
const SMALL: u32 = 100;
const LARGE: u32 = 5;

fn class(
    name: &'static str,
    release: f64,
    times: u32,
    visits: [Visit; 3],
    inputs: impl Fn() -> Vec<Vec<u8>> + 'static,
) -> Class {
    let asked = Asked { release: Some(release), lto: (release <= 1.1).then_some(1.0) };
    Class { name, asked, times, parts: 1, make: Box::new(move || Work::Inputs(inputs(), visits)) }
}

fn flows(name: &'static str, count: usize, times: u32, passes: [Pass; 3]) -> Class {
    let asked = Asked { release: Some(0.35), lto: Some(1.0) };
    let parts = count * inputs::flow(0).len();
    Class { name, asked, times, parts, make: Box::new(move || Work::Flows(Tap::new(count), passes)) }
}

/// Each record without its first bytes.
fn behind(count: usize, records: Vec<Vec<u8>>) -> Vec<Vec<u8>> {
    records.into_iter().map(|record| record[count..].to_vec()).collect()
}

fn contents(records: Vec<Vec<u8>>) -> Vec<Vec<u8>> {
    behind(5, records)
}

fn bodies(records: Vec<Vec<u8>>) -> Vec<Vec<u8>> {
    behind(9, records)
}

pub fn all() -> Vec<Class> {
    use inputs::*;
    vec![
        class("small-client-hellos", 0.35, SMALL, RECORD, client_hellos),
        class("small-server-hellos", 0.35, SMALL, RECORD, server_hellos),
        class("small-flights", 0.35, SMALL, RECORD, flights),
        class("large-client-hello", 0.35, LARGE, RECORD, || vec![many_ciphers()]),
        class("large-certificate", 0.35, SMALL, RECORD, || vec![three_certificates()]),
        class("large-tiny-messages", 0.35, LARGE, RECORD, || vec![tiny_messages()]),
        class("large-short-messages", 0.35, LARGE, RECORD, || vec![short_messages()]),
        class("body-client-hello", 0.35, SMALL, CLIENT, || bodies(client_hellos())),
        class("body-server-hello", 1.4, SMALL, SERVER, || bodies(server_hellos())),
        class("loop-tiny-messages", 0.55, LARGE, WALK, || contents(vec![tiny_messages()])),
        class("loop-short-messages", 0.55, LARGE, WALK, || contents(vec![short_messages()])),
        class("one-tiny-messages", 1.1, LARGE, ONE, || contents(vec![tiny_messages()])),
        class("one-short-messages", 1.1, LARGE, ONE, || contents(vec![short_messages()])),
        class("one-server-hello", 1.1, SMALL, ONE, || contents(server_hellos())),
        class("extensions-client-hellos", 0.35, SMALL, BLOCK, client_blocks),
        class("extensions-many", 0.35, LARGE, BLOCK, || vec![many_extensions()]),
        flows("tap-64", 64, LARGE, TAP),
        flows("tap-20000", 20_000, 0, TAP),
        flows("tap-64-c", 64, LARGE, TAP_C),
        flows("tap-20000-c", 20_000, 0, TAP_C),
    ]
}

/// What is read at growing lengths.
pub struct Growth {
    pub name: &'static str,
    pub make: fn(usize) -> Vec<u8>,
    pub visits: [Visit; 3],
}

/// The lengths, from 1 KB to 16 MB.
pub const LENGTHS: [usize; 6] = [1 << 10, 1 << 14, 1 << 18, 1 << 20, 1 << 22, 1 << 24];

pub fn growths() -> [Growth; 5] {
    [
        Growth { name: "records", make: inputs::joined_records, visits: JOINED },
        Growth { name: "messages-walked", make: inputs::joined_messages, visits: WALK },
        Growth { name: "messages-one-by-one", make: inputs::joined_messages, visits: ONE },
        Growth { name: "certificates", make: inputs::many_certificates, visits: ONE },
        Growth { name: "extensions", make: inputs::joined_extensions, visits: BLOCK },
    ]
}

impl Growth {
    pub fn work(&self, len: usize) -> Work {
        Work::Inputs(vec![(self.make)(len)], self.visits)
    }
}
