//! What has to hold before a figure is worth anything: the three sides see the same, and the floor
//! refuses what Norrabist refuses.

use crate::classes::{self, Visit, Work, SIDES};
use crate::{floor, inputs, norrabist, Random};
use std::process::exit;

/// How many changed records the floor is held to Norrabist by, and how many extension blocks.
const CHANGED: usize = 200_000;

/// Bytes of lengths, types and versions.
const TELLING: &[u8] = &[0, 1, 2, 3, 4, 6, 10, 11, 13, 0x12, 0x16, 0x18, 0x43, 0x7f, 0xff];

/// What reads an input, from a place on: its name, Norrabist's and the floor's.
type Reading = (&'static str, usize, Visit, Visit);

const RECORDS: [Reading; 5] = [
    ("record", 0, norrabist::record, floor::record),
    ("walk", 5, norrabist::walk, floor::walk),
    ("one", 5, norrabist::one, floor::walk),
    ("client_hello", 9, norrabist::client_hello, floor::client_hello),
    ("server_hello", 9, norrabist::server_hello, floor::server_hello),
];

const BLOCKS: [Reading; 1] = [("block", 0, norrabist::block, floor::block)];

/// The sums of all sides are equal, or the bench stops.
pub fn sums(name: &str, work: &mut Work) {
    let seen: Vec<usize> = (0..SIDES.len()).map(|side| work.run(side, 1)).collect();
    if seen.iter().any(|sum| *sum != seen[0] || *sum == usize::MAX) {
        eprintln!("{name}: the sides saw different things, or refused: {SIDES:?} {seen:?}");
        exit(1);
    }
}

/// All classes and growths, then the floor.
pub fn all() {
    for class in classes::all() {
        sums(class.name, &mut class.work());
    }
    for growth in classes::growths() {
        classes::LENGTHS.iter().for_each(|len| sums(growth.name, &mut growth.work(*len)));
    }
    changed();
}

/// Records and extension blocks with some bytes changed or cut off: the floor answers as Norrabist
/// does.
fn changed() {
    use inputs::*;
    let mut random = Random::new();
    let hellos = [client_hellos(), server_hellos()].concat();
    let records = [hellos, flights(), each_kind(), other_types()].concat();
    held("records", &mut random, &records, &RECORDS);
    held("blocks", &mut random, &[client_blocks(), each_extension()].concat(), &BLOCKS);
}

/// So many changed inputs by all readings.
fn held(what: &str, random: &mut Random, inputs: &[Vec<u8>], readings: &[Reading]) {
    let refused: usize = (0..CHANGED).map(|_| refusals(&change(random, inputs), readings)).sum();
    println!("{CHANGED} changed {what}, {refused} refusals: the floor answers as Norrabist does");
}

/// How many of the readings refuse the input; the bench stops where the two sides differ.
fn refusals(input: &[u8], readings: &[Reading]) -> usize {
    let mut refused = 0;
    for (name, from, ours, theirs) in readings {
        let bytes = input.get(*from..).unwrap_or(&[]);
        let (ours, theirs) = (ours(bytes), theirs(bytes));
        if ours != theirs {
            eprintln!("{name}: Norrabist {ours}, floor {theirs}: {bytes:02x?}");
            exit(1);
        }
        refused += usize::from(ours == usize::MAX);
    }
    refused
}

fn change(random: &mut Random, inputs: &[Vec<u8>]) -> Vec<u8> {
    let mut bytes = inputs[random.below(inputs.len())].clone();
    for _ in 0..random.below(4) {
        let near = bytes.len().min([60, usize::MAX][random.below(2)]);
        let at = random.below(near);
        bytes[at] = match random.below(3) {
            0 => random.below(0x100) as u8,
            1 => bytes[at].wrapping_add(1),
            _ => TELLING[random.below(TELLING.len())],
        };
    }
    if random.below(3) == 0 {
        bytes.truncate(random.below(bytes.len() + 1));
    }
    bytes
}
