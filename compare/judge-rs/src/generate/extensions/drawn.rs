//! Drawn extension blocks: about half of them are good.

use super::super::damage::harm;
use super::items::{announced_item, item, name, OPENED, RAW};
use crate::account::extensions::split;
use crate::bytes::{announced, be, counted, hex, join, run};
use crate::rng::Rng;

/// One in so many blocks is long.
const LONG: usize = 512;

/// One block; `real` are those of hellos.
pub fn draw(rng: &mut Rng, real: &[Vec<u8>]) -> Vec<u8> {
    if rng.below(LONG) == 0 {
        return long(rng);
    }
    let mut block = match rng.below(10) {
        0 => {
            let n = rng.below(14);
            rng.small_bytes(n)
        }
        1 | 2 => rng.pick(real).clone(),
        3 | 4 => changed(rng, real),
        _ => (0..rng.below(6)).flat_map(|_| drawn_item(rng)).collect(),
    };
    if rng.below(8) == 0 {
        harm(rng, &mut block);
    }
    block
}

/// A real block with an item's length or inner length off by one or two, an item twice or put in, or
/// its end cut off or drawn out.
fn changed(rng: &mut Rng, real: &[Vec<u8>]) -> Vec<u8> {
    let mut block = rng.pick(real).clone();
    let entries = split(&block).0;
    let (at, end) = match entries.len() {
        0 => (0, 0),
        n => {
            let (data, len) = entries[rng.below(n)].data;
            (data - 4, data + len)
        }
    };
    match rng.below(6) {
        0 => block.truncate(rng.below(block.len() + 1)),
        1 => {
            let n = 1 + rng.below(5);
            block.extend(rng.small_bytes(n));
        }
        2 => drop(block.splice(at..at, drawn_item(rng))),
        3 => {
            let again = block[at..end].to_vec();
            drop(block.splice(end..end, again));
        }
        4 => step(rng, &mut block, at + 3),
        _ => step(rng, &mut block, at + 5),
    }
    block
}

/// The byte there, if there is one, by one or two more or less.
fn step(rng: &mut Rng, block: &mut [u8], at: usize) {
    let change = *rng.pick(&[1, 2, 254, 255]);
    block.iter_mut().skip(at).take(1).for_each(|byte| *byte = byte.wrapping_add(change));
}

/// The number, and in one of so many one next to it, the next but one, or none.
fn near(rng: &mut Rng, n: usize, one_in: usize) -> usize {
    if rng.below(one_in) > 0 {
        return n;
    }
    match rng.below(5) {
        0 => n + 1,
        1 => n + 2,
        2 => n.saturating_sub(1),
        3 => n.saturating_sub(2),
        _ => 0,
    }
}

/// An item of any kind; its length is next to the right one in one of 48.
fn drawn_item(rng: &mut Rng) -> Vec<u8> {
    let (of, data) = match rng.below(16) {
        0..=4 => (0, names(rng)),
        5 | 6 => (1, value(rng)),
        7..=9 => (10, groups(rng)),
        10 => {
            let n = rng.below(8);
            (*rng.pick(&[0, 1, 10]), rng.small_bytes(n))
        }
        11 => return hex(OPENED[rng.below(OPENED.len())]),
        12..=14 => raw(rng),
        _ => {
            let n = rng.below(8);
            (rng.number() as u16, rng.bytes(n))
        }
    };
    let told = near(rng, data.len(), 48);
    announced_item(of, told, &data)
}

/// Up to three names and the list's length, each length next to the right one in one of 32.
fn names(rng: &mut Rng) -> Vec<u8> {
    let mut list = Vec::new();
    for _ in 0..rng.below(4) {
        let of = if rng.below(4) == 0 { rng.byte() } else { 0 };
        let n = if rng.below(8) == 0 { rng.below(64) } else { rng.below(6) };
        let told = near(rng, n, 32);
        list.extend(join(&[&[of], &announced(2, told, &rng.small_bytes(n))]));
    }
    let told = near(rng, list.len(), 32);
    announced(2, told, &list)
}

fn value(rng: &mut Rng) -> Vec<u8> {
    let n = if rng.below(12) == 0 { rng.below(4) } else { 1 };
    rng.bytes(n)
}

/// Up to seven groups and the list's length; a byte too many in one of 32.
fn groups(rng: &mut Rng) -> Vec<u8> {
    let n = 2 * rng.below(8) + usize::from(rng.below(32) == 0);
    let list = rng.small_bytes(n);
    let told = near(rng, n, 32);
    announced(2, told, &list)
}

/// Of a type that stays raw, mostly with data that is good for it.
fn raw(rng: &mut Rng) -> (u16, Vec<u8>) {
    let (of, data) = rng.pick(&RAW);
    let mut data = hex(data);
    if rng.below(12) == 0 {
        harm(rng, &mut data);
    }
    (*of, data)
}

/// A list as long as an item can hold, or many items.
fn long(rng: &mut Rng) -> Vec<u8> {
    let mut block = match rng.below(5) {
        0 => {
            let n = 65_520 + rng.below(11);
            item(0, &counted(2, &name(0, &run(0x61, n))))
        }
        1 => item(10, &counted(2, &run(rng.byte(), 2 * (32_760 + rng.below(7))))),
        2 => item(21, &run(0, 65_530 + rng.below(6))),
        3 => [0, 1, 0, 1, 2].repeat(rng.below(2_000)),
        _ => {
            let n = rng.below(40);
            let list = name(rng.byte(), &rng.bytes(n)).repeat(rng.below(400));
            item(0, &counted(2, &list))
        }
    };
    match rng.below(6) {
        0 => harm(rng, &mut block),
        1 if block.len() > 6 => {
            let told = usize::from(block[4]) << 8 | usize::from(block[5]);
            let told = near(rng, told, 1);
            drop(block.splice(4..6, be(2, told)));
        }
        2 => block.extend(drawn_item(rng)),
        _ => {}
    }
    block
}
