//! Extension blocks at every edge: items cut and drawn out, each kind of damage at each place, lengths
//! off by one and two, the longest lists, and those of real hellos.

use super::super::collect::Cases;
use super::items::{announced_item, item, name, BAD, OPENED, RAW};
use super::real;
use crate::account::extensions::split;
use crate::bytes::{announced, counted, hex, join, run};
use crate::table::EXTENSIONS;

/// An empty extended master secret, which both take, and a fragment value.
const RAW_ITEM: [u8; 4] = [0, 23, 0, 0];
const VALUE: [u8; 5] = [0, 1, 0, 1, 2];

pub fn add(cases: &mut Cases) {
    (0..8).for_each(|n| put(cases, &run(0, n)));
    cut(cases);
    places(cases);
    off(cases);
    raw(cases);
    together(cases);
    long_names(cases);
    long_groups(cases);
    long_rows(cases);
    real(cases);
}

fn put(cases: &mut Cases, block: &[u8]) {
    cases.add(EXTENSIONS, block);
}

/// Items cut at each place, and with a byte behind them.
fn cut(cases: &mut Cases) {
    for item in [OPENED[3], OPENED[6], OPENED[9], "0017 0000", "0015 0003 000000"] {
        let item = hex(item);
        (0..=item.len()).for_each(|n| put(cases, &item[..n]));
        [0, 1, 0xff].into_iter().for_each(|byte| put(cases, &join(&[&item, &[byte]])));
        (1..item.len()).step_by(3).for_each(|n| put(cases, &join(&[&VALUE, &item[..n]])));
    }
}

/// Each kind of damage at index 0, 1 and 2, and before other items.
fn places(cases: &mut Cases) {
    for bad in BAD {
        let bad = &hex(bad)[..];
        for row in [&[bad][..], &[&VALUE, bad], &[&RAW_ITEM, &VALUE, bad], &[bad, &RAW_ITEM]] {
            put(cases, &row.concat());
        }
    }
    // the first of several
    put(cases, &[hex(BAD[0]), hex(BAD[14]), vec![0]].concat());
    put(cases, &[VALUE.to_vec(), hex(BAD[15]), hex(BAD[17])].concat());
}

/// Each byte of items that are opened made one and two more and less: lengths are among them.
fn off(cases: &mut Cases) {
    for whole in [OPENED[3], OPENED[6], OPENED[9]] {
        let whole = hex(whole);
        for at in 1..whole.len() {
            for change in [1, 2, 254, 255] {
                let mut block = whole.clone();
                block[at] = block[at].wrapping_add(change);
                put(cases, &block);
            }
        }
    }
}

/// Items that stay raw: as they are, with a byte less and a byte more in them, and with others.
fn raw(cases: &mut Cases) {
    for (of, data) in RAW {
        let data = hex(data);
        put(cases, &item(of, &data));
        put(cases, &item(of, &data[..data.len().saturating_sub(1)]));
        put(cases, &join(&[&VALUE, &item(of, &join(&[&data, &[0]])), &VALUE]));
    }
}

/// Items of all kinds in a row, and repeated types.
fn together(cases: &mut Cases) {
    let opened: Vec<Vec<u8>> = OPENED.map(hex).to_vec();
    opened.iter().for_each(|item| put(cases, item));
    opened.iter().for_each(|item| put(cases, &item.repeat(2)));
    put(cases, &opened.concat());
    let raw: Vec<u8> = RAW.iter().flat_map(|(of, data)| item(*of, &hex(data))).collect();
    put(cases, &raw);
    put(cases, &[raw, opened.concat(), vec![0]].concat());
}

/// A list of one name whose three lengths say so much more or less than there is.
fn one_name(n: usize, of_name: usize, of_list: usize, of_item: usize) -> Vec<u8> {
    let name = join(&[&[0], &announced(2, n + of_name, &run(0x61, n))]);
    let list = announced(2, name.len() + of_list, &name);
    announced_item(0, list.len() + of_item, &list)
}

fn long_names(cases: &mut Cases) {
    for n in [255, 256, 65_525, 65_526, 65_527, 65_529, 65_530] {
        put(cases, &one_name(n, 0, 0, 0));
    }
    for (of_name, of_list, of_item) in [(1, 0, 0), (0, 1, 0), (0, 0, 1), (65_535, 0, 0), (0, 65_535, 0)] {
        put(cases, &one_name(65_526, of_name, of_list, of_item));
    }
    // one more than the item's length can say
    put(cases, &one_name(65_531, 0, 0, 0));
    let names = name(0, &run(0x61, 10)).repeat(200);
    put(cases, &item(0, &counted(2, &names)));
    put(cases, &item(0, &counted(2, &names[..names.len() - 1])));
}

fn long_groups(cases: &mut Cases) {
    for n in [127, 128, 32_763, 32_764, 32_765, 32_766] {
        let groups = run(0x1d, 2 * n);
        put(cases, &item(10, &counted(2, &groups)));
        put(cases, &item(10, &counted(2, &groups[1..])));
    }
    put(cases, &item(10, &announced(2, 65_530, &run(0, 65_528))));
    put(cases, &item(10, &announced(2, 65_530, &run(0, 65_532))));
}

/// Blocks of up to 65,535 bytes and of more, which no hello holds.
fn long_rows(cases: &mut Cases) {
    for n in [65_530, 65_531, 65_532, 65_535] {
        put(cases, &item(21, &run(0, n)));
        put(cases, &join(&[&VALUE, &item(21, &run(0, n))[..n]]));
    }
    for n in [255, 256, 257] {
        put(cases, &VALUE.repeat(n));
        put(cases, &join(&[&RAW_ITEM.repeat(n), &hex(BAD[0])]));
    }
    // items of 10,798 bytes each
    for n in [64_788, 64_789, 75_586] {
        put(cases, &run(0x2a, n));
    }
    put(cases, &item(21, &run(0, 65_535)).repeat(2));
    put(cases, &join(&[&item(21, &run(0, 65_535)).repeat(2), &[0]]));
}

/// Those of the samples, cut at some places, drawn out and with each item's lengths changed; and
/// those of other hellos.
fn real(cases: &mut Cases) {
    for block in real::of_samples() {
        put(cases, &block);
        (1..block.len()).step_by(11).for_each(|n| put(cases, &block[..n]));
        put(cases, &join(&[&block, &[0]]));
        for entry in split(&block).0 {
            for at in [entry.data.0 - 1, entry.data.0 + 1] {
                let mut changed = block.clone();
                changed.iter_mut().skip(at).take(1).for_each(|byte| *byte = byte.wrapping_add(1));
                put(cases, &changed);
            }
        }
    }
    real::of_hellos().iter().for_each(|block| put(cases, block));
}
