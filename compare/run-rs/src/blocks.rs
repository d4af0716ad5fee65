//! Extension blocks and values to be written, every short one: items of every type, rows of a few
//! items and pieces of items, rows of a few values; and rows that are as long as they may be.

use crate::families::{bare, Family, Frame, BYTES};
use judge::account::extensions_written::Value;
use judge::bytes::{counted, join, run as run_of};
use judge::case::Case;
use judge::extension::{said, said_row, Name};
use judge::table::{EXTENSIONS, GEN_EXTENSION, GEN_EXTENSIONS, GEN_SERVER_NAME};
use std::io;

type Out<'a> = &'a mut dyn FnMut(&Case) -> io::Result<()>;

const READER: &[&str] = &[EXTENSIONS];

/// The types that tls-parser opens besides the three, and some that nobody opens.
const RAW: [u16; 26] = [
    5, 11, 13, 15, 16, 18, 21, 22, 23, 28, 35, 40, 41, 42, 43, 44, 45, 48, 49, 51, 13172, 0xff01, 0xffce, 2,
    0x0a0a, 0xffff,
];

/// Blocks that are words over a few letters, behind given bytes or as the data of an item.
pub fn families(all: &mut Vec<Family>) {
    all.push(bare(READER, &[], &[0, 1, 2, 3, 4, 10], 8));
    all.push(bare(READER, &[0, 0, 0], &[0, 1, 2, 3, 4, 5, 6], 7));
    all.push(bare(READER, &[0, 10, 0], &[0, 1, 2, 3, 4, 5, 6], 7));
    item(all, 0, &[], &[0, 1, 2, 3, 4, 5], 8);
    // names and what is left over, by a list's length that is right or not
    for n in 0..=8 {
        item(all, 0, &[0, n], &[0, 1, 2, 3], usize::from(n) + 1);
    }
    item(all, 1, &[], &BYTES, 2);
    item(all, 1, &[], &[0, 1], 6);
    item(all, 10, &[], &[0, 1, 2, 3, 4, 5, 6], 7);
    for of in RAW {
        item(all, of, &[], &[0, 1, 2, 3, 4], 6);
    }
    for of in [0, 1, 10, 11] {
        let frame = Frame::SecondItem(of);
        all.push(Family { frame, ..bare(READER, &[], &[0, 1, 2, 3], 6) });
    }
}

fn item(all: &mut Vec<Family>, of: u16, before: &[u8], letters: &'static [u8], most: usize) {
    all.push(Family { frame: Frame::Item(of), ..bare(READER, before, letters, most) });
}

const PIECES: [&[u8]; 15] = [
    // Items that are taken: of names, a fragment value, groups, and raw ones, of which tls-parser
    // cannot open the last two.
    &[0, 0, 0, 6, 0, 4, 0, 0, 1, 0x61],
    &[0, 0, 0, 2, 0, 0],
    &[0, 1, 0, 1, 3],
    &[0, 10, 0, 4, 0, 2, 0, 29],
    &[0, 21, 0, 1, 0],
    &[0, 11, 0, 0],
    &[0, 23, 0, 1, 0],
    // Items that are refused.
    &[0, 0, 0, 0],
    &[0, 0, 0, 3, 0, 1, 0],
    &[0, 1, 0, 2, 1, 2],
    &[0, 10, 0, 3, 0, 0, 0],
    &[0, 10, 0, 3, 0, 1, 0],
    // A head that takes what follows, a head, and less than a head.
    &[0, 21, 0, 4],
    &[0, 0, 0, 5],
    &[0],
];

const VALUES: [Value; 12] = [
    Value::Names(&[]),
    Value::Names(&[0, 0, 1, 0x61]),
    Value::Names(&[7, 0, 0, 0, 0, 2, 0, 0]),
    Value::Names(&[0]),
    Value::Names(&[0, 0, 1]),
    Value::Fragment(0),
    Value::Fragment(0xff),
    Value::Groups(&[]),
    Value::Groups(&[0, 29, 1, 0]),
    Value::Groups(&[0]),
    Value::Raw(23, &[]),
    Value::Raw(10, &[0, 2, 0, 29]),
];

/// Up to so many of them.
const MOST: usize = 5;
const MOST_VALUES: usize = 4;

pub fn run(out: Out) -> io::Result<()> {
    for of in 0..=u16::MAX {
        for data in [&[][..], &[0], &[0, 0], &[0, 1]] {
            read(&join(&[&of.to_be_bytes(), &counted(2, data)]), out)?;
        }
    }
    rows(&PIECES.map(<[u8]>::to_vec), &mut Vec::new(), MOST, &mut |block| read(block, out))?;
    rows(&VALUES.map(|value| said(&value)), &mut Vec::new(), MOST_VALUES, &mut |values| {
        write(GEN_EXTENSIONS, values.to_vec(), out)
    })?;
    VALUES.iter().try_for_each(|value| write(GEN_EXTENSION, said(value), out))?;
    words(out)?;
    long(out)
}

fn read(block: &[u8], out: Out) -> io::Result<()> {
    out(&Case { function: EXTENSIONS, length: None, input: block.to_vec() })
}

fn write(function: &'static str, input: Vec<u8>, out: Out) -> io::Result<()> {
    out(&Case { function, length: None, input })
}

/// The row itself, then each with one more.
fn rows(
    pieces: &[Vec<u8>],
    row: &mut Vec<u8>,
    more: usize,
    out: &mut dyn FnMut(&[u8]) -> io::Result<()>,
) -> io::Result<()> {
    out(row)?;
    for piece in pieces.iter().filter(|_| more > 0) {
        row.extend(piece);
        rows(pieces, row, more - 1, out)?;
        row.truncate(row.len() - piece.len());
    }
    Ok(())
}

/// Every list of up to eight small bytes, every fragment value, every name of up to one byte.
fn words(out: Out) -> io::Result<()> {
    for n in 0..=8_u32 {
        for code in 0..4_usize.pow(n) {
            let list: Vec<u8> = (0..n).map(|k| (code >> (2 * k) & 3) as u8).collect();
            write(GEN_EXTENSION, said(&Value::Names(&list)), out)?;
            if n <= 5 {
                write(GEN_EXTENSION, said(&Value::Groups(&list)), out)?;
            }
        }
    }
    for byte in 0..=0xff {
        write(GEN_EXTENSION, said(&Value::Fragment(byte)), out)?;
        write(GEN_SERVER_NAME, vec![byte], out)?;
        for of in 0..=0xff {
            write(GEN_SERVER_NAME, Name { of, name: &[byte] }.bytes(), out)?;
        }
    }
    Ok(())
}

/// As many of the smallest items as a block may have, and more; as many names and groups as a list.
fn long(out: Out) -> io::Result<()> {
    let (value, raw) = ([0, 1, 0, 1, 3], [0, 23, 0, 0]);
    for n in [13_107, 13_108] {
        read(&value.repeat(n), out)?;
        write(GEN_EXTENSIONS, said_row(&vec![Value::Fragment(3); n]), out)?;
    }
    for n in [16_383, 16_384] {
        read(&raw.repeat(n), out)?;
        read(&join(&[&raw.repeat(n), &[0, 0, 0, 0]]), out)?;
    }
    for n in [21_842, 21_843] {
        let names = run_of(0, 3 * n);
        read(&join(&[&[0, 0], &counted(2, &counted(2, &names))]), out)?;
        read(&join(&[&[0, 0], &counted(2, &counted(2, &names[1..]))]), out)?;
        write(GEN_EXTENSION, said(&Value::Names(&names)), out)?;
        write(GEN_EXTENSIONS, said_row(&[Value::Names(&names)]), out)?;
        write(GEN_EXTENSIONS, said_row(&[Value::Names(&names[1..])]), out)?;
    }
    Ok(())
}
