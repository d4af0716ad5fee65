//! Items of extension blocks, good and bad, from which blocks are put together.

use crate::bytes::{announced, counted, join};

/// An item of that type whose length is right.
pub fn item(of: u16, data: &[u8]) -> Vec<u8> {
    announced_item(of, data.len(), data)
}

/// An item of which the length says any number.
pub fn announced_item(of: u16, told: usize, data: &[u8]) -> Vec<u8> {
    join(&[&of.to_be_bytes(), &announced(2, told, data)])
}

/// An entry of a list of names.
pub fn name(of: u8, name: &[u8]) -> Vec<u8> {
    join(&[&[of], &counted(2, name)])
}

/// Items that are opened and taken.
pub const OPENED: [&str; 11] = [
    "0000 0002 0000",
    "0000 0005 0003 00 0000",
    "0000 0008 0006 00 0003 612e62",
    "0000 000b 0009 00 0003 612e62 07 0000",
    "0000 000d 000b 00 0001 61 00 0000 ff 0001 62",
    "0001 0001 01",
    "0001 0001 04",
    "0001 0001 ff",
    "000a 0002 0000",
    "000a 0004 0002 001d",
    "000a 000a 0008 001d 0017 0100 0a0a",
];

/// Items that are opened and refused: of names the list's length missing, over and under, a name cut,
/// past the end and short of it; fragment values of none and of more bytes; of groups the list's
/// length missing, over and under, and odd lists.
pub const BAD: [&str; 26] = [
    "0000 0000",
    "0000 0001 00",
    "0000 0002 0001",
    "0000 0002 ffff",
    "0000 0003 0000 00",
    "0000 0008 0007 00 0003 612e62",
    "0000 0008 0005 00 0003 612e62",
    "0000 0003 0001 00",
    "0000 0004 0002 0000",
    "0000 0005 0003 00 0001",
    "0000 0006 0004 00 0000 00",
    "0000 0008 0006 00 0002 612e62",
    "0000 0008 0006 00 0004 612e62",
    "0000 000a 0008 00 0000 01 0003 6162",
    "0001 0000",
    "0001 0002 0000",
    "0001 0003 010203",
    "000a 0000",
    "000a 0001 00",
    "000a 0002 0001",
    "000a 0002 0002",
    "000a 0003 0000 00",
    "000a 0006 0002 001d 0017",
    "000a 0004 0004 001d",
    "000a 0003 0001 00",
    "000a 0005 0003 001d00",
];

/// Types that stay raw with good data: first those that tls-parser opens, then others.
pub const RAW: [(u16, &str); 42] = [
    (5, ""),
    (5, "01 0000 0000"),
    (11, "01 00"),
    (11, "00"),
    (13, "0004 0403 0804"),
    (15, "01"),
    (16, "0003 02 6832"),
    (16, "000c 02 6832 08 687474702f312e31"),
    (18, ""),
    (18, "0000"),
    (21, "000000"),
    (22, ""),
    (23, ""),
    (28, "4001"),
    (35, ""),
    (35, "aabb"),
    (40, "0000"),
    (41, "aabb"),
    (42, ""),
    (42, "00000400"),
    (43, "0304"),
    (43, "02 0304"),
    (43, "04 0304 0303"),
    (44, "0002 aabb"),
    (45, "01 01"),
    (48, "0000"),
    (48, "0006 02 550f 0001 aa"),
    (49, ""),
    (51, "0006 001d 0002 aabb"),
    (13172, ""),
    (0xff01, "00"),
    (0xff01, "02 aabb"),
    (0xffce, "1301 001d 0001 aa 0001 bb 0001 cc"),
    (2, ""),
    (14, "0002 0001 00"),
    (50, "0002 0403"),
    (0x0a0a, ""),
    (0x1a2a, "00"),
    (0xfafa, "00"),
    (0x0100, "00"),
    (0x0a00, "0002 001d"),
    (0xffff, ""),
];
