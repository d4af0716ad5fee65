//! Tests of `ticket.rs`, which those of the Rust binding run too (`rust/tests/ticket.rs`).

use super::ticket::{given, ticket as read, Refused, Ticket};

/// A body: lifetime, a length, and a run of so many bytes.
fn body(told: u16, there: usize) -> Vec<u8> {
    [&[0, 0, 0x0e, 0x10][..], &told.to_be_bytes(), &vec![0x5a; there]].concat()
}

fn taken(there: usize) -> Result<Ticket, Refused> {
    Ok(Ticket { lifetime: 3600, ticket: (6, there) })
}

#[test]
fn under_four_bytes() {
    for n in 0..4 {
        for byte in [0, 1, 0xff] {
            assert_eq!(read(&vec![byte; n]), Err(Refused::Short), "{n}");
        }
    }
    assert_eq!(Refused::Short.number(), 3);
}

#[test]
fn no_length() {
    for n in [4, 5] {
        for byte in [0, 1, 0xff] {
            assert_eq!(read(&vec![byte; n]), Err(Refused::NoLength), "{n}");
        }
    }
    assert_eq!(Refused::NoLength.number(), 4);
}

#[test]
fn the_smallest_taken() {
    assert_eq!(read(&[0; 6]), Ok(Ticket { lifetime: 0, ticket: (6, 0) }));
    assert_eq!(read(&[0xff, 0xff, 0xff, 0xff, 0, 0]), Ok(Ticket { lifetime: u32::MAX, ticket: (6, 0) }));
    assert_eq!(read(&[1, 2, 3, 4, 0, 1, 0]), Ok(Ticket { lifetime: 0x0102_0304, ticket: (6, 1) }));
}

/// Of each number of bytes one length is taken.
#[test]
fn every_length_of_a_few_bytes() {
    for there in (0..=12).chain([255, 256, 257, 258, 512]) {
        for told in 0..=u16::MAX {
            let right = usize::from(told) == there;
            let want = if right { taken(there) } else { Err(Refused::Unlike) };
            assert_eq!(read(&body(told, there)), want, "{told} of {there}");
        }
    }
    assert_eq!(Refused::Unlike.number(), 4);
}

#[test]
fn the_longest_taken() {
    let longest = body(0xffff, 65_535);
    assert_eq!(longest.len(), 65_541);
    assert_eq!(read(&longest), taken(65_535));
    assert_eq!(read(&longest[..65_540]), Err(Refused::Unlike));
    assert_eq!(read(&body(0xfffe, 65_534)), taken(65_534));
    let mut over = body(0, 65_536);
    assert_eq!(over.len(), 65_542);
    for told in 0..=u16::MAX {
        over[4..6].copy_from_slice(&told.to_be_bytes());
        assert_eq!(read(&over), Err(Refused::Unlike), "{told}");
    }
    // As many bytes as a length says without its upper bits.
    assert_eq!(read(&body(1, 65_537)), Err(Refused::Unlike));
    assert_eq!(read(&body(0xffff, 131_071)), Err(Refused::Unlike));
}

/// Verify by the given length comes before Incomplete, and Incomplete before LengthValue.
#[test]
fn given_lengths() {
    for there in 0..12 {
        let input = vec![0xff; there];
        for length in (0..16).chain([65_541, 1 << 32, usize::MAX]) {
            let want = match length {
                0..4 => Refused::Short,
                _ if length > there => Refused::Past,
                4 | 5 => Refused::NoLength,
                _ => Refused::Unlike,
            };
            assert_eq!(given(&input, length), Err(want), "{length} of {there}");
        }
    }
    assert_eq!(Refused::Past.number(), 1);
}

/// The ticket's length is held against the given length, and not against the bytes there are.
#[test]
fn what_stands_behind() {
    for behind in [&[][..], &[0], &[0, 0], &[0xff; 9]] {
        for there in 0..6_u16 {
            let whole = body(there, there.into());
            let input = [&whole[..], behind].concat();
            assert_eq!(given(&input, whole.len()), taken(there.into()));
            for length in whole.len() + 1..=input.len() {
                assert_eq!(given(&input, length), Err(Refused::Unlike));
            }
            for length in 6..whole.len() {
                assert_eq!(given(&input, length), Err(Refused::Unlike));
            }
        }
    }
}

/// All bodies of up to seven bytes behind a lifetime, of a few values: what is taken joins to the
/// body again, and what is refused has no such ticket.
#[test]
fn all_short_bodies() {
    let values = [0, 1, 2, 3, 0xff];
    let mut counts = [0_u32; 3];
    for len in 0..=7_u32 {
        for code in 0..5_usize.pow(len) {
            let behind: Vec<u8> = (0..len).map(|k| values[code / 5_usize.pow(k) % 5]).collect();
            let body = [&[0, 0, 0x0e, 0x10][..], &behind].concat();
            match read(&body) {
                Ok(Ticket { lifetime, ticket: (at, n) }) => {
                    let length = u16::try_from(n).expect("a short ticket");
                    let joined = [&lifetime.to_be_bytes()[..], &length.to_be_bytes(), &body[at..at + n]];
                    assert_eq!(joined.concat(), body);
                    counts[0] += 1;
                }
                Err(Refused::NoLength) => {
                    assert!(len < 2);
                    counts[1] += 1;
                }
                Err(Refused::Unlike) => {
                    let (told, ticket) = behind.split_at(2);
                    assert_ne!(usize::from(told[0]) * 256 + usize::from(told[1]), ticket.len());
                    counts[2] += 1;
                }
                Err(refused) => panic!("{body:x?}: {refused:?}"),
            }
        }
    }
    assert_eq!(counts, [1 + 5 + 25 + 125, 6, 97_656 - 6 - 156]);
}
