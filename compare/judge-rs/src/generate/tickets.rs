//! NewSessionTickets at every edge of their length: alone, by a given length, in a message, in a row
//! of messages and in joined records.

use super::collect::Cases;
use crate::bytes::{announced, counting, hex, join, message, record, run};
use crate::table::record_type::{ALERT, HANDSHAKE};
use crate::table::{kind, limit, MANY, MESSAGE, MSG_TICKET, PLAINTEXT, WITH_HEADER};

const TICKET: u8 = kind::NewSessionTicket;
const LIFETIME: [u8; 4] = [0, 0, 0x0e, 0x10];
/// How many bytes stand before a ticket in its body, and the most that its length can say.
pub const HEAD: usize = 6;
pub const MOST: usize = 0xffff;

pub fn add(cases: &mut Cases) {
    cut(cases);
    short(cases);
    long(cases);
    given_lengths(cases);
    behind_messages(cases);
    rows(cases);
}

/// A body whose ticket has other bytes than its length says, or not.
fn body(told: usize, ticket: &[u8]) -> Vec<u8> {
    join(&[&LIFETIME, &announced(2, told, ticket)])
}

/// What a length may say of so many bytes: right, off by one, nothing, the most, with its bytes
/// turned round, with its own two bytes, and with all that stands before the ticket.
pub fn lengths(n: usize) -> [usize; 8] {
    let turned = (n as u16).swap_bytes().into();
    [n, n.wrapping_sub(1) & MOST, n + 1, 0, MOST, turned, n + 2, n + HEAD]
}

/// A ticket with a byte behind it, cut at each place; less than lifetime and length, of any bytes.
fn cut(cases: &mut Cases) {
    for whole in ["ff010203 0002 aabb cc", "ffffffff ff", "00000000 01"] {
        let whole = hex(whole);
        (0..=whole.len()).for_each(|n| cases.everywhere(TICKET, &whole[..n]));
    }
}

/// Bodies of 6 to 12 bytes, and those whose length has two bytes that differ.
fn short(cases: &mut Cases) {
    for n in 0..=6 {
        lengths(n).into_iter().for_each(|told| cases.everywhere(TICKET, &body(told, &counting(n))));
    }
    for n in [255, 256, 257] {
        lengths(n).into_iter().for_each(|told| cases.mostly(TICKET, &body(told, &run(0x5a, n))));
    }
    cases.everywhere(TICKET, &hex("ffffffff 0000"));
}

/// The longest ticket, one byte less and more, and lengths that say as much without their upper
/// bits; then those that fill a record.
fn long(cases: &mut Cases) {
    for n in [MOST - 1, MOST, MOST + 1, MOST + 2, 2 * MOST + 1, 2 * MOST + 2] {
        let ticket = run(0x5a, n);
        for told in [n, n - 1, 0, MOST] {
            let body = body(told, &ticket);
            cases.body(TICKET, &body);
            cases.add(MESSAGE, &message(TICKET, &body));
        }
    }
    let most = limit::RECORD - 4 - HEAD;
    for n in [most - 1, most, most + 1] {
        for told in [n - 1, n, n + 1] {
            let record = record(HANDSHAKE, &message(TICKET, &body(told, &run(0x5a, n))));
            cases.add(PLAINTEXT, &record);
        }
    }
}

/// Given lengths from 0, round the body and the bytes there are, and very large; bytes behind the
/// body by which its length would be another.
fn given_lengths(cases: &mut Cases) {
    for whole in ["00000e10 0000", "00000e10 0001 aa", "00000e10 0003 aabbcc", "00000e10 0004 aabbcc"] {
        let whole = hex(whole);
        for behind in ["", "dd", "0000"] {
            let input = join(&[&whole, &hex(behind)]);
            let (n, there) = (whole.len() as u64, input.len() as u64);
            let large = [1 << 16 | n, 1 << 32 | n, 1 << 63 | n, u64::MAX - 3, u64::MAX];
            for length in (0..=8).chain([n - 1, n, n + 1, there, there + 1]).chain(large) {
                cases.add_sized(MSG_TICKET, length, &input);
            }
        }
    }
    let long = body(MOST, &run(0x5a, MOST + 1));
    let n = long.len() as u64;
    [n - 2, n - 1, n, n + 1].into_iter().for_each(|length| cases.add_sized(MSG_TICKET, length, &long));
}

/// A message that is not the last of the bytes: what stands behind it is not its ticket.
fn behind_messages(cases: &mut Cases) {
    for told in [2, 3, 4] {
        let message = message(TICKET, &body(told, &[0xaa, 0xbb, 0xcc]));
        for behind in [&[][..], &[0xdd], &[0; 4]] {
            cases.add(MESSAGE, &join(&[&message, behind]));
            cases.add(PLAINTEXT, &record(HANDSHAKE, &join(&[&message, behind])));
        }
    }
}

/// Messages: taken, without a length, with half of one, with one more and one less than the bytes,
/// and of under 4 bytes.
const MESSAGES: [&str; 7] = [
    "04 000006 00000000 0000",
    "04 000008 00000e10 0002 aabb",
    "04 000004 00000000",
    "04 000005 00000000 00",
    "04 000006 00000000 0001",
    "04 000007 00000000 0000 00",
    "04 000003 000000",
];

/// Each as the first, a later and the last message of a record; and the record alone, behind its
/// header and joined to others.
fn rows(cases: &mut Cases) {
    let (request, finished, taken) = (&[0; 4][..], &hex("14 000001 bb")[..], &hex(MESSAGES[1])[..]);
    let alert = record(ALERT, &[2, 0x28]);
    for ticket in MESSAGES {
        let ticket = &hex(ticket)[..];
        for row in [
            &[ticket][..],
            &[ticket, request],
            &[request, ticket],
            &[request, ticket, finished],
            &[taken, ticket, taken],
            &[ticket, ticket],
            &[request, &ticket[..ticket.len() - 1]],
        ] {
            let record = record(HANDSHAKE, &row.concat());
            [PLAINTEXT, WITH_HEADER].into_iter().for_each(|f| cases.add(f, &record));
            cases.add(MANY, &join(&[&record, &alert]));
        }
        let record = record(HANDSHAKE, ticket);
        cases.add(MANY, &join(&[&alert, &record, &alert]));
        cases.add(MANY, &join(&[&alert, &record]));
    }
}
