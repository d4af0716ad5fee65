//! Every row of a few messages and pieces of messages in a record, and of a few records and pieces
//! of records; and rows as long as a record may be.

use judge::bytes::{join, record, run as run_of};
use judge::case::Case;
use judge::table::record_type::{ALERT, CHANGE_CIPHER_SPEC, HANDSHAKE};
use judge::table::{kind, limit, MANY, PLAINTEXT, WITH_HEADER};
use std::io;

type Out<'a> = &'a mut dyn FnMut(&Case) -> io::Result<()>;

const PIECES: [&[u8]; 15] = [
    // Whole messages that are opened.
    &[kind::HelloRequest, 0, 0, 0],
    &[kind::ServerDone, 0, 0, 1, 0xaa],
    &[kind::Finished, 0, 0, 2, 0xbb, 0xcc],
    &[kind::KeyUpdate, 0, 0, 1, 1],
    &[kind::Certificate, 0, 0, 6, 0, 0, 3, 0, 0, 0],
    &[kind::NewSessionTicket, 0, 0, 6, 0, 0, 0, 0, 0, 0],
    // Whole messages that are refused: Switch, Incomplete, Verify, Tag, Complete, LengthValue twice.
    &[0x03, 0, 0, 0],
    &[kind::ClientHello, 0, 0, 0],
    &[kind::NewSessionTicket, 0, 0, 3, 0, 0, 0],
    &[kind::ServerHello, 0, 0, 2, 0x03, 0x04],
    &[kind::CertificateRequest, 0, 0, 0],
    &[kind::NewSessionTicket, 0, 0, 4, 0, 0, 0, 0],
    &[kind::NewSessionTicket, 0, 0, 7, 0, 0, 0, 0, 0, 0, 0],
    // A head, and less than a head.
    &[kind::EndOfEarlyData, 0, 0, 3],
    &[kind::HelloRequest],
];

const RECORDS: [&[u8]; 17] = [
    // Whole records that are opened, some with bytes that are in no message.
    &[0x16, 3, 3, 0, 4, 0, 0, 0, 0],
    &[0x16, 3, 3, 0, 5, 0x0e, 0, 0, 0, 0xff],
    &[0x14, 3, 3, 0, 1, 1],
    &[0x14, 3, 3, 0, 2, 1, 2],
    &[0x15, 3, 3, 0, 2, 2, 0x28],
    &[0x15, 3, 3, 0, 5, 1, 0, 0, 0, 1],
    &[0x17, 3, 3, 0, 0],
    &[0x18, 3, 3, 0, 20, 1, 0, 1, 7, 0, 0, 0, 0, 0, 0, 0, 0, 0, 0, 0, 0, 0, 0, 0, 0],
    &[0x16, 3, 3, 0, 18, 4, 0, 0, 6, 0, 0, 0, 0, 0, 0, 4, 0, 0, 4, 0, 0, 0, 0],
    // Whole records that are refused: Switch, Complete, LengthValue, Incomplete.
    &[0x19, 3, 3, 0, 0],
    &[0x15, 3, 3, 0, 1, 1],
    &[0x15, 3, 3, 0, 2, 3, 0],
    &[0x18, 3, 3, 0, 3, 1, 0, 0],
    &[0x16, 3, 3, 0, 8, 4, 0, 0, 4, 0, 0, 0, 0],
    &[0x18, 3, 3, 0, 2, 1, 0],
    // A header that is too large, and less than a header.
    &[0x14, 3, 3, 0x41, 1],
    &[0x14, 3],
];

/// Up to so many of them.
const MOST: usize = 5;
const MOST_RECORDS: usize = 4;

pub fn run(out: Out) -> io::Result<()> {
    rows(&PIECES, &mut Vec::new(), MOST, &mut |content| {
        out(&Case { function: PLAINTEXT, length: None, input: record(HANDSHAKE, content) })
    })?;
    rows(&RECORDS, &mut Vec::new(), MOST_RECORDS, &mut |records| {
        out(&Case { function: MANY, length: None, input: records.to_vec() })
    })?;
    long(out)
}

/// The row itself, then each with one more.
fn rows(
    pieces: &[&[u8]],
    row: &mut Vec<u8>,
    more: usize,
    out: &mut dyn FnMut(&[u8]) -> io::Result<()>,
) -> io::Result<()> {
    out(row)?;
    for piece in pieces.iter().filter(|_| more > 0) {
        row.extend(*piece);
        rows(pieces, row, more - 1, out)?;
        row.truncate(row.len() - piece.len());
    }
    Ok(())
}

/// Records full of the smallest messages, up to one that is refused at each end of them, and a row
/// of as many records as an input holds.
fn long(out: Out) -> io::Result<()> {
    for n in [limit::RECORD - 1, limit::RECORD] {
        for (of, whole) in [(CHANGE_CIPHER_SPEC, run_of(1, n)), (ALERT, run_of(2, n))] {
            for at in [None, Some(2), Some(n / 4 * 2), Some(n - 2), Some(n - 1)] {
                let mut content = whole.clone();
                at.into_iter().for_each(|at: usize| content[at] = 3);
                let input = record(of, &content);
                for function in [PLAINTEXT, WITH_HEADER] {
                    out(&Case { function, length: None, input: input.clone() })?;
                }
                let input = join(&[&input, RECORDS[0], &input, RECORDS[4]]);
                out(&Case { function: MANY, length: None, input })?;
            }
        }
    }
    let input = RECORDS[2].repeat(24_000);
    out(&Case { function: MANY, length: None, input })
}
