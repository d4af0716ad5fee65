//! Families of short inputs that are taken to the last one: given bytes, then every
//! word over a few letters, those that matter where they stand.

use crate::blocks;
use judge::bytes::be;
use judge::table::record_type::{ALERT, APPLICATION_DATA, CHANGE_CIPHER_SPEC, HANDSHAKE, HEARTBEAT};
use judge::table::version::{DRAFT_18, SSL30, TLS10, TLS11, TLS12, TLS13};
use judge::table::*;

pub struct Family {
    pub functions: &'static [&'static str],
    pub frame: Frame,
    /// Bytes that stand before the letters.
    pub before: Vec<u8>,
    pub letters: &'static [u8],
    /// The longest word.
    pub most: usize,
    /// The length arguments of the readers that take one.
    pub lengths: &'static [u64],
}

/// What stands round the bytes, announcing as many as there are.
#[derive(Clone, Copy)]
pub enum Frame {
    Bare,
    Message(u8),
    Record(u8),
    /// An extension of that type, alone and behind another.
    Item(u16),
    SecondItem(u16),
}

pub const BYTES: [u8; 256] = {
    let mut bytes = [0; 256];
    let mut k = 0;
    while k < 256 {
        bytes[k] = k as u8;
        k += 1;
    }
    bytes
};
const FEW: &[u8] = &[0, 1, 2];
const SMALL: &[u8] = &[0, 1, 2, 3, 0xff];
/// Types and lengths of messages.
const MESSAGES: &[u8] = &[0, 1, 2, 3, 4, 5, kind::CertificateRequest, kind::Finished];
/// Round the longest id, too.
const HELLO: &[u8] = &[0, 1, 2, 3, 0x20, 0x21, 0xff];

pub fn all() -> Vec<Family> {
    let mut all = vec![bare(&READING, &[], &BYTES, 2)];
    records(&mut all);
    contents(&mut all);
    heartbeats(&mut all);
    messages(&mut all);
    clients(&mut all);
    servers(&mut all);
    lists(&mut all);
    others(&mut all);
    tickets(&mut all);
    blocks::families(&mut all);
    all
}

pub fn bare(
    functions: &'static [&'static str],
    before: &[u8],
    letters: &'static [u8],
    most: usize,
) -> Family {
    let lengths = &[0, 1, 2, 3, 4, u64::MAX];
    Family { functions, frame: Frame::Bare, before: before.to_vec(), letters, most, lengths }
}

fn framed(frame: Frame, functions: &'static [&'static str], letters: &'static [u8], most: usize) -> Family {
    Family { frame, ..bare(functions, &[], letters, most) }
}

/// Headers, lengths round the limit, and contents of small messages.
fn records(all: &mut Vec<Family>) {
    all.push(bare(&[HEADER, RAW, ENCRYPTED, PLAINTEXT], &[], &[0, 1, 3, HANDSHAKE, 0x41, 0xff], 5));
    for record_type in CHANGE_CIPHER_SPEC - 1..=HEARTBEAT + 1 {
        let head = [record_type, 0x03, 0x01];
        all.push(bare(&[RAW, ENCRYPTED, PLAINTEXT, MANY], &head, &[0, 1, 2, 0x40, 0x41, 0xff], 4));
        let head = [record_type, 0x03, 0x01, 0];
        all.push(bare(&[PLAINTEXT, WITH_HEADER, MANY], &head, &[0, 1, 4, 5, kind::ServerDone], 6));
    }
    all.push(framed(Frame::Record(HANDSHAKE), &[PLAINTEXT], &[0, 1, 4, kind::ServerDone], 9));
    all.push(framed(Frame::Record(HANDSHAKE), &[PLAINTEXT, WITH_HEADER], MESSAGES, 6));
}

/// What opens a record's content.
const OPENING: &[&str] = &[PLAINTEXT, WITH_HEADER, MANY];

/// Contents of the records that are no handshake records.
fn contents(all: &mut Vec<Family>) {
    all.push(framed(Frame::Record(CHANGE_CIPHER_SPEC), OPENING, FEW, 8));
    all.push(framed(Frame::Record(ALERT), OPENING, SMALL, 6));
    all.push(framed(Frame::Record(APPLICATION_DATA), OPENING, FEW, 6));
    all.push(framed(Frame::Record(HEARTBEAT), OPENING, SMALL, 5));
    all.push(bare(&[MESSAGE_CIPHER_SPEC, MESSAGE_ALERT, MESSAGE_DATA], &[], SMALL, 6));
}

/// Heartbeats of 16 to 24 bytes: every small type and length of the payload.
fn heartbeats(all: &mut Vec<Family>) {
    let lengths = &[0, 1, 2, 3, 4, 16, 17, 18, 19, 20, 21, 22, 23, 24, 25, 0xffff];
    for of in SMALL {
        for payload in (0..=6).chain([0x0100, 0x0101, 0xff00]) {
            let before = [&[*of], &be(2, payload)[..], &[7; 13]].concat();
            let heartbeat = bare(&[MESSAGE_HEARTBEAT], &before, &[7], 8);
            all.push(Family { lengths, ..heartbeat });
            let frame = Frame::Record(HEARTBEAT);
            all.push(Family { frame, ..bare(OPENING, &before, &[7], 8) });
        }
    }
}

/// Every type, and for those that are opened short bodies.
fn messages(all: &mut Vec<Family>) {
    for handshake_type in 0..=0xff {
        all.push(bare(&[MESSAGE], &[handshake_type], &[0, 1, 2, 0xff], 4));
    }
    for handshake_type in TYPES {
        all.push(framed(Frame::Message(handshake_type), &[MESSAGE], SMALL, 6));
    }
}

/// The given bytes cut at each place, and words behind all of them.
fn behind(all: &mut Vec<Family>, functions: &'static [&'static str], before: &[u8], more: [usize; 2]) {
    for n in 0..before.len() {
        all.push(bare(functions, &before[..n], HELLO, 1));
    }
    all.push(bare(functions, before, HELLO, more[0]));
    all.push(bare(functions, before, FEW, more[1]));
}

/// A version, and a random whose bytes tell their places.
fn fixed(version: u16) -> Vec<u8> {
    version.to_be_bytes().into_iter().chain(0xc0..0xe0).collect()
}

/// What reads the body of a ClientHello.
const CLIENTS: &[&str] = &[CLIENT_HELLO, CLIENT_HELLO_STRICT, MSG_CLIENT_HELLO, MSG_CLIENT_HELLO_STRICT];

fn clients(all: &mut Vec<Family>) {
    behind(all, CLIENTS, &fixed(TLS12), [6, 11]);
    // With an id, with three ciphers, and all but the block.
    for more in [&[2, 7, 8][..], &[0, 0, 6], &[0, 0, 2, 0x13, 1, 1, 0]] {
        let before = [&fixed(TLS10)[..], more].concat();
        all.push(bare(CLIENTS, &before, SMALL, 5));
        all.push(bare(CLIENTS, &before, FEW, 9));
    }
    for frame in [Frame::Message(kind::ClientHello), Frame::Message(kind::ServerHello)] {
        all.push(Family { frame, ..bare(&[MESSAGE], &fixed(TLS12), FEW, 8) });
    }
}

fn servers(all: &mut Vec<Family>) {
    for version in [SSL30, TLS10, TLS11, TLS12, TLS13, DRAFT_18] {
        behind(all, &[SERVER_HELLO, MSG_SERVER_HELLO], &fixed(version), [5, 8]);
    }
    behind(all, &[MSG_RETRY], &[0x7f, 0x12, 0x13, 1], [5, 8]);
}

fn lists(all: &mut Vec<Family>) {
    all.push(bare(&[MSG_CERTIFICATE], &[], SMALL, 6));
    all.push(bare(&[MSG_CERTIFICATE], &[0, 0], &[0, 1, 3, 4, 6], 8));
    all.push(bare(&[MSG_CERTIFICATE], &[0, 0], FEW, 9));
    all.push(bare(&[MSG_CERTIFICATE], &[0, 0, 10], FEW, 11));
    all.push(bare(&[REQUEST, MSG_REQUEST], &[], &[0, 1, 2, 3, 4], 7));
    all.push(bare(&[REQUEST, MSG_REQUEST], &[], FEW, 11));
    all.push(bare(&[REQUEST, MSG_REQUEST], &[0, 0, 6], FEW, 9));
    all.push(bare(&[REQUEST, MSG_REQUEST], &[1, 0x40, 0, 2, 4, 3, 0, 7], FEW, 8));
}

fn others(all: &mut Vec<Family>) {
    all.push(bare(&[STATUS, MSG_STATUS, NEXT, MSG_NEXT], &[], SMALL, 7));
    all.push(bare(&[MSG_KEY_UPDATE, MSG_HELLO_REQUEST], &[], SMALL, 4));
    let lengths = &[0, 1, 2, 3, 4, 5, 6, 7, 8, 1 << 32, u64::MAX - 3, u64::MAX];
    all.push(Family { lengths, ..bare(&SIZED, &[], SMALL, 6) });
}

/// Behind a lifetime every small length and ticket: by given lengths, in a message, and in a record.
fn tickets(all: &mut Vec<Family>) {
    let lifetime = [0, 0, 0x0e, 0x10];
    let lengths = &[0, 3, 4, 5, 6, 7, 8, 9, 10, 11, 1 << 32 | 6, u64::MAX];
    all.push(Family { lengths, ..bare(&[MSG_TICKET], &lifetime, SMALL, 6) });
    let frame = Frame::Message(kind::NewSessionTicket);
    all.push(Family { frame, ..bare(&[MESSAGE], &lifetime, SMALL, 7) });
    for n in 0..=7 {
        let before = [&[kind::NewSessionTicket, 0, 0, 4 + n][..], &lifetime].concat();
        let frame = Frame::Record(HANDSHAKE);
        all.push(Family { frame, ..bare(OPENING, &before, FEW, 8) });
    }
}
