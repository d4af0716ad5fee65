//! The NewSessionTicket by RFC 5077 3.3 (RULES 4.2): what is taken and refused by the reader that is
//! given a length, in a message, in a record, between other messages and in joined records; over the
//! recorded list and a real ticket, whole and damaged.

mod support;
// the account of a NewSessionTicket, by which `compare/run` judges too, and its own tests
#[path = "../../compare/judge-rs/src/account/ticket.rs"]
mod ticket;
#[path = "../../compare/judge-rs/src/account/ticket_tests.rs"]
mod ticket_tests;

use norrabist::*;
use std::collections::HashMap;
use support::{reasons, text};
use ticket::{Refused, Ticket};

const LIST: &str = concat!(env!("CARGO_MANIFEST_DIR"), "/../compare/recorded.txt");
const SAMPLE: &str = include_str!("../../compare/samples/server-end-12.hex");

/// Types of messages and records, and the most bytes of a record.
const TICKET: u8 = 4;
const HANDSHAKE: u8 = 0x16;
const MOST: usize = 16_640;

const HELLO_REQUEST: [u8; 4] = [0; 4];

/// What is said of a body: the ticket, or why it is refused.
type Said = Result<Ticket, Refused>;

/// The body of the sample's first message, without type and length.
fn sample() -> Vec<u8> {
    let digits = SAMPLE.split_whitespace().collect::<String>();
    let records = text::hex(&digits).expect("hex");
    assert_eq!((records[0], records[5]), (HANDSHAKE, TICKET));
    let len = usize::from(records[3]) * 256 + usize::from(records[4]);
    records[9..5 + len].to_vec()
}

/// Type and length, then the body.
fn message(body: &[u8]) -> Vec<u8> {
    let len = u32::try_from(body.len()).expect("a length").to_be_bytes();
    [&[TICKET], &len[1..], body].concat()
}

fn record(content: &[u8]) -> Vec<u8> {
    let len = u16::try_from(content.len()).expect("a length").to_be_bytes();
    [&[HANDSHAKE, 3, 3], &len[..], content].concat()
}

/// That the message is the ticket of the account, in the bytes of the body themselves.
fn same(got: &TlsMessageHandshake, body: &[u8], right: Ticket) {
    let TlsMessageHandshake::NewSessionTicket(got) = got else { panic!("no ticket: {got:?}") };
    let (at, len) = right.ticket;
    assert_eq!(got.ticket_lifetime_hint, right.lifetime, "{body:x?}");
    assert_eq!(got.ticket.as_ptr_range(), body[at..at + len].as_ptr_range(), "{body:x?}");
}

/// What is said of the first `len` bytes, by the reader that is given a length and by the account.
fn said(i: &[u8], len: usize) -> Said {
    let right = ticket::given(i, len);
    match (reasons(parse_tls_handshake_msg_newsessionticket(i, len)), right) {
        (Ok((rest, got)), Ok(right)) => {
            same(&got, i, right);
            assert_eq!(rest.as_ptr_range(), i[len..].as_ptr_range(), "{len} of {i:x?}");
        }
        (Err(reason), Err(refused)) => {
            assert_eq!(u64::from(reason.number()), refused.number(), "{len} of {i:x?}")
        }
        (got, _) => panic!("{len} of {i:x?}: {got:?}, and not {right:?}"),
    }
    right
}

/// What is said of a whole body, wherever it stands.
fn said_everywhere(body: &[u8]) -> Said {
    let right = said(body, body.len());
    let message = message(body);
    in_message(&message, right);
    if HELLO_REQUEST.len() + message.len() <= MOST {
        in_record(&message, right);
        behind_another(&message, right);
        joined(&message, right);
    }
    right
}

/// As a message with a byte behind it, which is the rest.
fn in_message(message: &[u8], right: Said) {
    let i = [message, &[0]].concat();
    match (reasons(parse_tls_message_handshake(&i)), right) {
        (Ok((rest, TlsMessage::Handshake(got))), Ok(right)) => {
            same(&got, &i[4..], right);
            assert_eq!(rest.as_ptr_range(), i[message.len()..].as_ptr_range());
        }
        (Err(reason), Err(refused)) => assert_eq!(u64::from(reason.number()), refused.number()),
        (got, _) => panic!("{message:x?}: {got:?}, and not {right:?}"),
    }
}

/// As the first message of a record, whose refusal is the record's.
fn in_record(message: &[u8], right: Said) {
    let i = record(&[message, &HELLO_REQUEST].concat());
    match (reasons(parse_tls_plaintext(&i)), right) {
        (Ok((rest, record)), Ok(right)) => {
            assert_eq!((rest.len(), record.count(), record.dropped()), (0, 2, 0));
            let first = record.msg.handshakes().next().expect("a message");
            same(&first, &i[9..], right);
        }
        (Err(reason), Err(refused)) => assert_eq!(u64::from(reason.number()), refused.number()),
        (got, _) => panic!("{message:x?}: {got:?}, and not {right:?}"),
    }
}

/// Behind another message of a record: a refused one ends the row, and is dropped.
fn behind_another(message: &[u8], right: Said) {
    let i = record(&[&HELLO_REQUEST, message].concat());
    let (rest, record) = parse_tls_plaintext(&i).expect("a record");
    let (count, dropped) = if right.is_ok() { (2, 0) } else { (1, message.len()) };
    assert_eq!((rest.len(), record.count(), record.dropped()), (0, count, dropped), "{message:x?}");
    if let Ok(right) = right {
        same(&record.msg.handshakes().nth(1).expect("a message"), &i[13..], right);
    }
}

/// In the second of joined records: a refused one ends their row.
fn joined(message: &[u8], right: Said) {
    let front = record(&HELLO_REQUEST);
    let i = [&front[..], &record(message)].concat();
    let (rest, records) = tls_parser_many(&i).expect("records");
    let (count, left) = if right.is_ok() { (2, 0) } else { (1, i.len() - front.len()) };
    assert_eq!((records.len(), rest.len()), (count, left), "{message:x?}");
}

/// How often each is said of all these bodies, a ticket being one whatever it is.
fn counted(bodies: impl IntoIterator<Item = Vec<u8>>) -> HashMap<Option<u64>, usize> {
    let mut counts = HashMap::new();
    for body in bodies {
        let number = said_everywhere(&body).err().map(|refused| refused.number());
        *counts.entry(number).or_default() += 1;
    }
    counts
}

/// A lifetime, a length and so many bytes.
fn body(told: u16, there: usize) -> Vec<u8> {
    [&[0, 0, 0x0e, 0x10][..], &told.to_be_bytes(), &vec![0x5a; there]].concat()
}

#[test]
fn the_smallest() {
    assert_eq!(said_everywhere(&[0; 3]), Err(Refused::Short));
    assert_eq!(said_everywhere(&[0; 4]), Err(Refused::NoLength));
    assert_eq!(said_everywhere(&[0; 5]), Err(Refused::NoLength));
    assert_eq!(said_everywhere(&[0; 6]), Ok(Ticket { lifetime: 0, ticket: (6, 0) }));
    assert_eq!(said_everywhere(&[0; 7]), Err(Refused::Unlike));
    assert_eq!(said_everywhere(&[0, 0, 0, 0, 0, 1]), Err(Refused::Unlike));
    assert_eq!(said_everywhere(&[0, 0, 0, 0, 1, 0, 0]), Err(Refused::Unlike));
}

#[test]
fn the_longest() {
    assert!(said_everywhere(&body(0xffff, 65_535)).is_ok());
    for told in [0, 1, 0xfffe, 0xffff] {
        assert_eq!(said_everywhere(&body(told, 65_536)), Err(Refused::Unlike));
        assert_eq!(said_everywhere(&body(told, 65_537)), Err(Refused::Unlike));
        assert_eq!(said_everywhere(&body(told, 131_071)), Err(Refused::Unlike));
    }
    // those that fill a record
    let most = MOST - HELLO_REQUEST.len() - 10;
    for there in [most - 1, most, most + 1] {
        let right = u16::try_from(there).expect("a length");
        assert!(said_everywhere(&body(right, there)).is_ok());
        assert_eq!(said_everywhere(&body(right - 1, there)), Err(Refused::Unlike));
        assert_eq!(said_everywhere(&body(right + 1, there)), Err(Refused::Unlike));
    }
}

/// Every given length up to some behind the bytes, and very large ones, whatever the bytes are.
#[test]
fn given_lengths() {
    let whole = body(3, 3);
    for i in [&whole[..], &[&whole[..], &[0; 4]].concat(), &[&whole[..], &[0xff; 4]].concat(), &[0; 12]] {
        for n in 0..=i.len() {
            for len in (0..=i.len() + 2).chain([1 << 16 | n, usize::MAX - 3, usize::MAX]) {
                let _ = said(&i[..n], len);
            }
        }
    }
    assert_eq!(said(&whole, whole.len() + 1), Err(Refused::Past));
    assert_eq!(said(&[&whole[..], &[0]].concat(), whole.len() + 1), Err(Refused::Unlike));
    assert!(said(&[&whole[..], &[0]].concat(), whole.len()).is_ok());
}

/// Every length of two bytes, of a few numbers of bytes.
#[test]
fn every_length() {
    for there in [0, 1, 2, 255, 256, 257] {
        let taken = (0..=u16::MAX).filter(|told| said(&body(*told, there), 6 + there).is_ok());
        assert!(taken.map(usize::from).eq([there]));
    }
}

#[test]
fn the_recorded_tickets() {
    let list = std::fs::read_to_string(LIST).unwrap_or_else(|e| panic!("{LIST}: {e}"));
    let cases = list.lines().filter(|line| !line.starts_with('#'));
    let cases = cases.map(|line| text::line(line).expect("a case"));
    let mut counts = [0; 5];
    for case in cases.filter(|case| case.function == "parse_tls_handshake_msg_newsessionticket") {
        let said = said(&case.input, case.len.expect("a length"));
        let first = said.map_or_else(|refused| refused.number(), |_| 0);
        assert_eq!(case.answer[0], first, "{:x?}", case.input);
        counts[first as usize] += 1;
        let _ = said_everywhere(&case.input);
    }
    // Complete is no answer of it
    assert!(counts[2] == 0 && [0, 1, 3, 4].iter().all(|number| counts[*number] > 0), "{counts:?}");
}

#[test]
fn the_sample() {
    let body = sample();
    assert_eq!(said_everywhere(&body), Ok(Ticket { lifetime: 7200, ticket: (6, body.len() - 6) }));
    assert_eq!(body.len(), 566);
}

/// Cut at each place, drawn out, and with its length changed.
#[test]
fn damaged_samples() {
    let body = sample();
    for n in 0..body.len() {
        let right = match n {
            0..4 => Refused::Short,
            4 | 5 => Refused::NoLength,
            _ => Refused::Unlike,
        };
        assert_eq!(said_everywhere(&body[..n]), Err(right), "{n} bytes");
        // by its length given alone, and by one that is not there
        assert_eq!(said(&body, n), Err(right), "{n} bytes");
        let past = if n < 4 { Refused::Past } else { right };
        assert_eq!(said(&body[..n], n.max(4)), Err(past), "{n} bytes");
    }
    for more in [&[0][..], &[1], &[0xff], &[0; 2], &[0; 256]] {
        assert_eq!(said_everywhere(&[&body[..], more].concat()), Err(Refused::Unlike));
        assert!(said(&[&body[..], more].concat(), body.len()).is_ok());
    }
    for at in [4, 5] {
        for byte in (0..=0xff).filter(|byte| *byte != body[at]) {
            let changed = [&body[..at], &[byte], &body[at + 1..]].concat();
            assert_eq!(said_everywhere(&changed), Err(Refused::Unlike), "{byte} at {at}");
        }
    }
    // what the ticket holds is not looked at, nor the lifetime
    let others = (0..body.len()).filter(|at| !(4..6).contains(at));
    let changed = others.map(|at| [&body[..at], &[!body[at]], &body[at + 1..]].concat());
    assert_eq!(counted(changed), HashMap::from([(None, body.len() - 2)]));
    let dropped = (0..body.len()).map(|at| [&body[..at], &body[at + 1..]].concat());
    let added = (0..=body.len()).map(|at| [&body[..at], &[0x55], &body[at..]].concat());
    let refused = 2 * body.len() + 1;
    assert_eq!(counted(dropped.chain(added)), HashMap::from([(Some(4), refused)]));
}
