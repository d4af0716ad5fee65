//! Norrabist as it is linked: the Rust binding, through the module by which its tests answer cases.

#[path = "../../../rust/tests/support/mod.rs"]
mod support;

use crate::norrabist::{Norrabist, Walk};
use judge::case::Case;
use judge::table::refusal::NO_ROOM;
use judge::table::{record_type, GEN_ANY, MANY, WITH_HEADER};
use judge::table::{GEN_EXTENSION, GEN_EXTENSIONS, GEN_SERVER_NAME};
use norrabist::*;

pub struct Linked;

impl Norrabist for Linked {
    fn read(&self, case: &Case, to: &mut Vec<u64>) {
        let length = case.length.map(|n| usize::try_from(n).expect("a length of 64 bits"));
        *to = support::answer(case.function, length, &case.input);
    }

    fn walk(&self, case: &Case) -> Walk {
        match case.function {
            MANY => joined(&case.input),
            WITH_HEADER => {
                let (hdr, content) = support::table::headed(&case.input);
                over(&parse_tls_record_with_header(content, &hdr).expect("a content").1)
            }
            _ => over(&parse_tls_plaintext(&case.input).expect("a record").1.msg),
        }
    }

    fn randoms(&self, case: &Case, to: &mut Vec<u64>) {
        *to = support::hellos::randoms(case.function, &case.input);
    }

    fn exactness(&self, case: &Case, to: &mut Vec<u64>) {
        *to = support::hellos::exactness(case.function, &case.input);
    }

    fn items(&self, case: &Case, to: &mut Vec<u64>) {
        *to = support::extensions::one_by_one(&case.input);
    }

    fn rewrite(&self, case: &Case, room: &mut [u8]) -> Result<usize, u64> {
        support::extensions::rewrite(&case.input, room).map_err(|refused| refused.number().into())
    }

    fn write(&self, case: &Case, room: &mut [u8]) -> Result<usize, u64> {
        let alone = alert_alone(case, room);
        let wrote = support::writing::write(case.function, &case.input, room).expect("a value");
        if let Some((alone, text)) = alone {
            assert_eq!((alone, &text[..]), (wrote, &*room), "an alert by its own writer");
        }
        other_forms(case, room, wrote);
        wrote.map_err(|refused| refused.number().into())
    }
}

/// What the writer of alerts by itself makes of such a room, where the value is an alert.
fn alert_alone(case: &Case, room: &[u8]) -> Option<(Result<usize, Refusal>, Vec<u8>)> {
    let (GEN_ANY, [record_type::ALERT, severity, code]) = (case.function, &case.input[..]) else {
        return None;
    };
    let (severity, code) = (TlsAlertSeverity(*severity), TlsAlertDescription(*code));
    let mut text = room.to_vec();
    Some((gen_tls_alert(&TlsMessageAlert { severity, code }, &mut text), text))
}

/// Of the writers of extensions the length alone and the text in a `Vec` are those of the room, if it
/// is long enough.
fn other_forms(case: &Case, room: &[u8], wrote: Result<usize, Refusal>) {
    let (i, mut text) = (&case.input[..], vec![7]);
    let forms = match case.function {
        GEN_EXTENSION => support::extensions::one(i)
            .map(|value| (gen_tls_extension_len(&value), gen_tls_extension_vec(&value, &mut text))),
        GEN_EXTENSIONS => support::extensions::row(i)
            .map(|values| (gen_tls_extensions_len(&values), gen_tls_extensions_vec(&values, &mut text))),
        GEN_SERVER_NAME => support::extensions::name(i).map(|(of, name)| {
            (gen_tls_server_name_len(of, name), gen_tls_server_name_vec(of, name, &mut text))
        }),
        _ => return,
    };
    let (len, in_vec) = forms.expect("a value");
    assert_eq!(len, in_vec, "the length and the text in a vector");
    if wrote.is_err_and(|refused| u64::from(refused.number()) == NO_ROOM) {
        return;
    }
    let there = wrote.map_or(0, |n| n);
    assert_eq!((len, &text[..]), (wrote, &[&[7], &room[..there]].concat()[..]), "the text in a vector");
}

/// The messages of a record, by their list and one by one.
fn over(all: &TlsMessages) -> Walk {
    let walk = match all.record_type() {
        TlsRecordType::Handshake => handshakes(all),
        of => others(of, all),
    };
    assert_eq!((walk.messages, walk.messages == 0), (all.len(), all.is_empty()), "messages");
    walk
}

fn handshakes(all: &TlsMessages) -> Walk {
    let content = all.as_bytes();
    let (mut handshakes, mut heads) = (all.handshakes(), all.heads());
    let (mut at, mut messages) = (0, 0);
    loop {
        let (message, head) = (handshakes.next(), heads.next());
        match record_walk_next(content, at) {
            Ok((walked, next)) => {
                let (kind, body) = (walked.handshake_type(), &content[at + 4..next]);
                assert_eq!(head, Some(TlsMessageHead { kind, body }), "the head at {at}");
                assert_eq!(message, Some(walked), "the message at {at}");
                (at, messages) = (next, messages + 1);
            }
            Err(end) => {
                assert!(message.is_none() && head.is_none(), "a message at {at}, where the walk ends");
                return Walk { messages, end: end.number().into(), dropped: all.dropped() };
            }
        }
    }
}

/// Those of a record of another type, each by the reader of its kind too.
fn others(of: TlsRecordType, all: &TlsMessages) -> Walk {
    let (mut left, mut messages) = (all.as_bytes(), 0);
    for message in all {
        let (rest, read) = message_of(of, left).expect("a message");
        assert_eq!(message, read, "message {messages}");
        if let TlsMessage::Heartbeat(heartbeat) = message {
            let padding = &left[3 + usize::from(heartbeat.payload_len)..];
            assert_eq!(heartbeat.padding, padding, "the padding");
        }
        (left, messages) = (rest, messages + 1);
    }
    let ends = matches!(of, TlsRecordType::ApplicationData | TlsRecordType::Heartbeat);
    assert!(if ends { left.is_empty() } else { message_of(of, left).is_err() }, "a message left over");
    assert!(all.handshakes().next().is_none() && all.heads().next().is_none(), "a handshake message");
    assert_eq!(left.len(), all.dropped(), "the bytes that are dropped");
    Walk { messages, end: 0, dropped: left.len() }
}

/// The message at the front of a content.
fn message_of(of: TlsRecordType, left: &[u8]) -> Read<'_, TlsMessage<'_>> {
    match of {
        TlsRecordType::ChangeCipherSpec => parse_tls_message_changecipherspec(left),
        TlsRecordType::Alert => parse_tls_message_alert(left),
        TlsRecordType::ApplicationData => parse_tls_message_applicationdata(left),
        _ => parse_tls_message_heartbeat(left, left.len().try_into().expect("a length of 16 bits")),
    }
}

/// The records of a row, by their list and by the walk over them.
fn joined(i: &[u8]) -> Walk {
    let (rest, records) = tls_parser_many(i).expect("records");
    let mut walk = Records::new(i);
    let (mut messages, mut dropped) = (0, 0);
    for record in &records {
        assert_eq!(walk.next(), Some(record), "a record");
        let one = over(&record.msg);
        (messages, dropped) = (messages + one.messages, dropped + one.dropped);
    }
    assert_eq!((walk.rest(), walk.next()), (rest, None), "behind the records");
    assert_eq!(walk.refusal().is_some(), !rest.is_empty(), "why it stopped");
    assert_eq!(records.len(), records.iter().count(), "records");
    Walk { messages, end: 0, dropped }
}
