//! The readings of which an account is kept.

use super::{hello, By, Class, Way};
use crate::answer::told_by;
use crate::case::Case;
use crate::made::Headed;
use crate::table::refusal::*;
use crate::table::*;
use tls_parser::*;

/// What is left and the value, or the number of the refusal.
pub type Read<'a, T> = Result<(&'a [u8], T), u64>;

/// How many bytes the type and the length of a heartbeat have.
const HEAD: usize = 3;

impl Way {
    /// The numbers of the answer to a case.
    pub fn read(&mut self, case: &Case, to: &mut Vec<u64>) {
        let i = &case.input[..];
        match case.function {
            PLAINTEXT => told_by(to, i, self.plaintext(i)),
            MANY => told_by(to, i, self.many(i)),
            MESSAGE => told_by(to, i, self.handshake(i)),
            MSG_TICKET => told_by(to, i, self.ticket(i, case.length.unwrap_or(0) as usize)),
            MESSAGE_CIPHER_SPEC => told_by(to, i, self.cipher_spec(i)),
            MESSAGE_ALERT => told_by(to, i, self.alert(i)),
            MESSAGE_DATA => told_by(to, i, Ok(data(i))),
            MESSAGE_HEARTBEAT => told_by(to, i, self.heartbeat(i, case.length.unwrap_or(0) as usize)),
            CLIENT_HELLO_STRICT => told_by(to, i, hello::contents(i)),
            MSG_CLIENT_HELLO_STRICT => told_by(to, i, hello::message(i)),
            EXTENSIONS => self.extensions(i, to),
            WITH_HEADER => {
                let Headed { hdr, content } = Headed::read(i);
                told_by(to, content, self.content(&hdr, content));
            }
            other => panic!("no account of {other}"),
        }
    }

    /// The messages of all records of a case, and the bytes that are in none.
    pub fn walked(&mut self, case: &Case) -> (usize, usize) {
        let (mut messages, mut dropped) = (0, 0);
        let mut add = |hdr: &TlsRecordHeader, content| {
            let (rest, all) = self.content(hdr, content).ok()?;
            (messages, dropped) = (messages + all.len(), dropped + rest.len());
            Some(())
        };
        let mut left = &case.input[..];
        if case.function == WITH_HEADER {
            let Headed { hdr, content } = Headed::read(left);
            add(&hdr, content);
            left = &[];
        }
        while let Ok((rest, record)) = parse_tls_raw_record(left) {
            left = if case.function == MANY { rest } else { &[] };
            if add(&record.hdr, record.data).is_none() {
                break;
            }
        }
        (messages, dropped)
    }

    /// RULES 6.15: a byte of value 1.
    fn cipher_spec<'a>(&mut self, i: &'a [u8]) -> Read<'a, TlsMessage<'a>> {
        match i {
            [] => Err(INCOMPLETE),
            [1, rest @ ..] => Ok((rest, TlsMessage::ChangeCipherSpec)),
            _ if self.parts(Class::CipherSpecByte) => Err(LENGTH_VALUE),
            _ => Err(VERIFY),
        }
    }

    /// RULES 6.16: level, which is 1 or 2, and description, which is any.
    fn alert<'a>(&mut self, i: &'a [u8]) -> Read<'a, TlsMessage<'a>> {
        let [level, behind @ ..] = i else { return Err(INCOMPLETE) };
        if !one_or_two(*level) && self.parts(Class::AlertLevel) {
            return Err(LENGTH_VALUE);
        }
        let [code, rest @ ..] = behind else { return Err(INCOMPLETE) };
        let (severity, code) = (TlsAlertSeverity(*level), TlsAlertDescription(*code));
        Ok((rest, TlsMessage::Alert(TlsMessageAlert { severity, code })))
    }

    /// RULES 6.18 and 4.14: the first `length` bytes are type, length of the payload, payload, and
    /// 16 bytes of padding or more.
    fn heartbeat<'a>(&mut self, i: &'a [u8], length: usize) -> Read<'a, TlsMessage<'a>> {
        let [kind, high, low, behind @ ..] = i else { return Err(INCOMPLETE) };
        if length < HEAD {
            return Err(if self.parts(Class::HeartbeatLength) { INCOMPLETE } else { VERIFY });
        }
        if length > i.len() && self.parts(Class::HeartbeatLength) {
            return Err(INCOMPLETE);
        }
        if !one_or_two(*kind) && self.parts(Class::HeartbeatType) {
            return Err(LENGTH_VALUE);
        }
        let payload_len = u16::from_be_bytes([*high, *low]);
        let Some((payload, left)) = behind.split_at_checked(payload_len.into()) else {
            return Err(if self.parts(Class::HeartbeatPast) { LENGTH_VALUE } else { INCOMPLETE });
        };
        let room = length - HEAD;
        if payload.len() + limit::PADDING > room {
            let past = payload.len() > room;
            if self.parts(if past { Class::HeartbeatLength } else { Class::HeartbeatPadding }) {
                return Err(LENGTH_VALUE);
            }
        }
        let rest = if self.parts(Class::HeartbeatRest) { &i[length..] } else { left };
        let heartbeat_type = TlsHeartbeatMessageType(*kind);
        let heartbeat = TlsMessageHeartbeat { heartbeat_type, payload_len, payload };
        Ok((rest, TlsMessage::Heartbeat(heartbeat)))
    }

    /// RULES 6.4 to 6.9 and 6.19: the messages of a content, by the type of its record.
    fn content<'a>(&mut self, hdr: &TlsRecordHeader, i: &'a [u8]) -> Read<'a, Vec<TlsMessage<'a>>> {
        match hdr.record_type.0 {
            record_type::CHANGE_CIPHER_SPEC => self.repeated(i, Way::cipher_spec),
            record_type::ALERT => self.repeated(i, Way::alert),
            record_type::HANDSHAKE => self.repeated(i, Way::handshake),
            record_type::APPLICATION_DATA if self.parts(Class::ApplicationData) => alone(Ok(data(i))),
            record_type::APPLICATION_DATA => Err(MANY1),
            // the header's length is not looked at
            record_type::HEARTBEAT => {
                let short = i.len() >= HEAD && usize::from(hdr.len) < HEAD;
                if short && !self.parts(Class::HeartbeatLength) {
                    return Err(VERIFY);
                }
                alone(self.heartbeat(i, i.len()))
            }
            _ => Err(SWITCH),
        }
    }

    /// One message, which must open, and those behind it until one is refused.
    fn repeated<'a>(
        &mut self,
        i: &'a [u8],
        one: impl Fn(&mut Way, &'a [u8]) -> Read<'a, TlsMessage<'a>>,
    ) -> Read<'a, Vec<TlsMessage<'a>>> {
        let (mut rest, first) = one(self, i).map_err(as_first)?;
        let mut all = vec![first];
        while let Ok((behind, message)) = one(self, rest) {
            all.push(message);
            rest = behind;
        }
        Ok((rest, all))
    }

    /// RULES 6.1 to 6.3: header, then content; what is left over of the content is dropped.
    fn plaintext<'a>(&mut self, i: &'a [u8]) -> Read<'a, TlsPlaintext<'a>> {
        if i.len() < 5 {
            return Err(INCOMPLETE);
        }
        let Headed { hdr, content: behind } = Headed::read(i);
        if usize::from(hdr.len) > limit::RECORD {
            return Err(TOO_LARGE);
        }
        let (content, rest) = behind.split_at_checked(hdr.len.into()).ok_or(INCOMPLETE)?;
        let (_, msg) = self.content(&hdr, content)?;
        Ok((rest, TlsPlaintext { hdr, msg }))
    }

    /// RULES 6.20: records until one is refused; the first must open.
    fn many<'a>(&mut self, i: &'a [u8]) -> Read<'a, Vec<TlsPlaintext<'a>>> {
        let (mut rest, first) = self.joined(i).map_err(as_first)?;
        let mut all = vec![first];
        while let Ok((behind, record)) = self.joined(rest) {
            all.push(record);
            rest = behind;
        }
        Ok((rest, all))
    }

    /// The record at the front. A rule of it counts where tls-parser's record is another.
    fn joined<'a>(&mut self, i: &'a [u8]) -> Read<'a, TlsPlaintext<'a>> {
        let (mut ours, mut theirs) = (Way::new(By::Rules), Way::new(By::TlsParser));
        let records = (ours.plaintext(i), theirs.plaintext(i));
        if records.0 != records.1 {
            self.class = self.class.or(ours.class);
        }
        match self.by {
            By::Rules => records.0,
            By::TlsParser => records.1,
        }
    }
}

/// RULES 6.17: all of it, also where it is empty.
fn data(blob: &[u8]) -> (&[u8], TlsMessage<'_>) {
    (&blob[blob.len()..], TlsMessage::ApplicationData(TlsMessageApplicationData { blob }))
}

/// A message that is all that a content has.
fn alone<'a>(read: Read<'a, TlsMessage<'a>>) -> Read<'a, Vec<TlsMessage<'a>>> {
    read.map(|(rest, message)| (rest, vec![message]))
}

/// What the refusal of the first is that must open.
fn as_first(number: u64) -> u64 {
    if number == INCOMPLETE {
        return COMPLETE;
    }
    number
}

pub fn one_or_two(n: u8) -> bool {
    n == 1 || n == 2
}
