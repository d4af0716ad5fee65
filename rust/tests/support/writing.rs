//! The writers' answers. The value to be written is said by bytes (`compare/README.md`, "A writing
//! and its answer").

use super::extensions;
use norrabist::*;

/// No text is longer than what says its value by more than this.
const MORE: usize = 16;

/// 0, how many bytes and each of them; or the number of the refusal alone.
pub fn answer(name: &str, input: &[u8]) -> Option<Vec<u64>> {
    let mut out = vec![0; room(input)];
    Some(match write(name, input, &mut out)? {
        Ok(n) => [0, n as u64].into_iter().chain(out.iter().take(n).map(|b| u64::from(*b))).collect(),
        Err(refused) => vec![refused.number().into()],
    })
}

/// Room enough for what an input can have written.
pub fn room(input: &[u8]) -> usize {
    input.len() + MORE
}

/// Makes of a row for each writer their names and their calls.
macro_rules! writers {
    ($($writer:ident: ($i:ident, $out:ident) => $call:expr;)*) => {
        /// The writers' names, in the order of the table.
        pub const WRITERS: &[&str] = &[$(stringify!($writer)),*];

        /// Writes the value that the input says; none where it says no value.
        pub fn write(name: &str, i: &[u8], out: &mut [u8]) -> Option<Result<usize, Refusal>> {
            Some(match name {
                $(stringify!($writer) => {
                    let ($i, $out) = (i, out);
                    $call
                })*
                _ => return None,
            })
        }
    };
}

writers! {
    gen_tls_clienthello: (i, out) => gen_tls_clienthello(&client(i)?, out);
    gen_tls_serverhello: (i, out) => gen_tls_serverhello(&server(i)?, out);
    gen_tls_serverhellodraft18: (i, out) => gen_tls_serverhellodraft18(&draft_18(i)?, out);
    gen_tls_clientkeyexchange: (i, out) => gen_tls_clientkeyexchange(&key(i)?, out);
    gen_tls_hellorequest: (i, out) => i.is_empty().then(|| gen_tls_hellorequest(out))?;
    gen_tls_finished: (i, out) => gen_tls_finished(i, out);
    gen_tls_messagehandshake: (i, out) => {
        let (_, TlsMessage::Handshake(message)) = parse_tls_message_handshake(i).ok()? else { return None };
        gen_tls_messagehandshake(&message, out)
    };
    gen_tls_plaintext: (i, out) => {
        let (hdr, content) = record(i)?;
        gen_tls_plaintext(&hdr, content, out)
    };
    gen_tls_changecipherspec: (i, out) => i.is_empty().then(|| gen_tls_changecipherspec(out))?;
    gen_tls_message: (i, out) => gen_tls_message(&message(i)?, out);
    gen_tls_extension: (i, out) => gen_tls_extension(&extensions::one(i)?, out);
    gen_tls_extensions: (i, out) => gen_tls_extensions(&extensions::row(i)?, out);
    gen_tls_server_name: (i, out) => {
        let (of, name) = extensions::name(i)?;
        gen_tls_server_name(of, name, out)
    };
}

/// Numbers and lengths, and the parts behind all of them.
struct Said<'a> {
    head: &'a [u8],
    parts: &'a [u8],
}

impl<'a> Said<'a> {
    /// Numbers and lengths take `head` bytes.
    fn new(i: &'a [u8], head: usize) -> Option<Self> {
        let (head, parts) = i.split_at_checked(head)?;
        Some(Said { head, parts })
    }

    fn number(&mut self, width: usize) -> Option<usize> {
        let (bytes, rest) = self.head.split_at_checked(width)?;
        self.head = rest;
        Some(bytes.iter().fold(0, |n, b| n << 8 | usize::from(*b)))
    }

    fn number16(&mut self) -> Option<u16> {
        u16::try_from(self.number(2)?).ok()
    }

    fn part(&mut self) -> Option<&'a [u8]> {
        let len = self.number(4)?;
        let (part, rest) = self.parts.split_at_checked(len)?;
        self.parts = rest;
        Some(part)
    }

    fn optional(&mut self) -> Option<Option<&'a [u8]>> {
        let flag = self.number(1)?;
        let part = self.part()?;
        match flag {
            0 if part.is_empty() => Some(None),
            1 => Some(Some(part)),
            _ => None,
        }
    }

    /// The value, where nothing is left.
    fn end<T>(self, value: T) -> Option<T> {
        (self.head.is_empty() && self.parts.is_empty()).then_some(value)
    }
}

pub fn client(i: &[u8]) -> Option<TlsClientHelloContents<'_>> {
    let mut said = Said::new(i, 24)?;
    let version = said.number16()?;
    let (random, id) = (said.part()?, said.optional()?);
    let (ciphers, comp) = (List::new(said.part()?), List::new(said.part()?));
    let ext = said.optional()?;
    said.end(TlsClientHelloContents::new(version, random, id, ciphers, comp, ext))
}

fn server(i: &[u8]) -> Option<TlsServerHelloContents<'_>> {
    let mut said = Said::new(i, 19)?;
    let (version, cipher) = (said.number16()?, said.number16()?);
    let compression = u8::try_from(said.number(1)?).ok()?;
    let (random, id, ext) = (said.part()?, said.optional()?, said.optional()?);
    said.end(TlsServerHelloContents::new(version, random, id, cipher, compression, ext))
}

fn draft_18(i: &[u8]) -> Option<TlsServerHelloV13Draft18Contents<'_>> {
    let mut said = Said::new(i, 13)?;
    let (version, cipher) = (TlsVersion(said.number16()?), TlsCipherSuiteID(said.number16()?));
    let (random, ext) = (said.part()?, said.optional()?);
    said.end(TlsServerHelloV13Draft18Contents { version, random, cipher, ext, tail: &[] })
}

fn key(i: &[u8]) -> Option<TlsClientKeyExchangeContents<'_>> {
    match i {
        [0, part @ ..] => Some(TlsClientKeyExchangeContents::Unknown(part)),
        [1, part @ ..] => Some(TlsClientKeyExchangeContents::Dh(part)),
        [2, point @ ..] => Some(TlsClientKeyExchangeContents::Ecdh(ECPoint { point })),
        _ => None,
    }
}

/// A message of any record: the record's type, then a handshake message as it stands on the wire,
/// nothing, level and description, the data, or type and payload.
fn message(i: &[u8]) -> Option<TlsMessage<'_>> {
    let (of, i) = i.split_first()?;
    Some(match (TlsRecordType(*of), i) {
        (TlsRecordType::Handshake, i) => parse_tls_message_handshake(i).ok()?.1,
        (TlsRecordType::ChangeCipherSpec, []) => TlsMessage::ChangeCipherSpec,
        (TlsRecordType::Alert, [severity, code]) => TlsMessage::Alert(TlsMessageAlert {
            severity: TlsAlertSeverity(*severity),
            code: TlsAlertDescription(*code),
        }),
        (TlsRecordType::ApplicationData, blob) => {
            TlsMessage::ApplicationData(TlsMessageApplicationData { blob })
        }
        (TlsRecordType::Heartbeat, [heartbeat_type, payload @ ..]) => {
            let payload_len = u16::try_from(payload.len()).ok()?;
            let heartbeat_type = TlsHeartbeatMessageType(*heartbeat_type);
            TlsMessage::Heartbeat(TlsMessageHeartbeat { heartbeat_type, payload_len, payload, padding: &[] })
        }
        _ => return None,
    })
}

fn record(i: &[u8]) -> Option<(TlsRecordHeader, &[u8])> {
    let [record_type, high, low, content @ ..] = i else { return None };
    let version = TlsVersion(u16::from_be_bytes([*high, *low]));
    Some((TlsRecordHeader { record_type: TlsRecordType(*record_type), version, len: 0 }, content))
}
