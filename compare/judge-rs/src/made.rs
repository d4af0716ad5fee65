//! Made-up values for the writers, and the bytes by which a case says them; and a record's header
//! before the content that it is handed over with.

use crate::bytes::join;
use crate::container::{Heard, Said};
use crate::table::{form, record_type};
use tls_parser::{TlsRecordHeader, TlsRecordType, TlsVersion};

#[derive(Clone, Copy)]
pub struct Client<'a> {
    pub version: u16,
    pub random: &'a [u8],
    pub id: Option<&'a [u8]>,
    /// Two bytes for each.
    pub ciphers: &'a [u8],
    pub methods: &'a [u8],
    pub ext: Option<&'a [u8]>,
}

#[derive(Clone, Copy)]
pub struct Server<'a> {
    pub version: u16,
    pub cipher: u16,
    pub compression: u8,
    pub random: &'a [u8],
    pub id: Option<&'a [u8]>,
    pub ext: Option<&'a [u8]>,
}

/// The ServerHello of draft 18.
#[derive(Clone, Copy)]
pub struct Draft<'a> {
    pub version: u16,
    pub cipher: u16,
    pub random: &'a [u8],
    pub ext: Option<&'a [u8]>,
}

/// A client key exchange; the number of the form is its first byte.
#[derive(Clone, Copy)]
pub enum Key<'a> {
    Unknown(&'a [u8]),
    Dh(&'a [u8]),
    Ecdh(&'a [u8]),
}

/// A record round messages already written.
#[derive(Clone, Copy)]
pub struct Record<'a> {
    pub record_type: u8,
    pub version: u16,
    pub content: &'a [u8],
}

/// A message of any record; the record's type is its first byte.
#[derive(Clone, Copy)]
pub enum Message<'a> {
    /// As it stands on the wire.
    Handshake(&'a [u8]),
    ChangeCipherSpec,
    Alert {
        severity: u8,
        code: u8,
    },
    ApplicationData(&'a [u8]),
    Heartbeat {
        heartbeat_type: u8,
        payload: &'a [u8],
    },
}

/// A header of five bytes, and the content that is read by it, as long as the header says or not.
pub struct Headed<'a> {
    pub hdr: TlsRecordHeader,
    pub content: &'a [u8],
}

/// A value that is its bytes.
pub struct Part;

impl Part {
    pub fn read(i: &[u8]) -> &[u8] {
        i
    }
}

impl<'a> Client<'a> {
    pub fn bytes(&self) -> Vec<u8> {
        let mut said = Said::default();
        said.number(2, self.version);
        said.part(self.random);
        said.optional(self.id);
        said.part(self.ciphers);
        said.part(self.methods);
        said.optional(self.ext);
        said.bytes()
    }

    pub fn read(i: &'a [u8]) -> Self {
        let mut heard = Heard::new(i, 24);
        let version = heard.number(2) as u16;
        let (random, id) = (heard.part(), heard.optional());
        let (ciphers, methods) = (heard.part(), heard.part());
        let ext = heard.optional();
        heard.end();
        Client { version, random, id, ciphers, methods, ext }
    }
}

impl<'a> Server<'a> {
    pub fn bytes(&self) -> Vec<u8> {
        let mut said = Said::default();
        said.number(2, self.version);
        said.number(2, self.cipher);
        said.number(1, self.compression);
        said.part(self.random);
        said.optional(self.id);
        said.optional(self.ext);
        said.bytes()
    }

    pub fn read(i: &'a [u8]) -> Self {
        let mut heard = Heard::new(i, 19);
        let (version, cipher) = (heard.number(2) as u16, heard.number(2) as u16);
        let compression = heard.number(1) as u8;
        let (random, id, ext) = (heard.part(), heard.optional(), heard.optional());
        heard.end();
        Server { version, cipher, compression, random, id, ext }
    }
}

impl<'a> Draft<'a> {
    pub fn bytes(&self) -> Vec<u8> {
        let mut said = Said::default();
        said.number(2, self.version);
        said.number(2, self.cipher);
        said.part(self.random);
        said.optional(self.ext);
        said.bytes()
    }

    pub fn read(i: &'a [u8]) -> Self {
        let mut heard = Heard::new(i, 13);
        let (version, cipher) = (heard.number(2) as u16, heard.number(2) as u16);
        let (random, ext) = (heard.part(), heard.optional());
        heard.end();
        Draft { version, cipher, random, ext }
    }
}

impl<'a> Key<'a> {
    pub fn bytes(&self) -> Vec<u8> {
        match self {
            Key::Unknown(b) => join(&[&[form::UNKNOWN], b]),
            Key::Dh(b) => join(&[&[form::DH], b]),
            Key::Ecdh(b) => join(&[&[form::ECDH], b]),
        }
    }

    pub fn read(i: &'a [u8]) -> Self {
        match i {
            [form::UNKNOWN, rest @ ..] => Key::Unknown(rest),
            [form::DH, rest @ ..] => Key::Dh(rest),
            [form::ECDH, rest @ ..] => Key::Ecdh(rest),
            _ => panic!("no form of a key exchange"),
        }
    }
}

impl<'a> Record<'a> {
    pub fn bytes(&self) -> Vec<u8> {
        join(&[&[self.record_type], &self.version.to_be_bytes(), self.content])
    }

    pub fn read(i: &'a [u8]) -> Self {
        let [record_type, high, low, content @ ..] = i else { panic!("no record") };
        Record { record_type: *record_type, version: u16::from_be_bytes([*high, *low]), content }
    }
}

impl<'a> Message<'a> {
    pub fn bytes(&self) -> Vec<u8> {
        match self {
            Message::Handshake(m) => join(&[&[record_type::HANDSHAKE], m]),
            Message::ChangeCipherSpec => vec![record_type::CHANGE_CIPHER_SPEC],
            Message::Alert { severity, code } => vec![record_type::ALERT, *severity, *code],
            Message::ApplicationData(blob) => join(&[&[record_type::APPLICATION_DATA], blob]),
            Message::Heartbeat { heartbeat_type, payload } => {
                join(&[&[record_type::HEARTBEAT, *heartbeat_type], payload])
            }
        }
    }

    pub fn read(i: &'a [u8]) -> Self {
        match *i {
            [record_type::HANDSHAKE, ref m @ ..] => Message::Handshake(m),
            [record_type::CHANGE_CIPHER_SPEC] => Message::ChangeCipherSpec,
            [record_type::ALERT, severity, code] => Message::Alert { severity, code },
            [record_type::APPLICATION_DATA, ref blob @ ..] => Message::ApplicationData(blob),
            [record_type::HEARTBEAT, heartbeat_type, ref payload @ ..] => {
                Message::Heartbeat { heartbeat_type, payload }
            }
            _ => panic!("no message"),
        }
    }
}

impl<'a> Headed<'a> {
    /// A byte of the header that is not there is 0.
    pub fn read(i: &'a [u8]) -> Self {
        let (head, content) = i.split_at(i.len().min(5));
        let at = |k: usize| head.get(k).copied().unwrap_or(0);
        let number = |k| u16::from_be_bytes([at(k), at(k + 1)]);
        let (record_type, version) = (TlsRecordType(at(0)), TlsVersion(number(1)));
        Headed { hdr: TlsRecordHeader { record_type, version, len: number(3) }, content }
    }
}
