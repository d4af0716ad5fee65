//! The numbers of the wire and the functions of tls-parser, each once; the strict ones, which it
//! has not, are made of its own in `asked.rs`. A row for each kind of handshake message has its
//! type, the functions that read it and, in brackets, what it holds, which `values.rs` tells.
//! `rows.rs` says what is made of the rows.

use crate::answer::told;
use crate::asked::{parse_tls_extensions, parse_tls_message_applicationdata, parse_tls_message_heartbeat};
use crate::asked::{parse_tls_handshake_client_hello_strict, parse_tls_handshake_msg_client_hello_strict};
use crate::extension::{Name, One, Row};
use crate::made::{Client, Draft, Headed, Key, Message, Part, Record, Server};
use crate::rows::table;
use crate::values::Told;
use crate::{domain, sheet::Sheet, write};
use tls_parser::*;

/// The types of records (RULES 6).
pub mod record_type {
    pub const CHANGE_CIPHER_SPEC: u8 = 0x14;
    pub const ALERT: u8 = 0x15;
    pub const HANDSHAKE: u8 = 0x16;
    pub const APPLICATION_DATA: u8 = 0x17;
    pub const HEARTBEAT: u8 = 0x18;

    /// Those that hold no handshake messages.
    pub const OTHERS: [u8; 4] = [CHANGE_CIPHER_SPEC, ALERT, APPLICATION_DATA, HEARTBEAT];
}

/// What the messages of the other types of records are in an answer: 0x0100 and the record's type,
/// since Finished and KeyUpdate have the types 0x14 and 0x18 too.
pub mod other {
    use super::record_type;

    pub const CHANGE_CIPHER_SPEC: u16 = 0x0100 + record_type::CHANGE_CIPHER_SPEC as u16;
    pub const ALERT: u16 = 0x0100 + record_type::ALERT as u16;
    pub const APPLICATION_DATA: u16 = 0x0100 + record_type::APPLICATION_DATA as u16;
    pub const HEARTBEAT: u16 = 0x0100 + record_type::HEARTBEAT as u16;
}

/// The versions (RULES 3).
pub mod version {
    pub const SSL30: u16 = 0x0300;
    pub const TLS10: u16 = 0x0301;
    pub const TLS11: u16 = 0x0302;
    pub const TLS12: u16 = 0x0303;
    pub const TLS13: u16 = 0x0304;
    pub const DRAFT_18: u16 = 0x7f12;
}

/// The forms of a ClientKeyExchange to be written, as a case says them.
pub mod form {
    pub const UNKNOWN: u8 = 0;
    pub const DH: u8 = 1;
    pub const ECDH: u8 = 2;
}

/// The limits: how many bytes there are, or are at most (RULES 2 and 7).
pub mod limit {
    pub const RECORD: usize = 0x4100;
    pub const RANDOM: usize = 32;
    pub const ID: usize = 32;
    pub const CIPHERS: usize = 0xfffe;
    pub const METHODS: usize = 0xff;
    pub const EXTENSIONS: usize = 0xffff;
    pub const DH: usize = 0xffff;
    pub const POINT: usize = 0xff;
    pub const BODY: usize = 0xff_ffff;
    /// Of a heartbeat's padding, at least.
    pub const PADDING: usize = 16;
}

/// The numbers of refusals (RULES 1).
pub mod refusal {
    pub const INCOMPLETE: u64 = 1;
    pub const COMPLETE: u64 = 2;
    pub const VERIFY: u64 = 3;
    pub const LENGTH_VALUE: u64 = 4;
    pub const TAG: u64 = 5;
    pub const SWITCH: u64 = 6;
    pub const TOO_LARGE: u64 = 7;
    pub const BAD_LENGTH: u64 = 8;
    pub const NO_ROOM: u64 = 9;
    pub const NO_SUCH: u64 = 11;
    pub const NOT_YET_IMPLEMENTED: u64 = 12;

    /// nom's Many1, which tls-parser alone gives: no number of the table.
    pub const MANY1: u64 = 100;
    /// A value that tls-parser's types cannot hold, likewise.
    pub const CANNOT_HOLD: u64 = 101;
}

table! {
    // records and messages
    whole {
        HEADER = parse_tls_record_header;
        RAW = parse_tls_raw_record;
        ENCRYPTED = parse_tls_encrypted;
        PLAINTEXT = parse_tls_plaintext;
        MANY = tls_parser_many;
        MESSAGE = parse_tls_message_handshake;
        MESSAGE_CIPHER_SPEC = parse_tls_message_changecipherspec;
        MESSAGE_ALERT = parse_tls_message_alert;
        MESSAGE_DATA = parse_tls_message_applicationdata;
    }
    // of a content behind a record's header, which a case has before it
    headed {
        WITH_HEADER = parse_tls_record_with_header;
    }
    // by a length of 16 bits
    short {
        MESSAGE_HEARTBEAT = parse_tls_message_heartbeat;
    }
    // of extension blocks
    blocks {
        EXTENSIONS = parse_tls_extensions;
    }
    // the readers of bodies: of the contents alone, of a message, of a message by its length
    kinds {
        ClientHello(hello) = 0x01,
            contents CLIENT_HELLO = parse_tls_handshake_client_hello,
            contents CLIENT_HELLO_STRICT = parse_tls_handshake_client_hello_strict,
            message MSG_CLIENT_HELLO = parse_tls_handshake_msg_client_hello,
            message MSG_CLIENT_HELLO_STRICT = parse_tls_handshake_msg_client_hello_strict;
        ServerHello(hello) = 0x02,
            contents SERVER_HELLO = parse_tls_handshake_server_hello,
            message MSG_SERVER_HELLO = parse_tls_handshake_msg_server_hello;
        HelloRequest = 0x00,
            message MSG_HELLO_REQUEST = parse_tls_handshake_msg_hello_request;
        NewSessionTicket(ticket) = 0x04,
            sized MSG_TICKET = parse_tls_handshake_msg_newsessionticket;
        EndOfEarlyData = 0x05;
        HelloRetryRequest(retry) = 0x06,
            message MSG_RETRY = parse_tls_handshake_msg_hello_retry_request;
        Certificate(chain) = 0x0b,
            message MSG_CERTIFICATE = parse_tls_handshake_msg_certificate;
        ServerKeyExchange(key) = 0x0c,
            sized MSG_SERVER_KEY = parse_tls_handshake_msg_serverkeyexchange;
        ServerDone(body) = 0x0e,
            sized MSG_SERVER_DONE = parse_tls_handshake_msg_serverdone;
        CertificateVerify(body) = 0x0f,
            sized MSG_VERIFY = parse_tls_handshake_msg_certificateverify;
        ClientKeyExchange(key) = 0x10,
            sized MSG_CLIENT_KEY = parse_tls_handshake_msg_clientkeyexchange;
        CertificateRequest(request) = 0x0d,
            contents REQUEST = parse_tls_handshake_certificaterequest,
            message MSG_REQUEST = parse_tls_handshake_msg_certificaterequest;
        Finished(body) = 0x14,
            sized MSG_FINISHED = parse_tls_handshake_msg_finished;
        CertificateStatus(status) = 0x16,
            contents STATUS = parse_tls_handshake_certificatestatus,
            message MSG_STATUS = parse_tls_handshake_msg_certificatestatus;
        NextProtocol(protocol) = 0x43,
            contents NEXT = parse_tls_handshake_next_protocol,
            message MSG_NEXT = parse_tls_handshake_msg_next_protocol;
        KeyUpdate(request) = 0x18,
            message MSG_KEY_UPDATE = parse_tls_handshake_msg_key_update;
    }
    // a kind that shares its type, and is told by its version
    shared {
        ServerHelloV13Draft18(hello) = DRAFT_18;
    }
    // the writers: who writes the value that a case says, and what the value is
    writers {
        GEN_CLIENT_HELLO = gen_tls_clienthello, client(Client);
        GEN_SERVER_HELLO = gen_tls_serverhello, server(Server);
        GEN_DRAFT_18 = gen_tls_serverhellodraft18, draft(Draft);
        GEN_CLIENT_KEY = gen_tls_clientkeyexchange, key(Key);
        GEN_HELLO_REQUEST = gen_tls_hellorequest, hello_request(Part);
        GEN_FINISHED = gen_tls_finished, finished(Part);
        // not public in tls-parser: `Serialize` of a message calls it
        GEN_MESSAGE = gen_tls_messagehandshake, again(Part);
        GEN_PLAINTEXT = gen_tls_plaintext, record(Record);
        GEN_CIPHER_SPEC = gen_tls_changecipherspec, cipher_spec(Part);
        GEN_ANY = gen_tls_message, any(Message);
        GEN_EXTENSION = gen_tls_extension, extension(One);
        GEN_EXTENSIONS = gen_tls_extensions, extensions(Row);
        // not public in tls-parser: the extension of one name has it
        GEN_SERVER_NAME = gen_tls_server_name, server_name(Name);
    }
}

/// The functions that read a message of a record that is no handshake record.
pub fn of_record(of: u8) -> &'static [&'static str] {
    match of {
        record_type::CHANGE_CIPHER_SPEC => &[MESSAGE_CIPHER_SPEC],
        record_type::ALERT => &[MESSAGE_ALERT],
        record_type::APPLICATION_DATA => &[MESSAGE_DATA],
        record_type::HEARTBEAT => &[MESSAGE_HEARTBEAT],
        _ => &[],
    }
}

/// The known name, for a case that lives on.
pub fn known(name: &str) -> Option<&'static str> {
    READING.into_iter().chain(WRITING).find(|known| *known == name)
}

/// Whether that function writes.
pub fn is_writer(name: &str) -> bool {
    WRITING.contains(&name)
}

/// Whether that function takes a length besides the bytes.
pub fn is_sized(name: &str) -> bool {
    SIZED.contains(&name) || SHORT.contains(&name)
}

/// The most that its length can say.
pub fn longest(name: &str) -> u64 {
    if SHORT.contains(&name) {
        return u16::MAX.into();
    }
    u64::MAX
}
