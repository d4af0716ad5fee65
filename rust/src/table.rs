//! The numbers of the wire, each once: record types, alerts, heartbeats, versions, handshake types
//! and limits; and the kinds of handshake messages.
//!
//! Reading and `TlsMessageHandshake::handshake_type` are made of the table of kinds at the end, by
//! `kinds.rs`. The names are tls-parser's.

use crate::ffi;
use crate::handshake::*;
use crate::kinds::kinds;
use crate::messages::{Alone, Then};
use crate::newtypes::{newtype, transparent};
use crate::told::{self, Whole};

/// The longest content that a record may have (RULES 6).
pub const MAX_RECORD_LEN: u16 = (1 << 14) + 256;

/// The bytes before a record's content: type, version and length.
pub(crate) const RECORD_HEADER_LEN: u32 = 5;

/// The bytes before a message's body: type and length.
pub(crate) const MESSAGE_HEAD_LEN: u32 = 4;

/// The bytes of a ChangeCipherSpec.
pub(crate) const CHANGE_CIPHER_SPEC_LEN: u32 = 1;

/// The bytes of an alert: level and description.
pub(crate) const ALERT_LEN: u32 = 2;

/// The bytes before a heartbeat's payload: type and length.
pub(crate) const HEARTBEAT_HEAD_LEN: u32 = 3;

/// The forms in which a ClientKeyExchange is written.
pub(crate) mod form {
    /// The whole body.
    pub const UNKNOWN: u8 = 0;
    /// Diffie-Hellman, behind a length of 2 bytes.
    pub const DH: u8 = 1;
    /// Elliptic curve, behind a length of 1 byte.
    pub const ECDH: u8 = 2;
}

/// The readers that can tell why they refuse; below these, the number of a handshake type is the
/// reader of such a body.
pub(crate) mod reader {
    /// The header of a record.
    pub const RECORD_HEADER: u16 = 0x0100;
    /// A record of any type.
    pub const RAW_RECORD: u16 = 0x0101;
    /// A record that is opened.
    pub const PLAINTEXT: u16 = 0x0102;
    /// The message that begins at a byte.
    pub const MESSAGE: u16 = 0x0103;
    /// The walk over a content, at a byte.
    pub const WALK: u16 = 0x0104;
    /// The body of a ServerHello, but not of draft 18.
    pub const SERVER_HELLO: u16 = 0x0105;
    /// Joined records.
    pub const MANY: u16 = 0x0106;
    /// A ChangeCipherSpec.
    pub const CHANGE_CIPHER_SPEC: u16 = 0x0107;
    /// An alert.
    pub const ALERT: u16 = 0x0108;
    /// A heartbeat of a length.
    pub const HEARTBEAT: u16 = 0x0109;
    /// The body of a ClientHello that matches exactly.
    pub const CLIENT_HELLO_STRICT: u16 = 0x010a;

    /// The content of a record of that type.
    pub const fn content(record_type: u8) -> u16 {
        u16::from_le_bytes([record_type, 0x02])
    }
}

newtype! {
    /// The type of a record (RULES 6, RFC 5246 6.2.1).
    TlsRecordType(u8) {
        ChangeCipherSpec = 0x14,
        Alert = 0x15,
        Handshake = 0x16,
        ApplicationData = 0x17,
        Heartbeat = 0x18,
    }
}

newtype! {
    display
    /// The level of an alert (RULES 6, RFC 5246 7.2).
    #[derive(Debug)]
    TlsAlertSeverity(u8) {
        Warning = 0x01,
        Fatal = 0x02,
    }
}

newtype! {
    display
    /// The description of an alert (RULES 6, RFC 5246 7.2), any byte.
    #[derive(Debug)]
    TlsAlertDescription(u8) {
        CloseNotify = 0x00,
        UnexpectedMessage = 0x0a,
        BadRecordMac = 0x14,
        DecryptionFailed = 0x15,
        RecordOverflow = 0x16,
        DecompressionFailure = 0x1e,
        HandshakeFailure = 0x28,
        NoCertificate = 0x29,
        BadCertificate = 0x2a,
        UnsupportedCertificate = 0x2b,
        CertificateRevoked = 0x2c,
        CertificateExpired = 0x2d,
        CertificateUnknown = 0x2e,
        IllegalParameter = 0x2f,
        UnknownCa = 0x30,
        AccessDenied = 0x31,
        DecodeError = 0x32,
        DecryptError = 0x33,
        ExportRestriction = 0x3c,
        ProtocolVersion = 0x46,
        InsufficientSecurity = 0x47,
        InternalError = 0x50,
        InappropriateFallback = 0x56,
        UserCancelled = 0x5a,
        NoRenegotiation = 0x64,
        MissingExtension = 0x6d,
        UnsupportedExtension = 0x6e,
        CertUnobtainable = 0x6f,
        UnrecognizedName = 0x70,
        BadCertStatusResponse = 0x71,
        BadCertHashValue = 0x72,
        UnknownPskIdentity = 0x73,
        CertificateRequired = 0x74,
        NoApplicationProtocol = 0x78,
    }
}

newtype! {
    /// The type of a heartbeat (RULES 6, RFC 6520 3).
    TlsHeartbeatMessageType(u8) {
        HeartBeatRequest = 0x01,
        HeartBeatResponse = 0x02,
    }
}

newtype! {
    /// A version of TLS (RULES 3).
    TlsVersion(u16) {
        Ssl30 = 0x0300,
        Tls10 = 0x0301,
        Tls11 = 0x0302,
        Tls12 = 0x0303,
        Tls13 = 0x0304,
        Tls13Draft18 = 0x7f12,
        Tls13Draft19 = 0x7f13,
        Tls13Draft20 = 0x7f14,
        Tls13Draft21 = 0x7f15,
        Tls13Draft22 = 0x7f16,
        Tls13Draft23 = 0x7f17,
        DTls10 = 0xfeff,
        DTls11 = 0xfefe,
        DTls12 = 0xfefd,
    }
}

newtype! {
    /// A compression method.
    TlsCompressionID(u8) {
        Null = 0x00,
        Deflate = 0x01,
    }
}

newtype! {
    number
    /// A cipher suite. `Debug` prints its name too, `0x1301(TLS_AES_128_GCM_SHA256)`, or that it
    /// has none, `0xfafa(Unknown cipher)`; `Display` prints the number in decimal, as tls-parser
    /// does.
    TlsCipherSuiteID(u16)
}

transparent! {
    TlsCompressionID(u8);
    TlsCipherSuiteID(u16);
}

newtype! {
    /// What a KeyUpdate asks for.
    KeyUpdateRequest(u8) {
        NotRequested = 0x00,
        Requested = 0x01,
    }
}

// The kinds of handshake messages, by their types on the wire.
kinds! {
    // any body is taken, and nothing of it
    nothing {
        HelloRequest = 0x00;
        EndOfEarlyData = 0x05;
    }
    // the value is the whole body
    body {
        ServerKeyExchange = 0x0c;
        ServerDone = 0x0e;
        CertificateVerify = 0x0f;
        ClientKeyExchange = 0x10;
        Finished = 0x14;
    }
    // the body has fields: `ffi.rs` has its reader, `told.rs` makes the value of what that tells
    fields {
        ClientHello = 0x01, client_hello as ClientHelloTold;
        NewSessionTicket = 0x04, new_session_ticket as NewSessionTicketTold;
        HelloRetryRequest = 0x06, hello_retry_request as HelloRetryRequestTold;
        Certificate = 0x0b, certificate as CertificateTold;
        CertificateRequest = 0x0d, certificate_request as CertificateRequestTold;
        CertificateStatus = 0x16, certificate_status as CertificateStatusTold;
        KeyUpdate = 0x18, key_update as KeyUpdateTold;
        NextProtocol = 0x43, next_protocol as NextProtocolTold;
    }
    // two kinds share a type: a version tells the second
    shared {
        ServerHello by server_hello, ServerHelloV13Draft18 by draft_18 at Tls13Draft18
            = 0x02, server_message as ServerHelloTold;
    }
    // types that are not opened
    unread {
        HelloVerifyRequest = 0x03;
        EncryptedExtensions = 0x08;
        CertificateURL = 0x15;
    }
}
