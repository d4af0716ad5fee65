//! What the exports tell, in registers: the numbers of a value and the lengths of its parts.
//!
//! `number` is the table's, 0 where the bytes are accepted; in a refusal all else is 0, but for the
//! index of a bad extension. Where each part begins follows from the lengths before it, as
//! `told.rs` has it.

/// Makes what is told of its fields, laid out as in C.
macro_rules! told {
    ($($(#[$doc:meta])* struct $name:ident { $($field:ident: $of:ty,)* })*) => {$(
        $(#[$doc])*
        #[derive(Clone, Copy)]
        #[repr(C)]
        pub struct $name {
            $(pub $field: $of,)*
        }
    )*};
}

/// What is told of a message, as it is kept until the value is looked at: its type, and each number
/// of its body in a field of the same width; the others are 0.
///
/// One form serves all bodies. Where each has a form of its own, the fields of one lie across those
/// of another, and a field is put together of pieces, or read back across the words that were
/// stored, for which a processor waits.
#[derive(Clone, Copy)]
pub struct Kept {
    pub msg_type: u8,
    size: usize,
    word: u32,
    first: u16,
    second: u16,
    third: u16,
    byte: u8,
    other: u8,
    flag: bool,
}

impl Kept {
    /// A message of whose body nothing is told.
    #[inline(always)]
    pub const fn nothing(msg_type: u8) -> Kept {
        Kept { msg_type, size: 0, word: 0, first: 0, second: 0, third: 0, byte: 0, other: 0, flag: false }
    }
}

/// Says in which field of what is kept each number of a body is.
macro_rules! kept {
    ($($name:ident { $($field:ident: $slot:ident),* })*) => {$(
        impl $name {
            /// Keeps what was told of a body that is accepted.
            #[inline(always)]
            pub fn keep(self, msg_type: u8) -> Kept {
                Kept { $($slot: self.$field,)* ..Kept::nothing(msg_type) }
            }

            /// What was told.
            #[inline(always)]
            pub fn told(kept: Kept) -> Self {
                $name { $($field: kept.$slot,)* number: 0 }
            }
        }
    )*};
}

told! {
    /// A record's header.
    struct RecordHeadTold {
        version: u16,
        len: u16,
        record_type: u8,
        number: u8,
    }
    /// A record's header; of a handshake record also the head of its first message, else 0.
    struct PlaintextHeadTold {
        version: u16,
        len: u16,
        body: u16,
        record_type: u8,
        msg_type: u8,
        number: u8,
    }
    /// The head of a content's first message, where that is a handshake message, else 0.
    struct ContentHeadTold {
        body: u32,
        msg_type: u8,
        number: u8,
    }
    /// How many joined records there are, and where reading stopped; 0 and 0 where the first is
    /// refused.
    struct RecordsTold {
        count: usize,
        end: usize,
    }
    /// A message's head: where the next one begins, and the length of the body, which ends there.
    struct MessageHeadTold {
        next: usize,
        body: u32,
        msg_type: u8,
        number: u8,
    }
    /// How many messages there are, and where the last one ends.
    struct TallyTold {
        count: usize,
        end: usize,
    }
    /// An alert.
    struct AlertTold {
        severity: u8,
        code: u8,
        number: u8,
    }
    /// A heartbeat: the length of the payload, and the type.
    struct HeartbeatTold {
        payload: u16,
        heartbeat_type: u8,
        number: u8,
    }
    /// An item of a list behind its length: where it begins, and the length. The next one begins
    /// where it ends.
    struct ItemTold {
        start: usize,
        len: u32,
        number: u8,
    }
    /// A number of a list.
    struct NumberTold {
        value: u16,
        number: u8,
    }
    /// How many extensions a block has; where the number is `LengthValue`, how many stand before
    /// its first bad item.
    struct ExtensionsTold {
        items: usize,
        number: u8,
    }
    /// An extension: where its content begins, its type, and the content's length. The next one
    /// begins where the content ends.
    struct ExtensionTold {
        start: usize,
        ext_type: u16,
        len: u16,
        number: u8,
    }
    /// A server name: where it begins in its list, its length and its type. The next one begins
    /// where it ends.
    struct ServerNameTold {
        start: usize,
        len: u16,
        name_type: u8,
        number: u8,
    }
    /// All that a refusal carries.
    struct RefusalTold {
        number: u8,
    }
    /// How many bytes a text has: those that were written, or that `NoRoom` asks for.
    struct Wrote {
        count: usize,
        number: u8,
    }
}

told! {
    /// A ClientHello.
    struct ClientHelloTold {
        version: u16,
        ciphers: u16,
        ext: u16,
        comp: u8,
        session_id: u8,
        has_ext: bool,
        number: u8,
    }
    /// A ServerHello. At the version of draft 18 it has neither session id nor compression.
    struct ServerHelloTold {
        version: u16,
        cipher: u16,
        ext: u16,
        compression: u8,
        session_id: u8,
        has_ext: bool,
        number: u8,
    }
    /// A HelloRetryRequest.
    struct HelloRetryRequestTold {
        version: u16,
        cipher: u16,
        ext: u16,
        has_ext: bool,
        number: u8,
    }
    /// A NewSessionTicket.
    struct NewSessionTicketTold {
        ticket: usize,
        hint: u32,
        number: u8,
    }
    /// A Certificate.
    struct CertificateTold {
        chain: u32,
        number: u8,
    }
    /// A CertificateRequest, with the pairs of the long form or without them.
    struct CertificateRequestTold {
        pairs: u16,
        names: u16,
        types: u8,
        has_pairs: bool,
        number: u8,
    }
    /// A CertificateStatus.
    struct CertificateStatusTold {
        blob: u32,
        status_type: u8,
        number: u8,
    }
    /// A NextProtocol.
    struct NextProtocolTold {
        protocol: u8,
        padding: u8,
        number: u8,
    }
    /// A KeyUpdate.
    struct KeyUpdateTold {
        request: u8,
        number: u8,
    }
}

kept! {
    ClientHelloTold {
        version: first, ciphers: second, ext: third, comp: byte, session_id: other, has_ext: flag
    }
    ServerHelloTold {
        version: first, cipher: second, ext: third, compression: byte, session_id: other, has_ext: flag
    }
    HelloRetryRequestTold { version: first, cipher: second, ext: third, has_ext: flag }
    NewSessionTicketTold { ticket: size, hint: word }
    CertificateTold { chain: word }
    CertificateRequestTold { pairs: first, names: second, types: byte, has_pairs: flag }
    CertificateStatusTold { blob: word, status_type: byte }
    NextProtocolTold { protocol: byte, padding: other }
    KeyUpdateTold { request: byte }
}

/// Holds each to its size in C: at most two registers.
macro_rules! sizes {
    ($($name:ident is $size:literal;)*) => {
        const _: () = { $(assert!(size_of::<$name>() == $size && $size <= 16);)* };
    };
}

sizes! {
    RecordHeadTold is 6;
    PlaintextHeadTold is 10;
    ContentHeadTold is 8;
    RecordsTold is 16;
    MessageHeadTold is 16;
    TallyTold is 16;
    AlertTold is 3;
    HeartbeatTold is 4;
    ItemTold is 16;
    NumberTold is 4;
    ExtensionsTold is 16;
    ExtensionTold is 16;
    ServerNameTold is 16;
    RefusalTold is 1;
    Wrote is 16;
    ClientHelloTold is 10;
    ServerHelloTold is 10;
    HelloRetryRequestTold is 8;
    NewSessionTicketTold is 16;
    CertificateTold is 8;
    CertificateRequestTold is 8;
    CertificateStatusTold is 8;
    NextProtocolTold is 3;
    KeyUpdateTold is 2;
}
