//! The readers of Norrabist, by their names: a row for each kind of handshake message has its
//! readers and, in brackets, what it holds, which `values.rs` tells.

use super::sheet::Sheet;
use super::values::Told;
use norrabist::*;

/// Makes of the rows the readers' names, their calls, and what tells a message.
macro_rules! table {
    (
        whole { $($whole:ident;)* }
        headed { $($headed:ident;)* }
        short { $($short:ident;)* }
        kinds { $(
            $kind:ident $(($value:ident))?
            $(, contents $contents:ident)*
            $(, message $message:ident)*
            $(, sized $sized:ident)?;
        )* }
        shared { $($twin:ident($twin_value:ident) = $version:ident;)* }
    ) => {
        /// The readers' names, in the order of the table.
        pub const READERS: &[&str] = &[
            $(stringify!($whole),)*
            $(stringify!($headed),)*
            $(stringify!($short),)*
            $($(stringify!($contents),)* $(stringify!($message),)* $(stringify!($sized),)?)*
        ];

        /// The numbers of a reader's answer; none where there is no such reader, or the length is
        /// one too many or missing.
        pub fn read(name: &str, len: Option<usize>, i: &[u8]) -> Option<Vec<u64>> {
            Some(match (name, len) {
                $((stringify!($whole), None) => told(i, $whole(i)),)*
                $((stringify!($headed), None) => {
                    let (hdr, content) = headed(i);
                    told(content, $headed(content, &hdr))
                })*
                $((stringify!($short), Some(len)) => told(i, $short(i, len.try_into().ok()?)),)*
                $(
                    $((stringify!($contents), None) => told(i, $contents(i)),)*
                    $((stringify!($message), None) => told(i, $message(i)),)*
                    $((stringify!($sized), Some(len)) => told(i, $sized(i, len)),)?
                )*
                _ => return None,
            })
        }

        /// The number of the kind, which is its type or its version, and what it holds.
        impl Told for TlsMessageHandshake<'_> {
            fn told(&self, s: &mut Sheet) {
                match self {
                    $(TlsMessageHandshake::$kind $(($value))? => {
                        s.number(TlsHandshakeType::$kind.0);
                        $($value.told(s);)?
                    })*
                    $(TlsMessageHandshake::$twin($twin_value) => {
                        s.number(TlsVersion::$version.0);
                        $twin_value.told(s);
                    })*
                }
            }
        }
    };
}

table! {
    // records and messages
    whole {
        parse_tls_record_header;
        parse_tls_raw_record;
        parse_tls_encrypted;
        parse_tls_plaintext;
        tls_parser_many;
        parse_tls_message_handshake;
        parse_tls_message_changecipherspec;
        parse_tls_message_alert;
        parse_tls_message_applicationdata;
    }
    // of a content behind a record's header, which a case has before it
    headed {
        parse_tls_record_with_header;
    }
    // by a length of 16 bits
    short {
        parse_tls_message_heartbeat;
    }
    // the readers of bodies: of the contents alone, of a message, of a message by its length
    kinds {
        ClientHello(hello),
            contents parse_tls_handshake_client_hello,
            contents parse_tls_handshake_client_hello_strict,
            message parse_tls_handshake_msg_client_hello,
            message parse_tls_handshake_msg_client_hello_strict;
        ServerHello(hello),
            contents parse_tls_handshake_server_hello,
            message parse_tls_handshake_msg_server_hello;
        HelloRequest, message parse_tls_handshake_msg_hello_request;
        NewSessionTicket(ticket), sized parse_tls_handshake_msg_newsessionticket;
        EndOfEarlyData;
        HelloRetryRequest(retry), message parse_tls_handshake_msg_hello_retry_request;
        Certificate(chain), message parse_tls_handshake_msg_certificate;
        ServerKeyExchange(key), sized parse_tls_handshake_msg_serverkeyexchange;
        ServerDone(body), sized parse_tls_handshake_msg_serverdone;
        CertificateVerify(body), sized parse_tls_handshake_msg_certificateverify;
        ClientKeyExchange(key), sized parse_tls_handshake_msg_clientkeyexchange;
        CertificateRequest(request),
            contents parse_tls_handshake_certificaterequest,
            message parse_tls_handshake_msg_certificaterequest;
        Finished(body), sized parse_tls_handshake_msg_finished;
        CertificateStatus(status),
            contents parse_tls_handshake_certificatestatus,
            message parse_tls_handshake_msg_certificatestatus;
        NextProtocol(protocol),
            contents parse_tls_handshake_next_protocol,
            message parse_tls_handshake_msg_next_protocol;
        KeyUpdate(request), message parse_tls_handshake_msg_key_update;
    }
    // a kind that shares its type, and is told by its version
    shared {
        ServerHelloV13Draft18(hello) = Tls13Draft18;
    }
}

/// A record's header, of which a byte that is not there is 0, and what stands behind it.
pub fn headed(i: &[u8]) -> (TlsRecordHeader, &[u8]) {
    let (head, content) = i.split_at(i.len().min(5));
    let at = |k: usize| head.get(k).copied().unwrap_or(0);
    let number = |k| u16::from_be_bytes([at(k), at(k + 1)]);
    let (record_type, version) = (TlsRecordType(at(0)), TlsVersion(number(1)));
    (TlsRecordHeader { record_type, version, len: number(3) }, content)
}

/// 0, the place of the rest and the values; or the number of the refusal alone.
fn told<T: Told>(input: &[u8], got: Read<T>) -> Vec<u64> {
    let mut sheet = Sheet::new(input);
    match got {
        Ok((rest, value)) => {
            sheet.number(0u8);
            sheet.place(rest);
            value.told(&mut sheet);
        }
        Err(refused) => sheet.number(refused.number()),
    }
    sheet.numbers
}
