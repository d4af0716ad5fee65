//! The exports of the archive, and a safe function over each: all unsafe code of the Rust binding.
//!
//! It is proved of each export that it reads nothing but the bytes lent, writes nothing but the
//! output lent, and answers for every input. A value comes in registers ([`told`]); its parts are
//! cut out of the bytes by their lengths ([`cut()`]).

mod cut;
mod told;

pub use cut::{cut, part};
pub use told::*;

#[rustfmt::skip]
extern "C" {
    fn norrabist_parse_tls_record_header(i: *const u8, i_len: usize) -> RecordHeadTold;
    fn norrabist_parse_tls_raw_record(i: *const u8, i_len: usize) -> RecordHeadTold;
    fn norrabist_parse_tls_plaintext(i: *const u8, i_len: usize) -> PlaintextHeadTold;
    fn norrabist_parse_tls_record_with_header(record_type: u8, content: *const u8, content_len: usize) -> ContentHeadTold;
    fn norrabist_tls_parser_many(i: *const u8, i_len: usize) -> RecordsTold;
    fn norrabist_parse_tls_message_head(s: *const u8, s_len: usize, at: usize) -> MessageHeadTold;
    fn norrabist_count_messages(s: *const u8, s_len: usize, from: usize) -> TallyTold;
    fn norrabist_count_contents(record_type: u8, s: *const u8, s_len: usize) -> TallyTold;
    fn norrabist_parse_tls_message_changecipherspec(i: *const u8, i_len: usize) -> u8;
    fn norrabist_parse_tls_message_alert(i: *const u8, i_len: usize) -> AlertTold;
    fn norrabist_parse_tls_message_heartbeat(i: *const u8, i_len: usize, len: u16) -> HeartbeatTold;
    fn norrabist_parse_tls_handshake_client_hello(i: *const u8, i_len: usize) -> ClientHelloTold;
    fn norrabist_parse_tls_handshake_client_hello_strict(i: *const u8, i_len: usize) -> ClientHelloTold;
    fn norrabist_parse_tls_handshake_server_hello(i: *const u8, i_len: usize) -> ServerHelloTold;
    fn norrabist_parse_tls_handshake_msg_server_hello(i: *const u8, i_len: usize) -> ServerHelloTold;
    fn norrabist_parse_tls_handshake_msg_hello_retry_request(i: *const u8, i_len: usize) -> HelloRetryRequestTold;
    fn norrabist_parse_tls_handshake_msg_newsessionticket(i: *const u8, i_len: usize, len: usize) -> NewSessionTicketTold;
    fn norrabist_parse_tls_handshake_msg_certificate(i: *const u8, i_len: usize) -> CertificateTold;
    fn norrabist_parse_tls_handshake_certificaterequest(i: *const u8, i_len: usize) -> CertificateRequestTold;
    fn norrabist_parse_tls_handshake_certificatestatus(i: *const u8, i_len: usize) -> CertificateStatusTold;
    fn norrabist_parse_tls_handshake_next_protocol(i: *const u8, i_len: usize) -> NextProtocolTold;
    fn norrabist_parse_tls_handshake_msg_key_update(i: *const u8, i_len: usize) -> KeyUpdateTold;
    fn norrabist_take_body(i: *const u8, i_len: usize, len: usize) -> u8;
    fn norrabist_certificate_at(list: *const u8, list_len: usize, at: usize) -> ItemTold;
    fn norrabist_name_at(list: *const u8, list_len: usize, at: usize) -> ItemTold;
    fn norrabist_number_at(list: *const u8, list_len: usize, place: usize) -> NumberTold;
    fn norrabist_parse_tls_extensions(block: *const u8, block_len: usize) -> ExtensionsTold;
    fn norrabist_extension_from(block: *const u8, block_len: usize, at: usize) -> ExtensionTold;
    fn norrabist_extension_at(block: *const u8, block_len: usize, place: usize) -> ExtensionTold;
    fn norrabist_server_name_from(list: *const u8, list_len: usize, at: usize) -> ServerNameTold;
    fn norrabist_refusal(reader: u16, i: *const u8, i_len: usize, n: usize) -> RefusalTold;
    fn norrabist_gen_tls_clienthello(version: u16, random: *const u8, random_len: usize, session_id: *const u8, session_id_len: usize, ciphers: *const u8, ciphers_len: usize, comp: *const u8, comp_len: usize, ext: *const u8, ext_len: usize, out: *mut u8, out_len: usize) -> Wrote;
    fn norrabist_gen_tls_serverhello(version: u16, random: *const u8, random_len: usize, session_id: *const u8, session_id_len: usize, cipher: u16, compression: u8, ext: *const u8, ext_len: usize, out: *mut u8, out_len: usize) -> Wrote;
    fn norrabist_gen_tls_serverhellodraft18(version: u16, random: *const u8, random_len: usize, cipher: u16, ext: *const u8, ext_len: usize, out: *mut u8, out_len: usize) -> Wrote;
    fn norrabist_gen_tls_clientkeyexchange(form: u8, part: *const u8, part_len: usize, out: *mut u8, out_len: usize) -> Wrote;
    fn norrabist_gen_tls_hellorequest(out: *mut u8, out_len: usize) -> Wrote;
    fn norrabist_gen_tls_finished(part: *const u8, part_len: usize, out: *mut u8, out_len: usize) -> Wrote;
    fn norrabist_gen_tls_changecipherspec(out: *mut u8, out_len: usize) -> Wrote;
    fn norrabist_gen_tls_alert(severity: u8, code: u8, out: *mut u8, out_len: usize) -> Wrote;
    fn norrabist_gen_tls_plaintext(record_type: u8, version: u16, msg: *const u8, msg_len: usize, out: *mut u8, out_len: usize) -> Wrote;
    fn norrabist_kind_written(kind: u16) -> u8;
    fn norrabist_gen_tls_extension(ext_type: u16, content: *const u8, content_len: usize, out: *mut u8, out_len: usize) -> Wrote;
    fn norrabist_gen_tls_extensions(values: *const u8, values_len: usize, bytes: *const u8, bytes_len: usize, out: *mut u8, out_len: usize) -> Wrote;
    fn norrabist_gen_server_name(name_type: u8, name: *const u8, name_len: usize, out: *mut u8, out_len: usize) -> Wrote;
}

/// Makes a safe function of an export. A slice is lent by its pointer and length.
macro_rules! safe {
    ($($(#[$doc:meta])* $name:ident($($p:ident: $of:tt),*) -> $told:ty = $export:ident;)*) => {$(
        $(#[$doc])*
        #[inline(always)]
        pub fn $name($($p: safe!(type $of)),*) -> $told {
            // SAFETY: each pointer goes with its length, and what is lent lives for the call. The
            // export looks at nothing else and keeps nothing.
            unsafe { safe!(call $export () $($p: $of,)*) }
        }
    )*};
    (type bytes) => { &[u8] };
    (type output) => { &mut [u8] };
    (type $number:ident) => { $number };
    (call $export:ident ($($done:expr,)*)) => { $export($($done),*) };
    (call $export:ident ($($done:expr,)*) $p:ident: bytes, $($rest:tt)*) => {
        safe!(call $export ($($done,)* $p.as_ptr(), $p.len(),) $($rest)*)
    };
    (call $export:ident ($($done:expr,)*) $p:ident: output, $($rest:tt)*) => {
        safe!(call $export ($($done,)* $p.as_mut_ptr(), $p.len(),) $($rest)*)
    };
    (call $export:ident ($($done:expr,)*) $p:ident: $number:ident, $($rest:tt)*) => {
        safe!(call $export ($($done,)* $p,) $($rest)*)
    };
}

safe! {
    /// A record's header.
    record_header(i: bytes) -> RecordHeadTold = norrabist_parse_tls_record_header;
    /// A record of any type.
    raw_record(i: bytes) -> RecordHeadTold = norrabist_parse_tls_raw_record;
    /// A record that can be opened; a handshake record up to its first message's body.
    plaintext(i: bytes) -> PlaintextHeadTold = norrabist_parse_tls_plaintext;
    /// The content of a record of that type, the same way.
    record_with_header(record_type: u8, content: bytes) -> ContentHeadTold
        = norrabist_parse_tls_record_with_header;
    /// How many joined records there are, and where reading stopped.
    many_records(i: bytes) -> RecordsTold = norrabist_tls_parser_many;
    /// The head of the message that begins at `at`.
    message_head(s: bytes, at: usize) -> MessageHeadTold = norrabist_parse_tls_message_head;
    /// How many handshake messages there are from a byte on, and where the last one ends.
    count_messages(s: bytes, from: usize) -> TallyTold = norrabist_count_messages;
    /// How many messages the content of a record of that type has, and where the last one ends.
    count_contents(record_type: u8, s: bytes) -> TallyTold = norrabist_count_contents;
    /// Whether a ChangeCipherSpec is at the front, by the table's number.
    change_cipher_spec(i: bytes) -> u8 = norrabist_parse_tls_message_changecipherspec;
    /// The alert at the front.
    alert(i: bytes) -> AlertTold = norrabist_parse_tls_message_alert;
    /// The heartbeat that the first `len` bytes are.
    heartbeat(i: bytes, len: u16) -> HeartbeatTold = norrabist_parse_tls_message_heartbeat;
    /// The body of a ClientHello.
    client_hello(i: bytes) -> ClientHelloTold = norrabist_parse_tls_handshake_client_hello;
    /// The body of a ClientHello that matches exactly.
    client_hello_strict(i: bytes) -> ClientHelloTold
        = norrabist_parse_tls_handshake_client_hello_strict;
    /// The body of a ServerHello, but not of draft 18.
    server_hello(i: bytes) -> ServerHelloTold = norrabist_parse_tls_handshake_server_hello;
    /// The body of a ServerHello, that of draft 18 too.
    server_message(i: bytes) -> ServerHelloTold = norrabist_parse_tls_handshake_msg_server_hello;
    /// The body of a HelloRetryRequest.
    hello_retry_request(i: bytes) -> HelloRetryRequestTold
        = norrabist_parse_tls_handshake_msg_hello_retry_request;
    /// The body of a NewSessionTicket, `len` bytes long.
    sized_ticket(i: bytes, len: usize) -> NewSessionTicketTold
        = norrabist_parse_tls_handshake_msg_newsessionticket;
    /// The body of a Certificate.
    certificate(i: bytes) -> CertificateTold = norrabist_parse_tls_handshake_msg_certificate;
    /// The body of a CertificateRequest.
    certificate_request(i: bytes) -> CertificateRequestTold
        = norrabist_parse_tls_handshake_certificaterequest;
    /// The body of a CertificateStatus.
    certificate_status(i: bytes) -> CertificateStatusTold
        = norrabist_parse_tls_handshake_certificatestatus;
    /// The body of a NextProtocol.
    next_protocol(i: bytes) -> NextProtocolTold = norrabist_parse_tls_handshake_next_protocol;
    /// The body of a KeyUpdate.
    key_update(i: bytes) -> KeyUpdateTold = norrabist_parse_tls_handshake_msg_key_update;
    /// Whether there are `len` bytes, by the table's number.
    take_body(i: bytes, len: usize) -> u8 = norrabist_take_body;
    /// The certificate whose length stands at byte `at`.
    certificate_at(list: bytes, at: usize) -> ItemTold = norrabist_certificate_at;
    /// The name whose length stands at byte `at`.
    name_at(list: bytes, at: usize) -> ItemTold = norrabist_name_at;
    /// The number of two bytes at a place. `List` reads such numbers itself, and is held to this.
    #[cfg_attr(not(test), allow(dead_code))]
    number_at(list: bytes, place: usize) -> NumberTold = norrabist_number_at;
    /// How many extensions a block has, or which is the first bad item.
    count_extensions(block: bytes) -> ExtensionsTold = norrabist_parse_tls_extensions;
    /// The extension that begins at byte `at` of a block. At 0 the whole block is looked at.
    extension_from(block: bytes, at: usize) -> ExtensionTold = norrabist_extension_from;
    /// The extension at a place. `TlsExtensions` walks to it, and is held to this.
    #[cfg_attr(not(test), allow(dead_code))]
    extension_at(block: bytes, place: usize) -> ExtensionTold = norrabist_extension_at;
    /// The server name that begins at byte `at` of a list.
    server_name_from(list: bytes, at: usize) -> ServerNameTold = norrabist_server_name_from;
    /// Why a reader refuses these bytes.
    refusal(reader: u16, i: bytes, n: usize) -> RefusalTold = norrabist_refusal;
    /// Writes a ClientHello.
    write_client_hello(
        version: u16, random: bytes, session_id: bytes, ciphers: bytes, comp: bytes, ext: bytes, out: output
    ) -> Wrote = norrabist_gen_tls_clienthello;
    /// Writes a ServerHello.
    write_server_hello(
        version: u16, random: bytes, session_id: bytes, cipher: u16, compression: u8, ext: bytes, out: output
    ) -> Wrote = norrabist_gen_tls_serverhello;
    /// Writes the ServerHello of draft 18.
    write_draft_18(version: u16, random: bytes, cipher: u16, ext: bytes, out: output) -> Wrote
        = norrabist_gen_tls_serverhellodraft18;
    /// Writes a ClientKeyExchange of that form.
    write_client_key(form: u8, part: bytes, out: output) -> Wrote = norrabist_gen_tls_clientkeyexchange;
    /// Writes a HelloRequest.
    write_hello_request(out: output) -> Wrote = norrabist_gen_tls_hellorequest;
    /// Writes a Finished.
    write_finished(part: bytes, out: output) -> Wrote = norrabist_gen_tls_finished;
    /// Writes a ChangeCipherSpec.
    write_change_cipher_spec(out: output) -> Wrote = norrabist_gen_tls_changecipherspec;
    /// Writes an alert.
    write_alert(severity: u8, code: u8, out: output) -> Wrote = norrabist_gen_tls_alert;
    /// Writes a record round messages.
    write_record(record_type: u8, version: u16, msg: bytes, out: output) -> Wrote
        = norrabist_gen_tls_plaintext;
    /// Whether a kind is written, by the table's number.
    kind_written(kind: u16) -> u8 = norrabist_kind_written;
    /// Writes an extension of that type round its content.
    write_extension(ext_type: u16, content: bytes, out: output) -> Wrote = norrabist_gen_tls_extension;
    /// Writes a list of extensions behind its length, lent as rows and the bytes of their contents.
    #[cfg_attr(not(feature = "alloc"), allow(dead_code))]
    write_extensions(values: bytes, bytes: bytes, out: output) -> Wrote = norrabist_gen_tls_extensions;
    /// Writes an entry of a list of server names.
    write_server_name(name_type: u8, name: bytes, out: output) -> Wrote = norrabist_gen_server_name;
}

/// The whole of a NewSessionTicket's body.
#[inline(always)]
pub fn new_session_ticket(i: &[u8]) -> NewSessionTicketTold {
    sized_ticket(i, i.len())
}
