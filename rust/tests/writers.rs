//! The three forms of each writer: into an output, the length alone, and behind what a `Vec` holds.

use norrabist::*;
use std::alloc::{GlobalAlloc, Layout, System};
use std::cell::Cell;

/// Counts the bytes that a thread has asked for.
struct Counting;

thread_local! {
    static ASKED: Cell<usize> = const { Cell::new(0) };
}

fn count(layout: Layout) {
    let _ = ASKED.try_with(|asked| asked.set(asked.get() + layout.size()));
}

// SAFETY: all is handed on to the system's allocator.
unsafe impl GlobalAlloc for Counting {
    unsafe fn alloc(&self, layout: Layout) -> *mut u8 {
        count(layout);
        // SAFETY: the caller's promise is handed on.
        unsafe { System.alloc(layout) }
    }

    unsafe fn alloc_zeroed(&self, layout: Layout) -> *mut u8 {
        count(layout);
        // SAFETY: the caller's promise is handed on.
        unsafe { System.alloc_zeroed(layout) }
    }

    unsafe fn dealloc(&self, pointer: *mut u8, layout: Layout) {
        // SAFETY: the caller's promise is handed on.
        unsafe { System.dealloc(pointer, layout) }
    }
}

#[global_allocator]
static COUNTING: Counting = Counting;

/// How many bytes are asked for meanwhile, and the answer.
fn asked<T>(answer: impl FnOnce() -> T) -> (usize, T) {
    let before = ASKED.get();
    let answer = answer();
    (ASKED.get() - before, answer)
}

fn client<'a>(ext: Option<&'a [u8]>) -> TlsClientHelloContents<'a> {
    let ciphers = List::new(&[0xc0, 0x2c, 0xc0, 0x30]);
    TlsClientHelloContents::new(0x0303, &[7; 32], Some(&[5; 8]), ciphers, List::new(&[0]), ext)
}

fn server<'a>(ext: Option<&'a [u8]>) -> TlsServerHelloContents<'a> {
    TlsServerHelloContents::new(0x0303, &[7; 32], None, 0xc02c, 0, ext)
}

fn draft_18<'a>(ext: Option<&'a [u8]>) -> TlsServerHelloV13Draft18Contents<'a> {
    let (version, cipher) = (TlsVersion::Tls13Draft18, TlsCipherSuiteID(0x1301));
    TlsServerHelloV13Draft18Contents { version, random: &[7; 32], cipher, ext, tail: &[] }
}

const HEADER: TlsRecordHeader =
    TlsRecordHeader { record_type: TlsRecordType::Handshake, version: TlsVersion::Tls12, len: 0 };

/// A message of each kind, with whether it is written.
fn messages() -> Vec<(TlsMessageHandshake<'static>, bool)> {
    use TlsMessageHandshake::*;
    let ext: Option<&[u8]> = Some(&[0, 23, 0, 0]);
    let (version, cipher) = (TlsVersion::Tls13, TlsCipherSuiteID(0x1301));
    vec![
        (HelloRequest, true),
        (ClientHello(client(ext)), true),
        (ServerHello(server(ext)), true),
        (ServerHelloV13Draft18(draft_18(ext)), true),
        (NewSessionTicket(TlsNewSessionTicketContent { ticket_lifetime_hint: 9, ticket: &[1] }), false),
        (EndOfEarlyData, false),
        (HelloRetryRequest(TlsHelloRetryRequestContents { version, cipher, ext, tail: &[] }), false),
        (Certificate(TlsCertificateContents { cert_chain: List::new(&[]) }), false),
        (ServerKeyExchange(TlsServerKeyExchangeContents { parameters: &[1] }), false),
        (
            CertificateRequest(TlsCertificateRequestContents {
                cert_types: List::new(&[1]),
                sig_hash_algs: None,
                unparsed_ca: List::new(&[]),
            }),
            false,
        ),
        (ServerDone(&[]), false),
        (CertificateVerify(&[1]), false),
        (ClientKeyExchange(TlsClientKeyExchangeContents::Unknown(&[1, 2])), true),
        (ClientKeyExchange(TlsClientKeyExchangeContents::Dh(&[1, 2])), true),
        (ClientKeyExchange(TlsClientKeyExchangeContents::Ecdh(ECPoint { point: &[1, 2] })), true),
        (Finished(&[1, 2, 3]), true),
        (CertificateStatus(TlsCertificateStatusContents { status_type: 1, blob: &[1] }), false),
        (NextProtocol(TlsNextProtocolContent { selected_protocol: &[1], padding: &[] }), false),
        (KeyUpdate(1), false),
    ]
}

#[test]
fn each_kind_in_three_forms() {
    for (message, is_written) in messages() {
        let mut out = [0xa5; 200];
        let mut vec = vec![9, 9];
        let wrote = gen_tls_messagehandshake(&message, &mut out);
        let forms =
            [gen_tls_messagehandshake_len(&message), gen_tls_messagehandshake_vec(&message, &mut vec)];
        assert_eq!(forms, [wrote; 2], "{message:?}");
        match wrote {
            Ok(len) => assert_eq!((&vec[..2], &vec[2..]), (&[9, 9][..], &out[..len])),
            Err(refusal) => assert_eq!((refusal.reason, vec), (Reason::NotYetImplemented, vec![9, 9])),
        }
        assert_eq!(wrote.is_ok(), is_written, "{message:?}");
    }
}

#[test]
fn by_the_writer_of_the_kind() {
    fn same(message: TlsMessageHandshake, forms: [Result<usize, Refusal>; 2], vec: Vec<u8>) {
        let mut by_message = Vec::new();
        let wrote = gen_tls_messagehandshake_vec(&message, &mut by_message);
        assert_eq!((forms, vec), ([wrote; 2], by_message));
    }
    let (client, server, draft_18) = (client(None), server(None), draft_18(None));
    let key = TlsClientKeyExchangeContents::Dh(&[1, 2]);
    let mut v = Vec::new();
    let forms = [gen_tls_clienthello_len(&client), gen_tls_clienthello_vec(&client, &mut v)];
    same(TlsMessageHandshake::ClientHello(client), forms, v);
    let mut v = Vec::new();
    let forms = [gen_tls_serverhello_len(&server), gen_tls_serverhello_vec(&server, &mut v)];
    same(TlsMessageHandshake::ServerHello(server), forms, v);
    let mut v = Vec::new();
    let forms =
        [gen_tls_serverhellodraft18_len(&draft_18), gen_tls_serverhellodraft18_vec(&draft_18, &mut v)];
    same(TlsMessageHandshake::ServerHelloV13Draft18(draft_18), forms, v);
    let mut v = Vec::new();
    let forms = [gen_tls_clientkeyexchange_len(&key), gen_tls_clientkeyexchange_vec(&key, &mut v)];
    same(TlsMessageHandshake::ClientKeyExchange(key), forms, v);
    let mut v = Vec::new();
    let forms = [gen_tls_hellorequest_len(), gen_tls_hellorequest_vec(&mut v)];
    same(TlsMessageHandshake::HelloRequest, forms, v);
    let mut v = Vec::new();
    let forms = [gen_tls_finished_len(&[1]), gen_tls_finished_vec(&[1], &mut v)];
    same(TlsMessageHandshake::Finished(&[1]), forms, v);
}

fn alert(severity: u8, code: u8) -> TlsMessageAlert {
    TlsMessageAlert { severity: TlsAlertSeverity(severity), code: TlsAlertDescription(code) }
}

/// What a writer of messages gives in its three forms, which are one text; the output behind it and
/// what a `Vec` held are as they were.
fn message(message: TlsMessage) -> Result<Vec<u8>, Reason> {
    let (mut out, mut vec) = ([0xa5; 200], vec![9, 9]);
    let wrote = gen_tls_message(&message, &mut out);
    assert_eq!([gen_tls_message_len(&message), gen_tls_message_vec(&message, &mut vec)], [wrote; 2]);
    let len = wrote.unwrap_or(0);
    assert_eq!((&vec[..2], &vec[2..]), (&[9, 9][..], &out[..len]));
    assert!(out[len..].iter().all(|byte| *byte == 0xa5));
    assert_eq!(message.serialize().map(|text| text.len()), wrote);
    wrote.map(|len| out[..len].to_vec()).map_err(|refusal| refusal.reason)
}

#[test]
fn a_change_cipher_spec() {
    let mut vec = Vec::new();
    assert_eq!((gen_tls_changecipherspec_len(), gen_tls_changecipherspec_vec(&mut vec)), (Ok(1), Ok(1)));
    assert_eq!((vec, message(TlsMessage::ChangeCipherSpec)), (vec![1], Ok(vec![1])));
    let mut out = [0xa5; 2];
    assert!(gen_tls_changecipherspec(&mut []).is_err_and(|refusal| refusal == Reason::NoRoom));
    assert_eq!((gen_tls_changecipherspec(&mut out), out), (Ok(1), [1, 0xa5]));
}

#[test]
fn alerts_of_either_level() {
    for (level, code) in (0..=0xff).flat_map(|level| [0, 40, 0xff].map(|code| (level, code))) {
        let alert = alert(level, code);
        let mut vec = Vec::new();
        let forms = [gen_tls_alert_len(&alert), gen_tls_alert_vec(&alert, &mut vec)];
        let text = message(TlsMessage::Alert(alert));
        assert_eq!(alert.serialize().map_err(|refusal| refusal.reason), text);
        for room in 0..2 {
            let mut out = [0xa5; 2];
            let refused = gen_tls_alert(&alert, &mut out[..room]).map_err(|refusal| refusal.reason);
            // the level is looked at before the room
            let right = if [1, 2].contains(&level) { Reason::NoRoom } else { Reason::BadLength };
            assert_eq!((refused, out), (Err(right), [0xa5; 2]));
        }
        if [1, 2].contains(&level) {
            assert_eq!((forms, vec, text), ([Ok(2); 2], vec![level, code], Ok(vec![level, code])));
        } else {
            assert!(forms.into_iter().all(|form| form.is_err_and(|refusal| refusal == Reason::BadLength)));
            assert_eq!((vec, text), (vec![], Err(Reason::BadLength)));
        }
    }
}

#[test]
fn messages_by_their_kinds() {
    for (handshake, _) in messages() {
        let alone = handshake.serialize().map_err(|refusal| refusal.reason);
        assert_eq!(message(TlsMessage::Handshake(handshake)), alone);
    }
    let unwritten = Err(Reason::NotYetImplemented);
    let data = TlsMessageApplicationData { blob: &[1] };
    assert_eq!(message(TlsMessage::ApplicationData(data)), unwritten);
    assert_eq!(message(TlsMessage::Heartbeat(TlsMessageHeartbeat::default())), unwritten);
}

/// What was read is written again, as the record that it was.
#[test]
fn records_of_the_other_types() {
    for record in
        [&[0x14, 3, 3, 0, 2, 1, 1][..], &[0x15, 3, 1, 0, 4, 1, 90, 2, 40], &[0x15, 3, 3, 0, 2, 2, 0]]
    {
        let (_, read) = parse_tls_plaintext(record).expect("a record");
        assert_eq!(read.serialize().as_deref(), Ok(record));
    }
    // what is in no message is not written
    let (_, read) = parse_tls_plaintext(&[0x15, 3, 3, 0, 3, 2, 0, 0]).expect("a record");
    assert_eq!(read.serialize(), Ok(vec![0x15, 3, 3, 0, 2, 2, 0]));
    let heartbeat = [&[0x18, 3, 3, 0, 19, 1, 0, 0][..], &[0; 16]].concat();
    for record in [&[0x17, 3, 3, 0, 1, 7][..], &heartbeat] {
        let (_, read) = parse_tls_plaintext(record).expect("a record");
        assert!(read.serialize().is_err_and(|refusal| refusal == Reason::NotYetImplemented));
    }
    let mut text = Vec::new();
    let hdr = TlsRecordHeader { record_type: TlsRecordType::Alert, ..HEADER };
    let written = alert(2, 40).serialize().expect("an alert");
    assert_eq!(gen_tls_plaintext_vec(&hdr, &written, &mut text), Ok(7));
    assert_eq!(text, [0x15, 3, 3, 0, 2, 2, 40]);
}

#[test]
fn a_record_round_messages() {
    let mut flight = Vec::new();
    gen_tls_hellorequest_vec(&mut flight).expect("a message");
    gen_tls_finished_vec(&[7], &mut flight).expect("a message");
    assert_eq!(gen_tls_plaintext_len(&HEADER, &flight), Ok(5 + 4 + 5));
    let mut text = Vec::new();
    assert_eq!(gen_tls_plaintext_vec(&HEADER, &flight, &mut text), Ok(14));
    assert_eq!(text, [&[0x16, 0x03, 0x03, 0, 9][..], &flight].concat());
}

#[test]
fn as_much_as_the_text_needs_is_asked_for() {
    let hello = client(Some(&[0, 23, 0, 0]));
    let (bytes, (len, vec)) = asked(|| {
        let mut vec = Vec::new();
        (gen_tls_clienthello_vec(&hello, &mut vec), vec)
    });
    assert_eq!((len, vec.len()), (Ok(bytes), bytes));
    let (bytes, _) = asked(|| (gen_tls_clienthello(&hello, &mut [0; 100]), gen_tls_clienthello_len(&hello)));
    assert_eq!(bytes, 0);
}

/// No byte of so long a part is looked at, and none is taken for it.
#[test]
fn a_part_of_2_gib_is_refused_at_once() {
    let long = vec![0; 1 << 31];
    let (client, server, draft_18) = (client(Some(&long)), server(Some(&long)), draft_18(Some(&long)));
    let key = TlsClientKeyExchangeContents::Unknown(&long);
    let (names, groups) =
        (TlsExtension::SNI(List::new(&long)), TlsExtension::EllipticCurves(List::new(&long)));
    let mut vec = Vec::new();
    let (bytes, answers) = asked(|| {
        [
            gen_tls_clienthello(&client, &mut [0; 100]),
            gen_tls_clienthello_len(&client),
            gen_tls_clienthello_vec(&client, &mut vec),
            gen_tls_serverhello_vec(&server, &mut vec),
            gen_tls_serverhellodraft18_vec(&draft_18, &mut vec),
            gen_tls_clientkeyexchange_vec(&key, &mut vec),
            gen_tls_finished_vec(&long, &mut vec),
            gen_tls_messagehandshake_vec(&TlsMessageHandshake::ClientHello(client), &mut vec),
            gen_tls_extension_vec(&names, &mut vec),
            gen_tls_extension(&groups, &mut [0; 100]),
            gen_tls_server_name_vec(SNIType::HostName, &long, &mut vec),
            List::encode_names(&[(SNIType::HostName, &long)]).map(|names| names.len()),
        ]
    });
    assert_eq!((bytes, vec.len()), (0, 0));
    assert!(answers.into_iter().all(|answer| answer.is_err_and(|refusal| refusal == Reason::BadLength)));
    let record = gen_tls_plaintext_vec(&HEADER, &long, &mut vec);
    assert!(record.is_err_and(|refusal| refusal == Reason::TooLarge) && vec.is_empty());
    // of a list no more than its rows is laid out
    let (bytes, list) = asked(|| gen_tls_extensions_vec(&[names, groups], &mut vec));
    assert!(list.is_err_and(|refusal| refusal == Reason::BadLength) && vec.is_empty() && bytes < 100);
}

/// What is laid out of a list goes by the longest that can be written.
#[test]
fn a_list_of_a_million_extensions() {
    let many = vec![TlsExtension::MaxFragmentLength(1); 1 << 20];
    let (bytes, answer) = asked(|| gen_tls_extensions(&many, &mut [0; 100]));
    assert!(answer.is_err_and(|refusal| refusal == Reason::BadLength) && bytes < 1 << 20, "{bytes}");
    let raw = [&many[..], &[TlsExtension::Unknown(TlsExtensionType::Padding, &[])]].concat();
    let (bytes, answer) = asked(|| gen_tls_extensions(&raw, &mut [0; 100]));
    assert!(answer.is_err_and(|refusal| refusal == Reason::NotYetImplemented) && bytes < 1 << 20);
}

/// A block is read, walked and refused without memory of its own.
#[test]
fn reading_extensions_takes_no_memory() {
    let block = [0, 0, 0, 5, 0, 3, 0, 0, 0, 0, 10, 0, 4, 0, 2, 0, 29, 0, 23, 0, 0];
    let (bytes, counts) = asked(|| {
        let (_, all) = parse_tls_extensions(&block).expect("a block");
        let names = all.iter().map(|extension| match extension {
            TlsExtension::SNI(names) => names.len(),
            TlsExtension::EllipticCurves(groups) => groups.iter().count(),
            _ => 0,
        });
        (names.sum::<usize>(), all.len(), all.get(2).is_some(), parse_tls_extensions(&block[1..]).is_err())
    });
    assert_eq!((bytes, counts), (0, (2, 3, true, true)));
}

/// What cannot be written into a `Vec` takes no memory but that of a record's length.
#[test]
fn nothing_is_taken_for_what_is_refused() {
    let long = vec![0; 1 << 24];
    let (bytes, answers) = asked(|| {
        [
            TlsMessageHandshake::ClientHello(client(Some(&long))).serialize(),
            TlsMessage::Handshake(TlsMessageHandshake::Finished(&long)).serialize(),
            server(Some(&long)).serialize(),
            draft_18(Some(&long)).serialize(),
            TlsClientKeyExchangeContents::Dh(&long).serialize(),
        ]
    });
    assert_eq!(bytes, 0);
    assert!(answers.into_iter().all(|answer| answer.is_err_and(|refusal| refusal == Reason::BadLength)));
    // as many HelloRequests as there are four bytes
    let record = TlsPlaintext { hdr: HEADER, msg: TlsMessages::new(&long) };
    let (bytes, answer) = asked(|| record.serialize());
    assert!(answer.is_err_and(|refusal| refusal == Reason::TooLarge));
    assert_eq!(bytes, usize::from(MAX_RECORD_LEN) + 1);
    let specs = vec![1; usize::from(MAX_RECORD_LEN) + 1];
    let specs = TlsPlaintext { msg: TlsMessages::of(TlsRecordType::ChangeCipherSpec, &specs), ..record };
    assert!(specs.serialize().is_err_and(|refusal| refusal == Reason::TooLarge));
    let most = TlsPlaintext { msg: TlsMessages::new(&long[..MAX_RECORD_LEN.into()]), ..record };
    assert_eq!(most.serialize().map(|text| text.len()), Ok(5 + usize::from(MAX_RECORD_LEN)));
}
