// Code such as is written for tls-parser over the messages of records. `tls` is the crate: the same
// text compiles with tls-parser 0.12.2 and with Norrabist. One function is one snippet.

use tls::{Serialize, TlsMessage, TlsMessageHandshake, TlsPlaintext, TlsVersion};
use tls::{TlsAlertDescription, TlsAlertSeverity, TlsHeartbeatMessageType, TlsMessageAlert};

pub fn offers(mut i: &[u8]) -> Vec<u16> {
    let mut ids = Vec::new();
    while let Ok((rest, record)) = tls::parse_tls_plaintext(i) {
        for msg in &record.msg {
            match msg {
                TlsMessage::Handshake(TlsMessageHandshake::ClientHello(ch)) => {
                    ids.extend(ch.ciphers.iter().map(|c| c.0));
                }
                _ => (),
            }
        }
        i = rest;
    }
    ids
}

pub fn first_hello_version(i: &[u8]) -> Option<TlsVersion> {
    let (_, record) = tls::parse_tls_plaintext(i).ok()?;
    for msg in record.msg.iter() {
        if let TlsMessage::Handshake(TlsMessageHandshake::ClientHello(hello)) = msg {
            return Some(hello.version);
        }
    }
    None
}

pub fn nested(record: &TlsPlaintext) -> usize {
    let mut hellos = 0;
    for msg in &record.msg {
        if let TlsMessage::Handshake(handshake) = msg {
            match handshake {
                TlsMessageHandshake::ClientHello(_) => hellos += 1,
                TlsMessageHandshake::ServerHello(_) => hellos += 1,
                _ => {}
            }
        }
    }
    hellos
}

pub fn by_ref(record: &TlsPlaintext) -> usize {
    record
        .msg
        .iter()
        .map(|msg| match msg {
            TlsMessage::Handshake(ref handshake) => match handshake {
                TlsMessageHandshake::Certificate(ref c) => c.cert_chain.len(),
                _ => 0,
            },
            _ => 0,
        })
        .sum()
}

pub fn certificates(record: &TlsPlaintext) -> Vec<Vec<u8>> {
    let mut chain = Vec::new();
    for msg in &record.msg {
        if let TlsMessage::Handshake(TlsMessageHandshake::Certificate(c)) = msg {
            chain.extend(c.cert_chain.iter().map(|cert| cert.data.to_vec()));
        }
    }
    chain
}

pub fn is_done(record: &TlsPlaintext) -> bool {
    record.msg.iter().any(|m| matches!(m, TlsMessage::Handshake(TlsMessageHandshake::ServerDone(_))))
}

pub fn server_cipher(i: &[u8]) -> Option<u16> {
    let (_, record) = tls::parse_tls_plaintext(i).ok()?;
    record.msg.iter().find_map(|m| match m {
        TlsMessage::Handshake(TlsMessageHandshake::ServerHello(sh)) => Some(sh.cipher.0),
        TlsMessage::Handshake(TlsMessageHandshake::ServerHelloV13Draft18(sh)) => Some(sh.cipher.0),
        _ => None,
    })
}

pub fn messages_of_a_stream(mut i: &[u8]) -> usize {
    let mut n = 0;
    while let Ok((rest, message)) = tls::parse_tls_message_handshake(i) {
        n += usize::from(matches!(message, TlsMessage::Handshake(_)));
        i = rest;
    }
    n
}

pub fn one_message(i: &[u8]) -> Result<String, String> {
    match tls::parse_tls_message_handshake(i) {
        Ok((_, TlsMessage::Handshake(TlsMessageHandshake::ClientHello(hello)))) => Ok(format!("{hello:?}")),
        Ok((_, other)) => Ok(format!("{other:?}")),
        Err(e) => Err(format!("{e:?}")),
    }
}

pub fn counted(i: &[u8]) -> (usize, bool, u16) {
    match tls::parse_tls_plaintext(i) {
        Ok((_, record)) => (record.msg.len(), record.msg.is_empty(), record.hdr.len),
        Err(_) => (0, true, 0),
    }
}

pub fn printed(i: &[u8]) -> String {
    tls::parse_tls_plaintext(i).map_or(String::new(), |(_, record)| format!("{record:?}"))
}

pub fn by_value(i: &[u8]) -> Vec<usize> {
    let mut lengths = Vec::new();
    if let Ok((_, record)) = tls::parse_tls_plaintext(i) {
        for msg in record.msg {
            if let TlsMessage::Handshake(TlsMessageHandshake::Finished(verify)) = msg {
                lengths.push(verify.len());
            }
        }
    }
    lengths
}

pub fn by_value_iterator(record: TlsPlaintext) -> usize {
    record.msg.into_iter().filter(|m| matches!(m, TlsMessage::Handshake(_))).count()
}

pub fn first_is_a_hello(record: &TlsPlaintext) -> bool {
    match record.msg.first() {
        Some(TlsMessage::Handshake(TlsMessageHandshake::ClientHello(hello))) => hello.ext.is_some(),
        Some(_) | None => false,
    }
}

pub fn second_and_last(record: &TlsPlaintext) -> (bool, bool) {
    let is_done = |m| matches!(m, TlsMessage::Handshake(TlsMessageHandshake::ServerDone(_)));
    let second = if let Some(m) = record.msg.get(1) { handle(&m.clone()) } else { false };
    (second, record.msg.last().map_or(false, |m| is_done(m.clone())))
}

pub fn in_a_vec<'a>(record: &TlsPlaintext<'a>) -> Vec<TlsMessage<'a>> {
    let mut messages = record.msg.to_vec();
    messages.retain(|m| !handle(m));
    messages
}

pub fn all_of_a_stream(mut i: &[u8]) -> Vec<TlsMessage<'_>> {
    let mut all = Vec::new();
    while let Ok((rest, record)) = tls::parse_tls_plaintext(i) {
        all.extend(record.msg);
        i = rest;
    }
    all
}

pub fn compared(record: &TlsPlaintext, verify: &[u8]) -> [bool; 3] {
    let expected = vec![TlsMessage::Handshake(TlsMessageHandshake::Finished(verify))];
    [record.msg == expected, expected == record.msg, record.msg == &expected[..]]
}

pub fn numbered(record: &TlsPlaintext) -> Vec<String> {
    record.msg.iter().enumerate().skip(1).map(|(k, m)| format!("{k}: {m:?}")).collect()
}

pub fn of_one_kind<'a>(record: &TlsPlaintext<'a>) -> Option<tls::TlsClientHelloContents<'a>> {
    record.msg.iter().find_map(|m| match m {
        TlsMessage::Handshake(TlsMessageHandshake::ClientHello(hello)) => Some(hello.clone()),
        _ => None,
    })
}

fn handle(msg: &TlsMessage) -> bool {
    matches!(msg, TlsMessage::Handshake(TlsMessageHandshake::Finished(_)))
}

pub fn handed_on(i: &[u8]) -> bool {
    tls::parse_tls_message_handshake(i).is_ok_and(|(_, msg)| handle(&msg))
}

pub fn written(verify: &[u8]) -> Result<Vec<u8>, tls::GenError> {
    TlsMessage::Handshake(TlsMessageHandshake::Finished(verify)).serialize()
}

pub fn written_again(i: &[u8]) -> Option<Vec<u8>> {
    let (_, record) = tls::parse_tls_plaintext(i).ok()?;
    record.serialize().ok()
}

pub fn kept(i: &[u8]) -> Option<TlsPlaintext<'_>> {
    let (rest, record) = tls::parse_tls_plaintext(i).ok()?;
    rest.is_empty().then(|| record.clone())
}

pub fn told_by_kinds(mut i: &[u8]) -> Vec<&'static str> {
    let mut kinds = Vec::new();
    while let Ok((rest, record)) = tls::parse_tls_plaintext(i) {
        for m in &record.msg {
            match m {
                TlsMessage::Handshake(..) => kinds.push("handshake"),
                TlsMessage::Alert(ref a) if a.severity == TlsAlertSeverity::Fatal => kinds.push("fatal"),
                TlsMessage::Alert(ref _a) => kinds.push("alert"),
                TlsMessage::ChangeCipherSpec => kinds.push("change"),
                TlsMessage::ApplicationData(..) => kinds.push("data"),
                TlsMessage::Heartbeat(..) => kinds.push("heartbeat"),
            }
        }
        i = rest;
    }
    kinds
}

pub fn alerts(i: &[u8]) -> Vec<(u8, u8)> {
    let mut alerts = Vec::new();
    if let Ok((_, record)) = tls::parse_tls_plaintext(i) {
        for msg in record.msg.iter() {
            if let TlsMessage::Alert(alert) = msg {
                alerts.push((alert.severity.0, alert.code.0));
            }
        }
    }
    alerts
}

pub fn is_closed(record: &TlsPlaintext) -> bool {
    record.msg.iter().any(|m| match m {
        TlsMessage::Alert(a) => a.code == TlsAlertDescription::CloseNotify,
        _ => false,
    })
}

pub fn alert_in_words(a: &TlsMessageAlert) -> String {
    let TlsMessageAlert { severity, code } = a;
    format!("{severity} {code} {severity:?} {code:?} {a:?}")
}

pub fn an_alert(level: TlsAlertSeverity) -> TlsMessage<'static> {
    let code = TlsAlertDescription::HandshakeFailure;
    TlsMessage::Alert(TlsMessageAlert { severity: level, code })
}

pub fn bleeds(i: &[u8]) -> Option<bool> {
    let (_, record) = tls::parse_tls_plaintext(i).ok()?;
    for msg in &record.msg {
        if let TlsMessage::Heartbeat(hb) = &msg {
            let asks = hb.heartbeat_type == TlsHeartbeatMessageType::HeartBeatRequest;
            return Some(asks && hb.payload.len() < usize::from(hb.payload_len));
        }
    }
    None
}

pub fn one_by_its_type(i: &[u8]) -> Option<usize> {
    let (_, hdr) = tls::parse_tls_record_header(i).ok()?;
    let data = i.get(5..)?;
    match hdr.record_type {
        tls::TlsRecordType::ChangeCipherSpec => {
            tls::parse_tls_message_changecipherspec(data).ok().map(|(rest, _)| rest.len())
        }
        tls::TlsRecordType::Alert => match tls::parse_tls_message_alert(data) {
            Ok((rest, TlsMessage::Alert(alert))) => Some(rest.len() + usize::from(alert.severity.0)),
            _ => None,
        },
        tls::TlsRecordType::ApplicationData => match tls::parse_tls_message_applicationdata(data) {
            Ok((_, TlsMessage::ApplicationData(data))) => Some(data.blob.len()),
            _ => None,
        },
        tls::TlsRecordType::Heartbeat => tls::parse_tls_message_heartbeat(data, hdr.len).ok().map(|_| 0),
        _ => None,
    }
}

pub fn behind_a_header(i: &[u8]) -> Option<usize> {
    let (_, record) = tls::parse_tls_raw_record(i).ok()?;
    let (rest, messages) = tls::parse_tls_record_with_header(record.data, &record.hdr).ok()?;
    Some(messages.len() + messages.iter().count() + rest.len())
}

pub fn many_records(i: &[u8]) -> Option<usize> {
    let mut messages = 0;
    for record in tls::tls_parser_many(i).ok()?.1 {
        for msg in &record.msg {
            messages += match msg {
                TlsMessage::Handshake(_) | TlsMessage::ChangeCipherSpec => 1,
                _ => 0,
            };
        }
    }
    Some(messages)
}

pub fn many_counted(i: &[u8]) -> (usize, usize) {
    match tls::tls_parser_many(i) {
        Ok((rest, records)) => (records.iter().map(|record| record.msg.len()).sum(), rest.len()),
        Err(_) => (0, i.len()),
    }
}

pub fn many_in_a_vec(i: &[u8]) -> Vec<TlsPlaintext<'_>> {
    let mut all = Vec::new();
    if let Ok((_, records)) = tls::tls_parser_many(i) {
        all.extend(records);
    }
    all
}
