//! The contents of records of each type, at their edges (RULES 6): what is refused and as what, what
//! is handed out and what is dropped.

use norrabist::*;

const LARGEST: usize = MAX_RECORD_LEN as usize;

/// The types of records whose messages are not handshake messages.
const OTHERS: [TlsRecordType; 4] = [
    TlsRecordType::ChangeCipherSpec,
    TlsRecordType::Alert,
    TlsRecordType::ApplicationData,
    TlsRecordType::Heartbeat,
];

fn reason<T>(answer: Result<T, Refusal>) -> Option<Reason> {
    answer.err().map(|refusal| refusal.reason)
}

fn header(record_type: TlsRecordType) -> TlsRecordHeader {
    // the length is not looked at
    TlsRecordHeader { record_type, version: TlsVersion::Tls12, len: 0xffff }
}

fn record(record_type: TlsRecordType, content: &[u8]) -> Vec<u8> {
    let len = u16::try_from(content.len()).expect("a length").to_be_bytes();
    [&[record_type.0, 3, 3][..], &len, content].concat()
}

/// Why a content is refused, in a record and behind a header alike.
fn refused(record_type: TlsRecordType, content: &[u8]) -> Option<Reason> {
    let alone = reason(parse_tls_record_with_header(content, &header(record_type)));
    let all = record(record_type, content);
    assert_eq!(reason(parse_tls_plaintext(&all)), alone, "{record_type} {content:?}");
    // what follows the record changes nothing
    assert_eq!(reason(parse_tls_plaintext(&[&all[..], &[1; 40]].concat())), alone);
    alone
}

/// A content is accepted with these messages and so many bytes dropped, by every way.
fn accepted(record_type: TlsRecordType, content: &[u8], expected: &[TlsMessage], dropped: usize) {
    let all = [record(record_type, content), vec![0x17]].concat();
    let (rest, record) = parse_tls_plaintext(&all).expect("a record");
    assert_eq!(rest, [0x17]);
    assert_eq!((record.hdr.record_type, record.hdr.version), (record_type, TlsVersion::Tls12));
    assert_eq!(usize::from(record.hdr.len), content.len());
    assert_eq!((record.count(), record.dropped()), (expected.len(), dropped));
    let (left, behind) = parse_tls_record_with_header(content, &header(record_type)).expect("a content");
    assert_eq!(left.as_ptr_range(), content[content.len() - dropped..].as_ptr_range());
    for messages in [record.msg, behind, TlsMessages::of(record_type, content)] {
        assert_eq!((messages.record_type(), messages.as_bytes()), (record_type, content));
        assert_eq!((messages.len(), messages.dropped()), (expected.len(), dropped));
        assert!(!messages.is_empty());
        assert_eq!(messages, *expected);
        let mut by_next = messages.iter();
        for (place, message) in expected.iter().enumerate().take(3) {
            assert_eq!(by_next.clone().count(), expected.len() - place);
            assert_eq!(by_next.next(), Some(*message));
        }
        assert!(by_next.eq(expected.iter().skip(3).copied()));
        assert_eq!(
            (messages.first(), messages.last()),
            (expected.first().copied(), expected.last().copied())
        );
        assert_eq!(messages.get(expected.len()), None);
        assert!(messages.handshakes().next().is_none() && messages.heads().next().is_none());
        assert_eq!((messages.handshakes().count(), messages.heads().count()), (0, 0));
        assert_eq!(messages.handshakes().fold(0, |n, _| n + 1), 0);
    }
}

fn alert(severity: u8, code: u8) -> TlsMessage<'static> {
    let (severity, code) = (TlsAlertSeverity(severity), TlsAlertDescription(code));
    TlsMessage::Alert(TlsMessageAlert { severity, code })
}

/// A heartbeat that says so long a payload; the bytes behind its length are all `fill`.
fn heartbeat_bytes(heartbeat_type: u8, payload_len: u16, behind: usize, fill: u8) -> Vec<u8> {
    let [high, low] = payload_len.to_be_bytes();
    [&[heartbeat_type, high, low][..], &vec![fill; behind]].concat()
}

fn heartbeat(content: &[u8], payload_len: u16) -> TlsMessage<'_> {
    let (payload, padding) = content[3..].split_at(payload_len.into());
    let heartbeat_type = TlsHeartbeatMessageType(content[0]);
    TlsMessage::Heartbeat(TlsMessageHeartbeat { heartbeat_type, payload_len, payload, padding })
}

#[test]
fn a_change_cipher_spec_is_the_byte_1() {
    assert_eq!(parse_tls_message_changecipherspec(&[1]), Ok((&[][..], TlsMessage::ChangeCipherSpec)));
    assert_eq!(parse_tls_message_changecipherspec(&[1, 9]), Ok((&[9][..], TlsMessage::ChangeCipherSpec)));
    assert_eq!(reason(parse_tls_message_changecipherspec(&[])), Some(Reason::Incomplete));
    for byte in (0..=0xff).filter(|byte| *byte != 1) {
        assert_eq!(reason(parse_tls_message_changecipherspec(&[byte, 1])), Some(Reason::LengthValue));
        assert_eq!(refused(TlsRecordType::ChangeCipherSpec, &[byte]), Some(Reason::LengthValue));
    }
    assert_eq!(refused(TlsRecordType::ChangeCipherSpec, &[]), Some(Reason::Complete));
}

#[test]
fn change_cipher_specs_repeat_until_one_is_refused() {
    let of = TlsRecordType::ChangeCipherSpec;
    for count in [1, 2, 5, LARGEST] {
        let all = vec![TlsMessage::ChangeCipherSpec; count];
        accepted(of, &vec![1; count], &all, 0);
        if count < LARGEST - 3 {
            accepted(of, &[&vec![1; count][..], &[2, 1, 1]].concat(), &all, 3);
        }
    }
}

#[test]
fn an_alert_is_a_level_and_any_description() {
    for (level, code) in (1..=2).flat_map(|level| (0..=0xff).map(move |code| (level, code))) {
        let bytes = [level, code, 7];
        assert_eq!(parse_tls_message_alert(&bytes), Ok((&[7][..], alert(level, code))));
        accepted(TlsRecordType::Alert, &bytes[..2], &[alert(level, code)], 0);
    }
    // the level is looked at before the description is missed
    for level in (0..=0xff).filter(|level| ![1, 2].contains(level)) {
        for content in [&[level][..], &[level, 0], &[level, 0, 1, 0]] {
            assert_eq!(reason(parse_tls_message_alert(content)), Some(Reason::LengthValue));
            assert_eq!(refused(TlsRecordType::Alert, content), Some(Reason::LengthValue));
        }
    }
    for content in [&[][..], &[1], &[2]] {
        assert_eq!(reason(parse_tls_message_alert(content)), Some(Reason::Incomplete));
        assert_eq!(refused(TlsRecordType::Alert, content), Some(Reason::Complete));
    }
}

#[test]
fn alerts_repeat_until_one_is_refused() {
    let of = TlsRecordType::Alert;
    let two = [alert(1, 0), alert(2, 40)];
    // nothing, a level alone, one that is none, and one that is none before others
    for dropped in [&[][..], &[1], &[0], &[3, 0, 1, 0]] {
        accepted(of, &[&[1, 0, 2, 40][..], dropped].concat(), &two, dropped.len());
    }
    let most: Vec<u8> = (0..LARGEST / 2).flat_map(|k| [1 + (k % 2) as u8, k as u8]).collect();
    let all: Vec<_> = most.chunks(2).map(|bytes| alert(bytes[0], bytes[1])).collect();
    assert_eq!((most.len(), all.len()), (16_640, 8_320));
    accepted(of, &most, &all, 0);
}

#[test]
fn application_data_is_all_of_the_content() {
    for len in [0, 1, 5, LARGEST] {
        let blob = &vec![0x16; len][..];
        let data = TlsMessage::ApplicationData(TlsMessageApplicationData { blob });
        accepted(TlsRecordType::ApplicationData, blob, &[data], 0);
        let (rest, alone) = parse_tls_message_applicationdata(blob).expect("no refusal");
        assert_eq!((rest.as_ptr_range(), alone), (blob[len..].as_ptr_range(), data));
    }
}

#[test]
fn a_heartbeat_has_16_bytes_of_padding_at_least() {
    let of = TlsRecordType::Heartbeat;
    for payload_len in [0, 1, 2, 300, LARGEST as u16 - 19] {
        let payload = usize::from(payload_len);
        for heartbeat_type in [1, 2] {
            let bytes = |padding| heartbeat_bytes(heartbeat_type, payload_len, payload + padding, 0xaa);
            for padding in [16, 17, 40] {
                let content = bytes(padding);
                if content.len() <= LARGEST {
                    accepted(of, &content, &[heartbeat(&content, payload_len)], 0);
                }
            }
            for padding in [0, 1, 15] {
                assert_eq!(refused(of, &bytes(padding)), Some(Reason::LengthValue));
            }
        }
    }
}

#[test]
fn a_heartbeat_payload_past_the_end_is_no_longer_to_come() {
    for payload_len in [1, 17, 18, 0x7fff, 0x8000, 0xffff] {
        // 16 bytes behind the length: what the payload says leaves fewer, or runs past the end
        let content = heartbeat_bytes(1, payload_len, 16, 0);
        assert_eq!(refused(TlsRecordType::Heartbeat, &content), Some(Reason::LengthValue));
    }
    let most = heartbeat_bytes(2, 0xffff, LARGEST - 3, 0);
    assert_eq!(refused(TlsRecordType::Heartbeat, &most), Some(Reason::LengthValue));
    let one_more = heartbeat_bytes(1, LARGEST as u16 - 18, LARGEST - 3, 0);
    assert_eq!(refused(TlsRecordType::Heartbeat, &one_more), Some(Reason::LengthValue));
}

#[test]
fn a_heartbeat_under_three_bytes_stays_incomplete() {
    for content in [&[][..], &[0], &[1], &[3], &[0, 0], &[1, 0], &[0xff, 0xff]] {
        assert_eq!(refused(TlsRecordType::Heartbeat, content), Some(Reason::Incomplete));
    }
    // from three bytes on the type is looked at
    for heartbeat_type in (0..=0xff).filter(|of| ![1, 2].contains(of)) {
        for behind in [0, 16] {
            let content = heartbeat_bytes(heartbeat_type, 0, behind, 0);
            assert_eq!(refused(TlsRecordType::Heartbeat, &content), Some(Reason::LengthValue));
        }
    }
}

#[test]
fn a_heartbeat_by_its_length() {
    let bytes = [heartbeat_bytes(1, 2, 18, 7), vec![9; 5]].concat();
    for len in 0..=bytes.len() {
        let got = parse_tls_message_heartbeat(&bytes, len as u16);
        let expected = match len {
            0..3 => Err(Reason::Incomplete),
            3..21 => Err(Reason::LengthValue),
            _ => Ok((&bytes[len..], heartbeat(&bytes[..len], 2))),
        };
        assert_eq!(got.map_err(|refusal| refusal.reason), expected, "{len}");
    }
    // fewer bytes than the length says, whatever they are
    for bytes in [&[][..], &[1, 0, 0], &bytes, &[3; 30]] {
        for len in [bytes.len() as u16 + 1, 0xffff] {
            assert_eq!(reason(parse_tls_message_heartbeat(bytes, len)), Some(Reason::Incomplete));
        }
    }
    let most = heartbeat_bytes(2, 0xffff - 19, 0xffff - 3, 7);
    let read = parse_tls_message_heartbeat(&most, 0xffff);
    assert_eq!(read, Ok((&[][..], heartbeat(&most, 0xffff - 19))));
    assert_eq!(reason(parse_tls_message_heartbeat(&most, 0xfffe)), Some(Reason::LengthValue));
}

/// A content that is handed over by itself may be longer than any record.
#[test]
fn contents_longer_than_a_record() {
    let content = heartbeat_bytes(1, 0xffff, 0xffff + 16, 7);
    let hdr = header(TlsRecordType::Heartbeat);
    let (rest, messages) = parse_tls_record_with_header(&content, &hdr).expect("a heartbeat");
    assert!(rest.is_empty() && messages == [heartbeat(&content, 0xffff)]);
    let short = &content[..content.len() - 1];
    assert_eq!(reason(parse_tls_record_with_header(short, &hdr)), Some(Reason::LengthValue));
    assert!(TlsMessages::of(TlsRecordType::Heartbeat, short).is_empty());
    let alerts = [1; 100_001];
    let (rest, messages) =
        parse_tls_record_with_header(&alerts, &header(TlsRecordType::Alert)).expect("alerts");
    assert_eq!((rest.len(), messages.len(), messages.last()), (1, 50_000, Some(alert(1, 1))));
}

#[test]
fn length_and_type_of_the_record_come_before_its_content() {
    for record_type in OTHERS {
        let of = record_type.0;
        assert_eq!(reason(parse_tls_plaintext(&[of, 3, 3, 0])), Some(Reason::Incomplete));
        assert_eq!(reason(parse_tls_plaintext(&[of, 3, 3, 0, 2, 1])), Some(Reason::Incomplete));
        assert_eq!(reason(parse_tls_plaintext(&[of, 3, 3, 0x41, 0x01])), Some(Reason::TooLarge));
    }
    for of in (0..=0xff).filter(|of| !(0x14..=0x18).contains(of)) {
        assert_eq!(refused(TlsRecordType(of), &[]), Some(Reason::Switch));
        assert_eq!(refused(TlsRecordType(of), &[1; 20]), Some(Reason::Switch));
        assert_eq!(reason(parse_tls_plaintext(&[of, 3, 3, 0, 1])), Some(Reason::Incomplete));
        assert_eq!(reason(parse_tls_plaintext(&[of, 3, 3, 0x41, 0x01])), Some(Reason::TooLarge));
        let none = TlsMessages::of(TlsRecordType(of), &[1; 20]);
        assert_eq!((none.len(), none.dropped(), none.is_empty()), (0, 20, true));
        assert!(none.iter().next().is_none() && none.handshakes().next().is_none());
    }
}

#[test]
fn contents_that_are_refused_have_no_messages() {
    let refused: [(TlsRecordType, &[u8]); 6] = [
        (TlsRecordType::ChangeCipherSpec, &[]),
        (TlsRecordType::ChangeCipherSpec, &[0, 1]),
        (TlsRecordType::Alert, &[1]),
        (TlsRecordType::Alert, &[0, 0, 1, 0]),
        (TlsRecordType::Heartbeat, &[1, 0]),
        (TlsRecordType::Heartbeat, &[1, 0, 0, 0]),
    ];
    for (record_type, content) in refused {
        let none = TlsMessages::of(record_type, content);
        assert_eq!((none.len(), none.dropped(), none.is_empty()), (0, content.len(), true));
        assert_eq!((none.iter().next(), none.iter().count()), (None, 0));
    }
}

/// Handshake messages behind a header, as in a record.
#[test]
fn handshake_messages_behind_a_header() {
    let content = [0x14, 0, 0, 1, 9, 0, 0, 0, 0, 0x0b, 0, 0, 1, 0];
    let hdr = header(TlsRecordType::Handshake);
    let (rest, messages) = parse_tls_record_with_header(&content, &hdr).expect("messages");
    assert_eq!(rest.as_ptr_range(), content[9..].as_ptr_range());
    assert_eq!((messages.len(), messages.dropped()), (2, 5));
    assert_eq!(messages, TlsMessages::new(&content));
    assert_eq!(messages, TlsMessages::of(TlsRecordType::Handshake, &content));
    assert_eq!(messages.record_type(), TlsRecordType::Handshake);
    for (content, right) in [
        (&[][..], Reason::Complete),
        (&[1, 0, 0], Reason::Complete),
        (&[1, 0, 0, 0], Reason::Complete),
        (&[3, 0, 0, 0], Reason::Switch),
        (&[2, 0, 0, 2, 3, 4], Reason::Tag),
    ] {
        assert_eq!(refused(TlsRecordType::Handshake, content), Some(right));
    }
}

/// The rule of ChangeCipherSpecs and alerts a second time, by what may stand at a byte: where the
/// next message begins, or the refusal.
fn next(record_type: TlsRecordType, content: &[u8]) -> Result<usize, Reason> {
    match (record_type, content) {
        (_, []) => Err(Reason::Incomplete),
        (TlsRecordType::ChangeCipherSpec, [1, ..]) => Ok(1),
        (TlsRecordType::Alert, [1 | 2]) => Err(Reason::Incomplete),
        (TlsRecordType::Alert, [1 | 2, _, ..]) => Ok(2),
        _ => Err(Reason::LengthValue),
    }
}

/// All contents of up to five bytes, each of them 0, 1, 2 or 3.
#[test]
fn all_short_contents() {
    for len in 0..=5u32 {
        for number in 0..4u32.pow(len) {
            let content: Vec<u8> = (0..len).map(|k| (number >> (2 * k)) as u8 & 3).collect();
            for record_type in [TlsRecordType::ChangeCipherSpec, TlsRecordType::Alert] {
                let (mut at, mut messages) = (0, Vec::new());
                let ended = loop {
                    match next(record_type, &content[at..]) {
                        Ok(1) => messages.push(TlsMessage::ChangeCipherSpec),
                        Ok(_) => messages.push(alert(content[at], content[at + 1])),
                        Err(reason) => break reason,
                    }
                    at += if record_type == TlsRecordType::Alert { 2 } else { 1 };
                };
                match (messages.is_empty(), ended) {
                    (false, _) => accepted(record_type, &content, &messages, content.len() - at),
                    (true, Reason::Incomplete) => {
                        assert_eq!(refused(record_type, &content), Some(Reason::Complete))
                    }
                    (true, reason) => assert_eq!(refused(record_type, &content), Some(reason)),
                }
            }
        }
    }
}
