//! Joined records: `tls_parser_many`, and records one by one until the first that is refused (RULES
//! 6).

use norrabist::*;

const ALERT: [u8; 7] = [0x15, 3, 3, 0, 2, 1, 0];
const SPEC: [u8; 6] = [0x14, 3, 3, 0, 1, 1];
const DATA: [u8; 8] = [0x17, 3, 3, 0, 3, 7, 8, 9];
const EMPTY: [u8; 5] = [0x17, 3, 3, 0, 0];
/// A HelloRequest and a byte that is in no message.
const DROPS: [u8; 10] = [0x16, 3, 1, 0, 5, 0, 0, 0, 0, 1];

fn reason<T>(answer: Result<T, Refusal>) -> Option<Reason> {
    answer.err().map(|refusal| refusal.reason)
}

/// There are these records, then `rest`, refused as that; by every way.
fn joined(records: &[&[u8]], rest: &[u8], refused: Option<Reason>) {
    let bytes = [&records.concat(), rest].concat();
    let expected: Vec<_> =
        records.iter().map(|record| parse_tls_plaintext(record).expect("a record").1).collect();
    let (left, many) = tls_parser_many(&bytes).expect("records");
    assert_eq!((left, many.as_bytes()), (rest, &records.concat()[..]));
    assert_eq!((many.len(), many.is_empty(), many.iter().count()), (records.len(), false, records.len()));
    assert_eq!(many, expected);
    assert_eq!(expected, many);
    assert_eq!(many, expected[..]);
    assert_eq!(many, &expected[..]);
    assert_ne!(many, expected[1..]);
    assert_eq!((many, many.to_vec(), Vec::from(many)), (many, expected.clone(), expected.clone()));
    assert_eq!(format!("{many:?}"), format!("{expected:?}"));
    assert_eq!((many.first(), many.last()), (expected.first().copied(), expected.last().copied()));
    for place in 0..=records.len() {
        assert_eq!(many.get(place), expected.get(place).copied());
    }
    assert!(many.into_iter().eq(&many) && many.iter().eq(expected.clone()));
    let mut by_one = Records::new(&bytes);
    for (place, record) in expected.iter().enumerate() {
        assert_eq!(by_one.rest().as_ptr_range(), bytes[records[..place].concat().len()..].as_ptr_range());
        assert_eq!((by_one.refusal(), by_one.clone().count()), (None, records.len() - place));
        assert_eq!(by_one.next().as_ref(), Some(record));
    }
    // it stays at its end
    assert_eq!((by_one.next(), by_one.next(), by_one.count()), (None, None, 0));
    let mut by_one = Records::new(&bytes);
    assert!(by_one.by_ref().eq(expected));
    assert_eq!(by_one.rest(), rest);
    assert_eq!(by_one.refusal().map(|refusal| refusal.reason), refused);
}

#[test]
fn records_until_the_end() {
    joined(&[&ALERT], &[], None);
    joined(&[&ALERT, &SPEC, &DROPS], &[], None);
    joined(&[&SPEC[..]; 40], &[], None);
}

#[test]
fn application_data_is_read_over() {
    joined(&[&SPEC, &DATA, &EMPTY, &ALERT], &[], None);
    joined(&[&EMPTY[..]; 3], &[], None);
}

#[test]
fn a_record_with_dropped_bytes_does_not_end_them() {
    joined(&[&DROPS, &ALERT, &DROPS, &SPEC], &[], None);
    joined(&[&[0x15, 3, 3, 0, 3, 1, 0, 0], &SPEC], &[0x15], Some(Reason::Incomplete));
}

#[test]
fn a_later_record_that_is_refused_is_the_rest() {
    for len in 1..ALERT.len() {
        joined(&[&DROPS, &SPEC], &ALERT[..len], Some(Reason::Incomplete));
    }
    let refused: [(&[u8], Reason); 6] = [
        (&[0x16, 3, 3, 0x41, 0x01], Reason::TooLarge),
        (&[0x19, 3, 3, 0, 0], Reason::Switch),
        (&[0x15, 3, 3, 0, 1, 0, 0x15, 3, 3], Reason::LengthValue),
        (&[0x15, 3, 3, 0, 1, 1], Reason::Complete),
        (&[0x16, 3, 3, 0, 4, 1, 0, 0, 0], Reason::Complete),
        (&[0x18, 3, 3, 0, 2, 1, 0], Reason::Incomplete),
    ];
    for (rest, reason) in refused {
        joined(&[&ALERT], rest, Some(reason));
        // what stands behind it is not read
        joined(&[&ALERT], &[rest, &ALERT].concat(), Some(reason));
    }
}

#[test]
fn the_refusal_of_the_first_is_the_answer() {
    let first: [(&[u8], Reason); 9] = [
        (&[], Reason::Complete),
        (&[0x15], Reason::Complete),
        (&ALERT[..6], Reason::Complete),
        (&[0x15, 3, 3, 0, 0], Reason::Complete),
        (&[0x18, 3, 3, 0, 2, 1, 0], Reason::Complete),
        (&[0x16, 3, 3, 0x41, 0x01], Reason::TooLarge),
        (&[0x19, 3, 3, 0, 0], Reason::Switch),
        (&[0x14, 3, 3, 0, 1, 0], Reason::LengthValue),
        (&[0x16, 3, 3, 0, 6, 2, 0, 0, 2, 3, 4], Reason::Tag),
    ];
    for (bytes, right) in first {
        assert_eq!(reason(tls_parser_many(bytes)), Some(right), "{bytes:?}");
        let mut records = Records::new(bytes);
        assert_eq!((records.next(), records.rest()), (None, bytes));
        // of a record by itself, Incomplete stays, and no bytes are no record
        let alone = reason(parse_tls_plaintext(bytes)).filter(|_| !bytes.is_empty());
        assert_eq!(records.refusal().map(|refusal| refusal.reason), alone);
    }
}

#[test]
fn records_are_small_views() {
    assert_eq!((size_of::<Records>(), size_of::<TlsRecords>()), (16, 24));
}
