// Code such as is written for tls-parser with nom. `tls` is the crate: the same text compiles with
// tls-parser 0.12.2 and with `norrabist-nom`. One function is one snippet.

use nom::branch::alt;
use nom::bytes::streaming::take;
use nom::combinator::{all_consuming, complete, map, map_parser, opt, peek, verify};
use nom::multi::{length_data, many0, many1};
use nom::number::streaming::{be_u16, be_u32};
use nom::sequence::{pair, preceded};
use nom::IResult;
use tls::{TlsClientHelloContents, TlsExtension, TlsMessage, TlsPlaintext, TlsRawRecord, TlsRecordType};

pub fn waits_for_more(i: &[u8]) -> bool {
    match tls::parse_tls_plaintext(i) {
        Ok(_) => false,
        Err(nom::Err::Incomplete(_)) => true,
        Err(nom::Err::Error(_)) | Err(nom::Err::Failure(_)) => false,
    }
}

pub fn told_by_code(i: &[u8]) -> &'static str {
    match tls::parse_tls_handshake_client_hello(i) {
        Ok(_) => "a hello",
        Err(tls::nom::Err::Incomplete(_)) => "cut off",
        Err(tls::Err::Error(e)) if e.code == nom::error::ErrorKind::Verify => "an id that is too long",
        Err(tls::Err::Error(e)) if e.code == nom::error::ErrorKind::LengthValue => "a list that does not fit",
        Err(_) => "no hello",
    }
}

pub fn filled(stream: &mut Vec<u8>, more: &[u8]) -> Option<usize> {
    stream.extend_from_slice(more);
    match tls::parse_tls_raw_record(stream) {
        Ok((rest, _)) => Some(stream.len() - rest.len()),
        Err(e) if e.is_incomplete() => None,
        Err(_) => Some(0),
    }
}

pub fn records(i: &[u8]) -> IResult<&[u8], Vec<TlsRawRecord<'_>>> {
    many0(complete(tls::parse_tls_raw_record))(i)
}

pub fn records_at_least_one(i: &[u8]) -> tls::IResult<&[u8], usize> {
    map(many1(complete(tls::parse_tls_encrypted)), |records| records.len())(i)
}

pub fn handshake_record(i: &[u8]) -> IResult<&[u8], TlsRawRecord<'_>> {
    verify(tls::parse_tls_raw_record, |record| record.hdr.record_type == TlsRecordType::Handshake)(i)
}

pub fn type_ahead(i: &[u8]) -> IResult<&[u8], TlsRecordType> {
    map(peek(tls::parse_tls_record_header), |hdr| hdr.record_type)(i)
}

pub fn behind_a_length(i: &[u8]) -> IResult<&[u8], TlsClientHelloContents<'_>> {
    let (i, len) = be_u32(i)?;
    map_parser(take(len & 0xff_ffff), all_consuming(tls::parse_tls_handshake_client_hello))(i)
}

pub fn either_hello(i: &[u8]) -> IResult<&[u8], usize> {
    alt((
        map(tls::parse_tls_handshake_server_hello, |sh| sh.random.len()),
        map(tls::parse_tls_handshake_client_hello, |ch| ch.ciphers.len()),
    ))(i)
}

pub fn header_and_content(i: &[u8]) -> IResult<&[u8], &[u8]> {
    let (i, hdr) = tls::parse_tls_record_header(i)?;
    take(hdr.len)(i)
}

pub fn two_records(i: &[u8]) -> IResult<&[u8], (TlsRawRecord<'_>, Option<TlsRawRecord<'_>>)> {
    pair(tls::parse_tls_raw_record, opt(complete(tls::parse_tls_raw_record)))(i)
}

pub fn behind_a_header(i: &[u8]) -> IResult<&[u8], usize> {
    let parser = preceded(tls::parse_tls_record_header, tls::parse_tls_message_handshake);
    map(parser, |_| 1)(i)
}

pub fn in_words(i: &[u8]) -> Result<usize, String> {
    let (_, hello) = tls::parse_tls_handshake_client_hello(i).map_err(|e| e.to_string())?;
    Ok(hello.ciphers.len())
}

fn generic<'a, O, P>(mut parser: P, i: &'a [u8]) -> Option<O>
where
    P: FnMut(&'a [u8]) -> IResult<&'a [u8], O>,
{
    parser(i).ok().map(|(_, value)| value)
}

pub fn handed_to_others(i: &[u8]) -> bool {
    generic(tls::parse_tls_handshake_server_hello, i).is_some()
        && generic(tls::parse_tls_raw_record, i).is_none()
}

pub fn raw_then_opened(i: &[u8]) -> IResult<&[u8], usize> {
    let (rest, record) = tls::parse_tls_raw_record(i)?;
    match record.hdr.record_type {
        TlsRecordType::Handshake => {
            let (_, messages) = tls::parse_tls_record_with_header(record.data, &record.hdr)?;
            Ok((rest, messages.len()))
        }
        _ => Ok((rest, 0)),
    }
}

pub fn many_records(i: &[u8]) -> usize {
    tls::tls_parser_many(i).map_or(0, |(_, records)| records.iter().map(|record| record.msg.len()).sum())
}

pub fn alerts_or_changes(i: &[u8]) -> IResult<&[u8], Vec<TlsMessage<'_>>> {
    many1(complete(alt((tls::parse_tls_message_alert, tls::parse_tls_message_changecipherspec))))(i)
}

pub fn opened_by_its_header<'a>(record: &TlsRawRecord<'a>) -> IResult<&'a [u8], Vec<TlsMessage<'a>>> {
    tls::parse_tls_record_with_header(record.data, &record.hdr)
}

pub fn all_records(i: &[u8]) -> IResult<&[u8], Vec<TlsPlaintext<'_>>> {
    let (rest, records) = tls::tls_parser_many(i)?;
    match records[0].msg.first() {
        Some(TlsMessage::Alert(_)) => Ok((rest, Vec::new())),
        _ => Ok((rest, records)),
    }
}

pub fn extensions_behind_a_length(i: &[u8]) -> IResult<&[u8], Vec<TlsExtension<'_>>> {
    map_parser(length_data(be_u16), all_consuming(tls::parse_tls_extensions))(i)
}
