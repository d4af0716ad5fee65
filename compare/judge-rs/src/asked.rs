//! Three functions of tls-parser, as the table asks them; and the two of a strict ClientHello, which
//! it has not: its own reading, and three tests on what that hands out.

use tls_parser::nom::error::{Error, ErrorKind};
use tls_parser::*;

pub fn parse_tls_handshake_client_hello_strict(i: &[u8]) -> IResult<&[u8], TlsClientHelloContents<'_>> {
    let (rest, hello) = parse_tls_handshake_client_hello(i)?;
    tested(rest, &hello)?;
    Ok((rest, hello))
}

pub fn parse_tls_handshake_msg_client_hello_strict(i: &[u8]) -> IResult<&[u8], TlsMessageHandshake<'_>> {
    let (rest, message) = parse_tls_handshake_msg_client_hello(i)?;
    let TlsMessageHandshake::ClientHello(hello) = &message else { panic!("no ClientHello: {message:?}") };
    tested(rest, hello)?;
    Ok((rest, message))
}

/// LengthValue, where a list is empty or something is left over.
fn tested<'a>(rest: &'a [u8], hello: &TlsClientHelloContents) -> Result<(), Err<Error<&'a [u8]>>> {
    if hello.ciphers.is_empty() || hello.comp.is_empty() || !rest.is_empty() {
        return Err(Err::Error(Error::new(rest, ErrorKind::LengthValue)));
    }
    Ok(())
}

/// What it leaves is an empty part of its own, and not one of the input: here it is the end of the
/// input.
pub fn parse_tls_message_applicationdata(i: &[u8]) -> IResult<&[u8], TlsMessage<'_>> {
    let (rest, message) = tls_parser::parse_tls_message_applicationdata(i)?;
    assert!(rest.is_empty(), "application data with {} bytes behind it", rest.len());
    Ok((&i[i.len()..], message))
}

/// Its length has 16 bits, and what it gives is one message in a `Vec`.
pub fn parse_tls_message_heartbeat(i: &[u8], length: usize) -> IResult<&[u8], TlsMessage<'_>> {
    let length = u16::try_from(length).expect("a length of 16 bits");
    let (rest, mut messages) = tls_parser::parse_tls_message_heartbeat(i, length)?;
    assert_eq!(messages.len(), 1, "heartbeats");
    Ok((rest, messages.remove(0)))
}

/// Each extension comes with its data, which tls-parser does not hand out of most kinds: that of the
/// item that stands in its place of the block.
pub fn parse_tls_extensions(i: &[u8]) -> IResult<&[u8], Vec<(TlsExtension<'_>, &[u8])>> {
    let (rest, all) = tls_parser::parse_tls_extensions(i)?;
    let mut left = i;
    let with_data = all.into_iter().map(|extension| {
        let [_, _, high, low, behind @ ..] = left else { panic!("an extension without bytes") };
        let (data, next) = behind.split_at(usize::from(u16::from_be_bytes([*high, *low])));
        left = next;
        (extension, data)
    });
    let with_data: Vec<_> = with_data.collect();
    assert_eq!(left.as_ptr_range(), rest.as_ptr_range(), "what is left behind the extensions");
    Ok((rest, with_data))
}
