//! Writing into a `Vec`, by the trait of tls-parser.

use crate::content::{TlsMessage, TlsMessageAlert};
use crate::extensions::{gen_tls_extension_vec, TlsExtension};
use crate::handshake::*;
use crate::record::TlsPlaintext;
use crate::refusal::Refusal;
use crate::table::MAX_RECORD_LEN;
use crate::write::*;
use alloc::vec;
use alloc::vec::Vec;

/// What a writing is refused with, by tls-parser's name.
pub type GenError = Refusal;

/// What can be written into a `Vec`.
///
/// ```
/// use norrabist::{Serialize, TlsMessageHandshake};
///
/// assert_eq!(TlsMessageHandshake::Finished(&[1, 2, 3]).serialize()?, [0x14, 0, 0, 3, 1, 2, 3]);
/// # Ok::<(), norrabist::Refusal>(())
/// ```
pub trait Serialize<O = Vec<u8>> {
    /// What a writing is refused with.
    type Error;

    /// The finished text. Nothing is allocated before every length was looked at.
    ///
    /// # Errors
    ///
    /// As the writer of the kind refuses; `NoRoom` where the memory cannot be had.
    fn serialize(&self) -> Result<O, Self::Error>;
}

/// What a writer puts into a `Vec` that holds nothing.
fn written(write: impl FnOnce(&mut Vec<u8>) -> Result<usize, Refusal>) -> Result<Vec<u8>, Refusal> {
    let mut text = Vec::new();
    write(&mut text)?;
    Ok(text)
}

/// Makes `Serialize` of the form of a writer that fills a `Vec`.
macro_rules! serialized {
    ($($t:ident$(<$a:lifetime>)?: |$v:ident, $text:ident| $write:expr;)*) => {$(
        impl Serialize<Vec<u8>> for $t$(<$a>)? {
            type Error = GenError;

            fn serialize(&self) -> Result<Vec<u8>, GenError> {
                let $v = self;
                written(|$text| $write)
            }
        }
    )*};
}

serialized! {
    TlsMessageHandshake<'_>: |m, text| gen_tls_messagehandshake_vec(m, text);
    TlsMessageAlert: |m, text| gen_tls_alert_vec(m, text);
    TlsMessage<'_>: |m, text| gen_tls_message_vec(m, text);
    TlsClientHelloContents<'_>: |m, text| gen_tls_clienthello_vec(m, text);
    TlsServerHelloContents<'_>: |m, text| gen_tls_serverhello_vec(m, text);
    TlsServerHelloV13Draft18Contents<'_>: |m, text| gen_tls_serverhellodraft18_vec(m, text);
    TlsClientKeyExchangeContents<'_>: |m, text| gen_tls_clientkeyexchange_vec(m, text);
    TlsExtension<'_>: |m, text| gen_tls_extension_vec(m, text);
    TlsPlaintext<'_>: |record, text| gen_tls_plaintext_vec(&record.hdr, &content(record)?, text);
}

/// The messages of a record, written one by one, as tls-parser writes a record. Where they are too
/// long for one, as many bytes as its writer refuses.
fn content(record: &TlsPlaintext) -> Result<Vec<u8>, Refusal> {
    let mut len = 0usize;
    for message in &record.msg {
        len = len.saturating_add(gen_tls_message_len(&message)?);
    }
    if len > MAX_RECORD_LEN.into() {
        return Ok(vec![0; usize::from(MAX_RECORD_LEN) + 1]);
    }
    let mut content = Vec::with_capacity(len);
    for message in &record.msg {
        gen_tls_message_vec(&message, &mut content)?;
    }
    Ok(content)
}
