//! The Rust binding of Norrabist: a reader and writer of TLS records, handshake messages, hellos
//! and extensions, by the names of tls-parser 0.12.2, of whose parts it is a port.
//!
//! The work is done by a proved archive (`rust/archive` makes it): for every input, each function
//! answers a value or one [`Refusal`]. The binding turns its numbers into borrowed values, and
//! never panics. What is read is a part of the caller's bytes; nothing is copied.
//!
//! A reader gives the rest of the bytes and the value ([`Read`]). Where tls-parser has a `Vec`
//! there is a [`List`], of messages [`TlsMessages`], of records [`TlsRecords`] and of extensions
//! [`TlsExtensions`]. A hello has its extensions as a block of bytes, which
//! [`parse_tls_extensions`] opens, and a `tail`, what follows it: where its extensions are absent,
//! the tail may be a block that was cut off. Where a ClientHello has to match RFC 5246 exactly,
//! with nothing behind it, [`parse_tls_handshake_client_hello_strict`] reads it.
//!
//! ```
//! use norrabist::{parse_tls_plaintext, TlsMessage, TlsMessageHandshake, TlsVersion};
//!
//! // a record with a ClientHello that offers two ciphers, the end of its extension block cut off
//! let mut record = vec![0x16, 0x03, 0x01, 0, 49, 0x01, 0, 0, 45, 0x03, 0x03];
//! record.extend([7; 32]);
//! record.extend([0, 0, 4, 0xc0, 0x2f, 0x00, 0x9c, 1, 0, 0, 5]);
//!
//! let (rest, record) = parse_tls_plaintext(&record)?;
//! assert!(rest.is_empty() && record.count() == 1 && record.dropped() == 0);
//! for message in &record.msg {
//!     let TlsMessage::Handshake(TlsMessageHandshake::ClientHello(hello)) = message else {
//!         continue;
//!     };
//!     assert_eq!(hello.version, TlsVersion::Tls12);
//!     assert!(hello.ciphers.iter().any(|cipher| cipher.0 == 0xc02f));
//!     assert!(hello.ext.is_none());
//!     assert_eq!(hello.tail, [0, 5]);
//! }
//! # Ok::<(), norrabist::Refusal>(())
//! ```
//!
//! After a ChangeCipherSpec the handshake messages, alerts and heartbeats of that direction are as a
//! rule encrypted, and no reader can see that from one record. A loop over the records of one
//! direction minds it, and takes those behind it with [`parse_tls_encrypted`].
//!
//! ```
//! use norrabist::{parse_tls_encrypted, parse_tls_plaintext, Refusal, TlsMessage};
//!
//! /// How many messages one side sends in the clear, and how many encrypted records.
//! fn sent(mut left: &[u8]) -> Result<(usize, usize), Refusal> {
//!     let (mut messages, mut encrypted, mut changed) = (0, 0, false);
//!     while !left.is_empty() {
//!         if changed {
//!             left = parse_tls_encrypted(left)?.0;
//!             encrypted += 1;
//!             continue;
//!         }
//!         let (rest, record) = parse_tls_plaintext(left)?;
//!         for message in &record.msg {
//!             messages += 1;
//!             changed |= message == TlsMessage::ChangeCipherSpec;
//!         }
//!         left = rest;
//!     }
//!     Ok((messages, encrypted))
//! }
//!
//! // a ChangeCipherSpec, and a Finished that is encrypted by AES-GCM: it begins with eight zero
//! // bytes, and would read as two HelloRequests
//! let finished = [&[0x16, 3, 3, 0, 40][..], &[0; 8], &[0x5a; 32]].concat();
//! let bytes = [&[0x14, 3, 3, 0, 1, 1][..], &finished].concat();
//! assert_eq!(sent(&bytes), Ok((1, 1)));
//! ```
//!
//! A writer fills a lent output, and changes none of it where it refuses.
//!
//! ```
//! use norrabist::{gen_tls_finished, gen_tls_finished_len, Reason};
//!
//! let mut out = [0xff; 8];
//! assert_eq!(gen_tls_finished(&[1, 2, 3], &mut out), Ok(7));
//! assert_eq!(out, [0x14, 0, 0, 3, 1, 2, 3, 0xff]);
//! let refused = gen_tls_finished(&[9; 5], &mut out);
//! assert_eq!(refused.map_err(|refusal| refusal.reason), Err(Reason::NoRoom));
//! assert_eq!(out, [0x14, 0, 0, 3, 1, 2, 3, 0xff]);
//! assert_eq!(gen_tls_finished_len(&[9; 5]), Ok(9));
//! ```

#![no_std]
#![deny(unsafe_op_in_unsafe_fn, missing_docs)]

#[cfg(not(all(
    target_os = "linux",
    target_pointer_width = "64",
    target_endian = "little",
    any(target_arch = "x86_64", target_arch = "aarch64")
)))]
compile_error!(
    "norrabist: the proved archive is for Linux on x86-64 and on Arm (aarch64), and no other machine"
);

#[cfg(feature = "alloc")]
extern crate alloc;
#[cfg(feature = "std")]
extern crate std;

mod ciphers;
mod content;
mod extensions;
mod ffi;
mod handshake;
mod kinds;
mod lists;
mod message;
mod messages;
mod newtypes;
mod record;
mod records;
mod refusal;
#[cfg(feature = "alloc")]
mod serialize;
mod table;
mod text;
mod told;
mod views;
mod write;

pub use ciphers::*;
pub use content::*;
pub use extensions::*;
pub use handshake::*;
pub use lists::{Fixed, Item, List, Parts, Refs, Values};
pub use message::*;
pub use messages::{record_walk_next, Handshakes, Heads, Messages, TlsMessageHead, TlsMessages};
pub use record::*;
pub use records::{tls_parser_many, Records, TlsRecords};
pub use refusal::{Reason, Refusal};
#[cfg(feature = "alloc")]
pub use serialize::{GenError, Serialize};
pub use table::*;
pub use write::*;

/// What a reader gives: the rest of the bytes and the value, or the refusal.
pub type Read<'a, T> = Result<(&'a [u8], T), Refusal>;
