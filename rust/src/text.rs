//! How values are printed: with the text of tls-parser, bytes in hex where it prints them so. A
//! hello's tail and a heartbeat's padding, which tls-parser does not have, are not printed.

use crate::content::TlsMessageHeartbeat;
use crate::extensions::{NamedGroup, SNIType, TlsExtension};
use crate::handshake::*;
use crate::lists::{Item, List};
use crate::record::{TlsPlaintext, TlsRecordHeader};
use crate::table::TlsCipherSuiteID;
use core::fmt::{self, Write};

/// Bytes in hex, as `[0f 10]`.
struct Hex<'a>(&'a [u8]);

impl fmt::Debug for Hex<'_> {
    fn fmt(&self, f: &mut fmt::Formatter) -> fmt::Result {
        f.write_str("[")?;
        for (place, byte) in self.0.iter().enumerate() {
            let between = if place == 0 { "" } else { " " };
            write!(f, "{between}{byte:02x}")?;
        }
        f.write_str("]")
    }
}

/// Makes `Debug` of the fields that are printed, with the names by which they are.
macro_rules! printed {
    ($($t:ident$(<$a:lifetime>)?: $v:ident { $($name:literal: $value:expr),* };)*) => {$(
        impl fmt::Debug for $t$(<$a>)? {
            fn fmt(&self, f: &mut fmt::Formatter) -> fmt::Result {
                let $v = self;
                f.debug_struct(stringify!($t))$(.field($name, &$value))*.finish()
            }
        }
    )*};
}

printed! {
    TlsClientHelloContents<'_>: hello {
        "version": hello.version, "random": Hex(hello.random), "session_id": hello.session_id.map(Hex),
        "ciphers": hello.ciphers, "comp": hello.comp, "ext": hello.ext.map(Hex)
    };
    TlsServerHelloContents<'_>: hello {
        "version": hello.version, "random": Hex(hello.random), "session_id": hello.session_id.map(Hex),
        "cipher": hello.cipher, "compression": hello.compression, "ext": hello.ext.map(Hex)
    };
    TlsServerHelloV13Draft18Contents<'_>: hello {
        "version": hello.version, "random": Hex(hello.random), "cipher": hello.cipher,
        "ext": hello.ext.map(Hex)
    };
    // tls-parser does not print its cipher
    TlsHelloRetryRequestContents<'_>: hello { "version": hello.version, "ext": hello.ext.map(Hex) };
    RawCertificate<'_>: certificate { "data": Hex(certificate.data) };
    TlsServerKeyExchangeContents<'_>: key { "parameters": Hex(key.parameters) };
    TlsMessageHeartbeat<'_>: heartbeat {
        "heartbeat_type": heartbeat.heartbeat_type, "payload_len": heartbeat.payload_len,
        "payload": heartbeat.payload
    };
    TlsRecordHeader: header { "type": header.record_type, "version": header.version, "len": header.len };
    TlsPlaintext<'_>: record { "hdr": record.hdr, "msg": record.msg };
}

impl fmt::Debug for TlsClientKeyExchangeContents<'_> {
    fn fmt(&self, f: &mut fmt::Formatter) -> fmt::Result {
        match self {
            Self::Dh(part) | Self::Unknown(part) => write!(f, "{:?}", Hex(part)),
            Self::Ecdh(point) => write!(f, "{point:?}"),
        }
    }
}

impl fmt::Debug for TlsCipherSuiteID {
    fn fmt(&self, f: &mut fmt::Formatter) -> fmt::Result {
        let name = self.get_ciphersuite().map_or("Unknown cipher", |suite| suite.name);
        write!(f, "0x{:04x}({name})", self.0)
    }
}

impl fmt::Display for TlsCipherSuiteID {
    fn fmt(&self, f: &mut fmt::Formatter) -> fmt::Result {
        write!(f, "{}", self.0)
    }
}

/// A text in quotes, as a `String` that holds it is printed.
struct Quoted<T>(T);

impl<T: fmt::Display> fmt::Debug for Quoted<T> {
    fn fmt(&self, f: &mut fmt::Formatter) -> fmt::Result {
        f.write_str("\"")?;
        write!(Escaped(f), "{}", self.0)?;
        f.write_str("\"")
    }
}

/// Escapes what is written to it as a string is escaped: a single quote stays.
struct Escaped<'f, 'b>(&'f mut fmt::Formatter<'b>);

impl Write for Escaped<'_, '_> {
    fn write_str(&mut self, text: &str) -> fmt::Result {
        text.chars().try_for_each(|c| match c {
            '\'' => self.0.write_char(c),
            _ => write!(self.0, "{}", c.escape_debug()),
        })
    }
}

/// A list of texts, each in quotes.
struct Texts<'a, T, D>(List<'a, T>, fn(T) -> D);

impl<'a, T: Item<'a>, D: fmt::Display> fmt::Debug for Texts<'a, T, D> {
    fn fmt(&self, f: &mut fmt::Formatter) -> fmt::Result {
        f.debug_list().entries(self.0.values().map(|item| Quoted(self.1(item)))).finish()
    }
}

/// A server name in words.
struct InWords<'a>((SNIType, &'a [u8]));

impl fmt::Display for InWords<'_> {
    fn fmt(&self, f: &mut fmt::Formatter) -> fmt::Result {
        let (kind, name) = self.0;
        let name = core::str::from_utf8(name).unwrap_or("<error decoding utf8 string>");
        write!(f, "type={kind},name={name}")
    }
}

impl fmt::Debug for TlsExtension<'_> {
    fn fmt(&self, f: &mut fmt::Formatter) -> fmt::Result {
        match *self {
            Self::SNI(names) => write!(f, "TlsExtension::SNI({:?})", Texts(names, InWords)),
            Self::MaxFragmentLength(value) => write!(f, "TlsExtension::MaxFragmentLength({value})"),
            Self::EllipticCurves(groups) => {
                write!(f, "TlsExtension::EllipticCurves({:?})", Texts(groups, |group: NamedGroup| group))
            }
            Self::Unknown(of, data) => {
                write!(f, "TlsExtension::Unknown(type=0x{of:x},data={data:?})")
            }
        }
    }
}
