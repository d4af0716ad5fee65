//! tls-parser's values on the sheet, field by field.

use crate::sheet::Sheet;
use crate::table::other;
use tls_parser::*;

/// A value that has numbers in an answer.
pub trait Told {
    /// Puts its numbers behind those that are there.
    fn told(&self, s: &mut Sheet);
}

/// How the fields of each value are told.
macro_rules! told {
    ($($t:ty: ($value:ident, $s:ident) $told:block)*) => {$(
        impl Told for $t {
            fn told(&self, $s: &mut Sheet) {
                let $value = self;
                $told
            }
        }
    )*};
}

told! {
    u8: (n, s) {
        s.number(*n);
    }
    &[u8]: (body, s) {
        s.part(body);
    }
    TlsRecordHeader: (h, s) {
        s.number(h.record_type.0);
        s.number(h.version.0);
        s.number(h.len);
    }
    TlsRawRecord<'_>: (r, s) {
        r.hdr.told(s);
        s.part(r.data);
    }
    TlsEncrypted<'_>: (r, s) {
        r.hdr.told(s);
        s.part(r.msg.blob);
    }
    TlsPlaintext<'_>: (r, s) {
        r.hdr.told(s);
        r.msg.told(s);
    }
    Vec<TlsPlaintext<'_>>: (all, s) {
        s.size(all.len());
        all.iter().for_each(|r| r.told(s));
    }
    Vec<TlsMessage<'_>>: (all, s) {
        s.size(all.len());
        all.iter().for_each(|m| m.told(s));
    }
    TlsMessage<'_>: (m, s) {
        match m {
            TlsMessage::Handshake(m) => m.told(s),
            TlsMessage::ChangeCipherSpec => s.number(other::CHANGE_CIPHER_SPEC),
            TlsMessage::Alert(m) => m.told(s),
            TlsMessage::ApplicationData(m) => m.told(s),
            TlsMessage::Heartbeat(m) => m.told(s),
        }
    }
    TlsMessageAlert: (a, s) {
        s.number(other::ALERT);
        s.number(a.severity.0);
        s.number(a.code.0);
    }
    TlsMessageApplicationData<'_>: (d, s) {
        s.number(other::APPLICATION_DATA);
        s.part(d.blob);
    }
    TlsMessageHeartbeat<'_>: (h, s) {
        s.number(other::HEARTBEAT);
        s.number(h.heartbeat_type.0);
        s.number(h.payload_len);
        s.part(h.payload);
    }
    TlsClientHelloContents<'_>: (h, s) {
        accessors(h);
        s.number(h.version.0);
        s.part(h.random);
        s.optional_part(h.session_id);
        s.list(h.ciphers.iter().map(|c| u64::from(c.0)));
        s.list(h.comp.iter().map(|c| u64::from(c.0)));
        s.optional_part(h.ext);
    }
    TlsServerHelloContents<'_>: (h, s) {
        s.number(h.version.0);
        s.part(h.random);
        s.optional_part(h.session_id);
        s.number(h.cipher.0);
        s.number(h.compression.0);
        s.optional_part(h.ext);
    }
    TlsServerHelloV13Draft18Contents<'_>: (h, s) {
        s.number(h.version.0);
        s.part(h.random);
        s.number(h.cipher.0);
        s.optional_part(h.ext);
    }
    TlsHelloRetryRequestContents<'_>: (h, s) {
        s.number(h.version.0);
        s.number(h.cipher.0);
        s.optional_part(h.ext);
    }
    TlsNewSessionTicketContent<'_>: (t, s) {
        s.number(t.ticket_lifetime_hint);
        s.part(t.ticket);
    }
    TlsCertificateContents<'_>: (c, s) {
        s.parts(c.cert_chain.iter().map(|c| c.data));
    }
    TlsServerKeyExchangeContents<'_>: (k, s) {
        s.part(k.parameters);
    }
    TlsCertificateRequestContents<'_>: (r, s) {
        s.list(r.cert_types.iter().map(|t| u64::from(*t)));
        s.number(u8::from(r.sig_hash_algs.is_some()));
        if let Some(pairs) = &r.sig_hash_algs {
            s.list(pairs.iter().map(|p| u64::from(*p)));
        }
        s.parts(r.unparsed_ca.iter().copied());
    }
    TlsClientKeyExchangeContents<'_>: (k, s) {
        match k {
            TlsClientKeyExchangeContents::Unknown(raw) => s.part(raw),
            _ => panic!("a client key exchange that is not raw"),
        }
    }
    TlsCertificateStatusContents<'_>: (c, s) {
        s.number(c.status_type);
        s.part(c.blob);
    }
    TlsNextProtocolContent<'_>: (n, s) {
        s.part(n.selected_protocol);
        s.part(n.padding);
    }
    Vec<(TlsExtension<'_>, &[u8])>: (all, s) {
        s.size(all.len());
        all.iter().for_each(|(extension, data)| extension_told(extension, data, s));
    }
}

/// The type, then 1 and the value of what Norrabist opens too, or 0 and the data: tls-parser's, where
/// it hands out all of it.
fn extension_told(extension: &TlsExtension, data: &[u8], s: &mut Sheet) {
    s.number(match extension {
        TlsExtension::Grease(of, _) => *of,
        _ => TlsExtensionType::from(extension).0,
    });
    let raw = match extension {
        TlsExtension::SNI(names) => {
            s.number(1u8);
            s.size(names.len());
            return names.iter().for_each(|(of, name)| {
                s.number(of.0);
                s.part(name);
            });
        }
        TlsExtension::MaxFragmentLength(value) => {
            s.number(1u8);
            return s.number(*value);
        }
        TlsExtension::EllipticCurves(groups) => {
            s.number(1u8);
            return s.list(groups.iter().map(|group| u64::from(group.0)));
        }
        TlsExtension::Grease(_, data) | TlsExtension::Unknown(_, data) => data,
        TlsExtension::Padding(data) | TlsExtension::SessionTicket(data) => data,
        TlsExtension::KeyShareOld(data) | TlsExtension::KeyShare(data) => data,
        TlsExtension::PreSharedKey(data) | TlsExtension::Cookie(data) => data,
        _ => data,
    };
    s.number(0u8);
    s.part(raw);
}

/// What the trait `ClientHello` hands out: the fields again. Time and bytes of the random, which it
/// adds to them, are told by `randoms`.
fn accessors(h: &TlsClientHelloContents) {
    assert_eq!(h.version(), h.version);
    assert_eq!(h.random(), h.random);
    assert_eq!(h.session_id(), h.session_id);
    assert_eq!(h.ciphers(), &h.ciphers);
    assert_eq!(h.comp(), &h.comp);
    assert_eq!(h.ext(), h.ext);
}
