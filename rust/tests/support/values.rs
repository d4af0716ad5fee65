//! Values on the sheet, field by field.

use super::sheet::Sheet;
use norrabist::*;

/// A value that has numbers in an answer.
pub trait Told {
    /// Puts its numbers behind those that are there.
    fn told(&self, s: &mut Sheet);
}

/// What the messages of other types of records are: Finished and KeyUpdate have the types 0x14 and
/// 0x18 too.
fn other(of: TlsRecordType) -> u16 {
    0x0100 + u16::from(of.0)
}

/// How the fields of each value are told.
macro_rules! told {
    ($($t:ty: ($value:ident, $s:ident) $told:block)*) => {$(
        impl Told for $t {
            fn told(&self, $s: &mut Sheet) {
                let $value = self;
                $told
            }
        }
    )*};
}

told! {
    u8: (n, s) {
        s.number(*n);
    }
    &[u8]: (body, s) {
        s.part(body);
    }
    TlsRecordHeader: (h, s) {
        s.number(h.record_type.0);
        s.number(h.version.0);
        s.number(h.len);
    }
    TlsRawRecord<'_>: (r, s) {
        r.hdr.told(s);
        s.part(r.data);
    }
    TlsEncrypted<'_>: (r, s) {
        r.hdr.told(s);
        s.part(r.msg.blob);
    }
    TlsPlaintext<'_>: (r, s) {
        r.hdr.told(s);
        s.size(r.count());
        r.msg.iter().for_each(|m| m.told(s));
    }
    TlsRecords<'_>: (all, s) {
        s.size(all.len());
        all.iter().for_each(|r| r.told(s));
    }
    TlsMessages<'_>: (all, s) {
        s.size(all.len());
        // not by `for_each`, so that both ways through messages are taken
        for m in all {
            m.told(s);
        }
    }
    TlsMessage<'_>: (m, s) {
        match m {
            TlsMessage::Handshake(m) => m.told(s),
            TlsMessage::ChangeCipherSpec => s.number(other(TlsRecordType::ChangeCipherSpec)),
            TlsMessage::Alert(m) => {
                s.number(other(TlsRecordType::Alert));
                s.number(m.severity.0);
                s.number(m.code.0);
            }
            TlsMessage::ApplicationData(m) => {
                s.number(other(TlsRecordType::ApplicationData));
                s.part(m.blob);
            }
            TlsMessage::Heartbeat(m) => {
                s.number(other(TlsRecordType::Heartbeat));
                s.number(m.heartbeat_type.0);
                s.number(m.payload_len);
                s.part(m.payload);
            }
        }
    }
    TlsClientHelloContents<'_>: (h, s) {
        s.number(h.version.0);
        s.part(h.random);
        s.optional_part(h.session_id);
        s.size(h.ciphers.len());
        h.ciphers.iter().for_each(|c| s.number(c.0));
        s.size(h.comp.len());
        h.comp.iter().for_each(|c| s.number(c.0));
        s.optional_part(h.ext);
    }
    TlsServerHelloContents<'_>: (h, s) {
        s.number(h.version.0);
        s.part(h.random);
        s.optional_part(h.session_id);
        s.number(h.cipher.0);
        s.number(h.compression.0);
        s.optional_part(h.ext);
    }
    TlsServerHelloV13Draft18Contents<'_>: (h, s) {
        s.number(h.version.0);
        s.part(h.random);
        s.number(h.cipher.0);
        s.optional_part(h.ext);
    }
    TlsHelloRetryRequestContents<'_>: (h, s) {
        s.number(h.version.0);
        s.number(h.cipher.0);
        s.optional_part(h.ext);
    }
    TlsNewSessionTicketContent<'_>: (t, s) {
        s.number(t.ticket_lifetime_hint);
        s.part(t.ticket);
    }
    TlsCertificateContents<'_>: (c, s) {
        s.size(c.cert_chain.len());
        c.cert_chain.iter().for_each(|c| s.part(c.data));
    }
    TlsServerKeyExchangeContents<'_>: (k, s) {
        s.part(k.parameters);
    }
    TlsCertificateRequestContents<'_>: (r, s) {
        s.size(r.cert_types.len());
        r.cert_types.iter().for_each(|t| s.number(*t));
        s.number(r.sig_hash_algs.is_some());
        if let Some(pairs) = &r.sig_hash_algs {
            s.size(pairs.len());
            // not by `for_each`, so that both ways through numbers are taken
            for pair in pairs {
                s.number(*pair);
            }
        }
        s.size(r.unparsed_ca.len());
        r.unparsed_ca.iter().for_each(|name| s.part(name));
    }
    TlsClientKeyExchangeContents<'_>: (k, s) {
        match k {
            TlsClientKeyExchangeContents::Unknown(part) => s.part(part),
            // no reader gives these: the case is answered one number short
            TlsClientKeyExchangeContents::Dh(_) | TlsClientKeyExchangeContents::Ecdh(_) => {}
        }
    }
    TlsCertificateStatusContents<'_>: (c, s) {
        s.number(c.status_type);
        s.part(c.blob);
    }
    TlsNextProtocolContent<'_>: (n, s) {
        s.part(n.selected_protocol);
        s.part(n.padding);
    }
}
