//! What a cipher suite is called and made of, by tls-parser's names. `ciphers/rows.rs` has the
//! table.
//!
//! It is for people: no reader and no writer looks at it, and nothing of it is proved.

mod rows;

use crate::table::TlsCipherSuiteID;
use core::fmt;
pub use rows::CIPHERS;

/// How the keys are agreed on.
#[derive(Clone, Copy, Debug, PartialEq, Eq)]
#[repr(u8)]
pub enum TlsCipherKx {
    /// Not at all.
    Null,
    /// A key that both had before.
    Psk,
    /// Kerberos 5.
    Krb5,
    /// Secure Remote Password.
    Srp,
    /// Encrypted to an RSA key.
    Rsa,
    /// Diffie-Hellman.
    Dh,
    /// Diffie-Hellman, with a new key each time.
    Dhe,
    /// Diffie-Hellman on an elliptic curve.
    Ecdh,
    /// Diffie-Hellman on an elliptic curve, with a new key each time.
    Ecdhe,
    /// Diffie-Hellman on an elliptic curve, with nobody authenticated. No row has it.
    Aecdh,
    /// A password, on an elliptic curve.
    Eccpwd,
    /// TLS 1.3: extensions say it.
    Tls13,
}

/// How the server is authenticated.
#[derive(Clone, Copy, Debug, PartialEq, Eq)]
#[repr(u8)]
#[allow(non_camel_case_types)]
pub enum TlsCipherAu {
    /// Not at all.
    Null,
    /// A key that both had before.
    Psk,
    /// Kerberos 5.
    Krb5,
    /// Secure Remote Password.
    Srp,
    /// Secure Remote Password, and a DSS signature.
    Srp_Dss,
    /// Secure Remote Password, and an RSA signature.
    Srp_Rsa,
    /// A DSS signature.
    Dss,
    /// An RSA key or signature.
    Rsa,
    /// What tls-parser's list says of `TLS_PSK_DHE_WITH_AES_128_CCM_8` and its like of 256 bits.
    Dhe,
    /// An ECDSA signature.
    Ecdsa,
    /// A password, on an elliptic curve.
    Eccpwd,
    /// TLS 1.3: extensions say it.
    Tls13,
}

/// The cipher.
#[derive(Clone, Copy, Debug, PartialEq, Eq)]
#[repr(u8)]
#[allow(non_camel_case_types)]
pub enum TlsCipherEnc {
    /// None: the content is in the clear.
    Null,
    /// DES.
    Des,
    /// DES three times.
    TripleDes,
    /// RC2.
    Rc2,
    /// RC4.
    Rc4,
    /// ARIA.
    Aria,
    /// IDEA.
    Idea,
    /// SEED.
    Seed,
    /// AES.
    Aes,
    /// Camellia.
    Camellia,
    /// ChaCha20 with Poly1305.
    Chacha20_Poly1305,
    /// SM4.
    Sm4,
    /// AEGIS. No row has it.
    Aegis,
}

/// The mode in which a block cipher is used.
#[derive(Clone, Copy, Debug, PartialEq, Eq)]
#[repr(u8)]
pub enum TlsCipherEncMode {
    /// None, as of a stream cipher.
    Null,
    /// Cipher block chaining.
    Cbc,
    /// Counter with CBC-MAC.
    Ccm,
    /// Galois counter mode.
    Gcm,
}

/// How the content is protected against a change.
#[derive(Clone, Copy, Debug, PartialEq, Eq)]
#[repr(u8)]
pub enum TlsCipherMac {
    /// Not at all.
    Null,
    /// HMAC with MD5.
    HmacMd5,
    /// HMAC with SHA-1.
    HmacSha1,
    /// HMAC with SHA-256.
    HmacSha256,
    /// HMAC with SHA-384.
    HmacSha384,
    /// HMAC with SHA-512. No row has it.
    HmacSha512,
    /// The cipher does it.
    Aead,
}

/// The function of which keys are made.
#[derive(Clone, Copy, Debug, PartialEq, Eq)]
#[repr(u8)]
pub enum TlsPRF {
    /// That of the version.
    Default,
    /// None.
    Null,
    /// With MD5 and SHA-1. No row has it.
    Md5AndSha1,
    /// With SHA-1. No row has it.
    Sha1,
    /// With SHA-256.
    Sha256,
    /// With SHA-384.
    Sha384,
    /// With SHA-512. No row has it.
    Sha512,
    /// With SM3.
    Sm3,
}

/// A cipher suite that has a name.
///
/// ```
/// use norrabist::{TlsCipherEnc, TlsCipherSuite, TlsCipherSuiteID};
///
/// let suite = TlsCipherSuiteID(0x1301).get_ciphersuite().expect("a suite of TLS 1.3");
/// assert_eq!((suite.name, suite.enc, suite.enc_size), ("TLS_AES_128_GCM_SHA256", TlsCipherEnc::Aes, 128));
/// assert_eq!(TlsCipherSuite::from_name(suite.name), Some(suite));
/// assert_eq!(TlsCipherSuite::from_id(0xfafa), None);
/// ```
#[derive(Clone, Debug, PartialEq, Eq)]
pub struct TlsCipherSuite {
    /// IANA's name.
    pub name: &'static str,
    /// IANA's number.
    pub id: TlsCipherSuiteID,
    /// How the keys are agreed on.
    pub kx: TlsCipherKx,
    /// How the server is authenticated.
    pub au: TlsCipherAu,
    /// The cipher.
    pub enc: TlsCipherEnc,
    /// Its mode.
    pub enc_mode: TlsCipherEncMode,
    /// The bits of its key, as tls-parser has them.
    pub enc_size: u16,
    /// How the content is protected against a change.
    pub mac: TlsCipherMac,
    /// The bits of the MAC; of an AEAD, those of the key.
    pub mac_size: u16,
    /// The function of which keys are made.
    pub prf: TlsPRF,
}

impl TlsCipherSuite {
    /// The suite of a number; none where the number has no name.
    pub fn from_id(id: u16) -> Option<&'static TlsCipherSuite> {
        CIPHERS.binary_search_by_key(&id, |suite| suite.id.0).ok().and_then(|place| CIPHERS.get(place))
    }

    /// The suite of a name of IANA's, to the letter; none where no suite is called so.
    pub fn from_name(name: &str) -> Option<&'static TlsCipherSuite> {
        CIPHERS.iter().find(|suite| suite.name == name)
    }

    /// The bytes of the cipher's key.
    pub const fn enc_key_size(&self) -> usize {
        self.enc_size as usize / 8 // a u16 is never cut
    }

    /// The bytes of the cipher's block; 0 where it has none, as a stream cipher and, as in
    /// tls-parser, AEGIS.
    pub const fn enc_block_size(&self) -> usize {
        use TlsCipherEnc::*;
        match self.enc {
            Null | Rc4 | Chacha20_Poly1305 | Aegis => 0,
            Des | TripleDes | Rc2 | Idea => 8,
            Aria | Seed | Aes | Camellia | Sm4 => 16,
        }
    }

    /// The bytes of the MAC; 0 where the cipher does its work, or nothing does.
    pub const fn mac_length(&self) -> usize {
        match self.mac {
            TlsCipherMac::Null | TlsCipherMac::Aead => 0,
            TlsCipherMac::HmacMd5 => 16,
            TlsCipherMac::HmacSha1 => 20,
            TlsCipherMac::HmacSha256 => 32,
            TlsCipherMac::HmacSha384 => 48,
            TlsCipherMac::HmacSha512 => 64,
        }
    }
}

impl TlsCipherSuiteID {
    /// What the suite is called and made of; none where the number has no name.
    pub fn get_ciphersuite(self) -> Option<&'static TlsCipherSuite> {
        TlsCipherSuite::from_id(self.0)
    }
}

/// No cipher suite has that number or name.
#[derive(Debug)]
pub struct CipherSuiteNotFound(());

impl fmt::Display for CipherSuiteNotFound {
    fn fmt(&self, f: &mut fmt::Formatter) -> fmt::Result {
        f.write_str("no cipher suite has that number or name")
    }
}

impl core::error::Error for CipherSuiteNotFound {}

impl TryFrom<u16> for &'static TlsCipherSuite {
    type Error = CipherSuiteNotFound;

    fn try_from(id: u16) -> Result<Self, CipherSuiteNotFound> {
        TlsCipherSuite::from_id(id).ok_or(CipherSuiteNotFound(()))
    }
}

impl TryFrom<TlsCipherSuiteID> for &'static TlsCipherSuite {
    type Error = CipherSuiteNotFound;

    fn try_from(id: TlsCipherSuiteID) -> Result<Self, CipherSuiteNotFound> {
        id.get_ciphersuite().ok_or(CipherSuiteNotFound(()))
    }
}

impl TryFrom<&str> for &'static TlsCipherSuite {
    type Error = CipherSuiteNotFound;

    fn try_from(name: &str) -> Result<Self, CipherSuiteNotFound> {
        TlsCipherSuite::from_name(name).ok_or(CipherSuiteNotFound(()))
    }
}
