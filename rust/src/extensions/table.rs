//! The numbers of extensions, each once, by tls-parser's names.

use crate::newtypes::newtype;

newtype! {
    display
    /// The type of an extension (RULES 11, RFC 5246 7.4.1.4).
    #[derive(Debug)]
    TlsExtensionType(u16) {
        ServerName = 0x0000,
        MaxFragmentLength = 0x0001,
        ClientCertificate = 0x0002,
        TrustedCaKeys = 0x0003,
        TruncatedHMac = 0x0004,
        StatusRequest = 0x0005,
        UserMapping = 0x0006,
        ClientAuthz = 0x0007,
        ServerAuthz = 0x0008,
        CertType = 0x0009,
        SupportedGroups = 0x000a,
        EcPointFormats = 0x000b,
        Srp = 0x000c,
        SignatureAlgorithms = 0x000d,
        UseSrtp = 0x000e,
        Heartbeat = 0x000f,
        ApplicationLayerProtocolNegotiation = 0x0010,
        StatusRequestv2 = 0x0011,
        SignedCertificateTimestamp = 0x0012,
        ClientCertificateType = 0x0013,
        ServerCertificateType = 0x0014,
        Padding = 0x0015,
        EncryptThenMac = 0x0016,
        ExtendedMasterSecret = 0x0017,
        TokenBinding = 0x0018,
        CachedInfo = 0x0019,
        RecordSizeLimit = 0x001c,
        SessionTicketTLS = 0x0023,
        KeyShareOld = 0x0028,
        PreSharedKey = 0x0029,
        EarlyData = 0x002a,
        SupportedVersions = 0x002b,
        Cookie = 0x002c,
        PskExchangeModes = 0x002d,
        TicketEarlyDataInfo = 0x002e,
        CertificateAuthorities = 0x002f,
        OidFilters = 0x0030,
        PostHandshakeAuth = 0x0031,
        SigAlgorithmsCert = 0x0032,
        KeyShare = 0x0033,
        NextProtocolNegotiation = 0x3374,
        Grease = 0xfafa,
        RenegotiationInfo = 0xff01,
        EncryptedServerName = 0xffce,
    }
}

impl TlsExtensionType {
    /// The type of that number.
    pub fn from_u16(t: u16) -> TlsExtensionType {
        TlsExtensionType(t)
    }
}

newtype! {
    display
    /// The type of a server name (RULES 11, RFC 6066 3), any byte.
    #[derive(Debug)]
    SNIType(u8) {
        HostName = 0x00,
    }
}

newtype! {
    /// A group for a key exchange: an elliptic curve or a finite field (RULES 11, RFC 8422 5.1.1).
    NamedGroup(u16) {
        Sect163k1 = 0x0001,
        Sect163r1 = 0x0002,
        Sect163r2 = 0x0003,
        Sect193r1 = 0x0004,
        Sect193r2 = 0x0005,
        Sect233k1 = 0x0006,
        Sect233r1 = 0x0007,
        Sect239k1 = 0x0008,
        Sect283k1 = 0x0009,
        Sect283r1 = 0x000a,
        Sect409k1 = 0x000b,
        Sect409r1 = 0x000c,
        Sect571k1 = 0x000d,
        Sect571r1 = 0x000e,
        Secp160k1 = 0x000f,
        Secp160r1 = 0x0010,
        Secp160r2 = 0x0011,
        Secp192k1 = 0x0012,
        Secp192r1 = 0x0013,
        Secp224k1 = 0x0014,
        Secp224r1 = 0x0015,
        Secp256k1 = 0x0016,
        Secp256r1 = 0x0017,
        Secp384r1 = 0x0018,
        Secp521r1 = 0x0019,
        BrainpoolP256r1 = 0x001a,
        BrainpoolP384r1 = 0x001b,
        BrainpoolP512r1 = 0x001c,
        EcdhX25519 = 0x001d,
        EcdhX448 = 0x001e,
        BrainpoolP256r1tls13 = 0x001f,
        BrainpoolP384r1tls13 = 0x0020,
        BrainpoolP512r1tls13 = 0x0021,
        Sm2 = 0x0029,
        Ffdhe2048 = 0x0100,
        Ffdhe3072 = 0x0101,
        Ffdhe4096 = 0x0102,
        Ffdhe6144 = 0x0103,
        Ffdhe8192 = 0x0104,
        ArbitraryExplicitPrimeCurves = 0xff01,
        ArbitraryExplicitChar2Curves = 0xff02,
    }
}

impl NamedGroup {
    /// The bits of the curve's key, as tls-parser has them: 521 for `BrainpoolP512r1` and 253 for
    /// `EcdhX25519`; none for `EcdhX448` and all that follow it, and for a number that has no name.
    pub fn key_bits(self) -> Option<u16> {
        Some(match self {
            Self::Secp160k1 | Self::Secp160r1 | Self::Secp160r2 => 160,
            Self::Sect163k1 | Self::Sect163r1 | Self::Sect163r2 => 163,
            Self::Secp192k1 | Self::Secp192r1 => 192,
            Self::Sect193r1 | Self::Sect193r2 => 193,
            Self::Secp224k1 | Self::Secp224r1 => 224,
            Self::Sect233k1 | Self::Sect233r1 => 233,
            Self::Sect239k1 => 239,
            Self::EcdhX25519 => 253,
            Self::Secp256k1 | Self::Secp256r1 | Self::BrainpoolP256r1 => 256,
            Self::Sect283k1 | Self::Sect283r1 => 283,
            Self::Secp384r1 | Self::BrainpoolP384r1 => 384,
            Self::Sect409k1 | Self::Sect409r1 => 409,
            Self::Secp521r1 | Self::BrainpoolP512r1 => 521,
            Self::Sect571k1 | Self::Sect571r1 => 571,
            _ => return None,
        })
    }
}
