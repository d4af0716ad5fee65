// Code such as is written for tls-parser, over the extensions of hellos. `tls` is the crate: the
// same text compiles with tls-parser 0.12.2 and with Norrabist (`tests/swap.rs`, `compare/swap`).
// One function is one snippet.

use tls::{NamedGroup, SNIType, TlsClientHelloContents, TlsExtension, TlsExtensionType};

pub fn host_name(ch: &TlsClientHelloContents) -> Option<String> {
    let (_, extensions) = tls::parse_tls_extensions(ch.ext?).ok()?;
    extensions.iter().find_map(|extension| match extension {
        TlsExtension::SNI(names) => names
            .iter()
            .find(|name| name.0 == SNIType::HostName)
            .map(|name| String::from_utf8_lossy(name.1).into_owned()),
        _ => None,
    })
}

pub fn first_name(ext: &[u8]) -> Option<&[u8]> {
    let (_, extensions) = tls::parse_tls_extensions(ext).ok()?;
    for extension in &extensions {
        if let TlsExtension::SNI(names) = extension {
            return names.first().map(|name| name.1);
        }
    }
    None
}

pub fn ja3_groups(ext: &[u8]) -> Vec<u16> {
    let mut ids = Vec::new();
    if let Ok((_, extensions)) = tls::parse_tls_extensions(ext) {
        for extension in extensions.iter() {
            if let TlsExtension::EllipticCurves(groups) = extension {
                ids.extend(groups.iter().map(|group| group.0).filter(|id| id & 0x0f0f != 0x0a0a));
            }
        }
    }
    ids
}

pub fn offers_x25519(ext: &[u8]) -> bool {
    let Ok((_, extensions)) = tls::parse_tls_extensions(ext) else { return false };
    extensions.iter().any(|extension| match extension {
        TlsExtension::EllipticCurves(groups) => groups.contains(&NamedGroup::EcdhX25519),
        _ => false,
    })
}

pub fn strongest_curve(ext: &[u8]) -> Option<u16> {
    let (_, extensions) = tls::parse_tls_extensions(ext).ok()?;
    let bits = extensions.iter().filter_map(|extension| match extension {
        TlsExtension::EllipticCurves(groups) => groups.iter().filter_map(|group| group.key_bits()).max(),
        _ => None,
    });
    bits.max()
}

pub fn types(ext: &[u8]) -> Vec<u16> {
    let extensions = tls::parse_tls_extensions(ext).map(|(_, extensions)| extensions);
    extensions.iter().flatten().map(|extension| TlsExtensionType::from(extension).into()).collect()
}

pub fn fragment_length(ext: &[u8]) -> Option<usize> {
    let (_, extensions) = tls::parse_tls_extensions(ext).ok()?;
    extensions.into_iter().find_map(|extension| match extension {
        TlsExtension::MaxFragmentLength(n @ 1..=4) => Some(256usize << n),
        _ => None,
    })
}

pub fn by_name(ext: &[u8]) -> Vec<String> {
    let mut all = Vec::new();
    if let Ok((_, extensions)) = tls::parse_tls_extensions(ext) {
        for extension in &extensions {
            let of: TlsExtensionType = extension.into();
            all.push(match of {
                TlsExtensionType::ServerName | TlsExtensionType::SupportedGroups => format!("{extension:?}"),
                _ => format!("{of} {of:?}"),
            });
        }
    }
    all
}

pub fn groups_in_words(ext: &[u8]) -> String {
    let Ok((rest, extensions)) = tls::parse_tls_extensions(ext) else { return String::new() };
    let lists = extensions.iter().filter(|extension| matches!(extension, TlsExtension::EllipticCurves(_)));
    format!("{} {:?} {}", extensions.len(), lists.last(), rest.len())
}
