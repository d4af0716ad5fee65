//! Extension blocks in the list's numbers, and the extensions that an input says (`compare/README.md`).

use super::sheet::Sheet;
use norrabist::*;

/// The reader of extension blocks.
pub const READER: &str = "parse_tls_extensions";

/// 0, the place of the rest, how many items and each; or the number of the refusal and the index.
pub fn answer(i: &[u8]) -> Vec<u64> {
    let mut sheet = Sheet::new(i);
    match parse_tls_extensions(i) {
        Ok((rest, all)) => {
            sheet.number(0u8);
            sheet.place(rest);
            sheet.size(all.len());
            for extension in &all {
                told(extension, &mut sheet);
            }
        }
        Err(damage) => {
            sheet.number(damage.refusal.number());
            sheet.size(damage.index);
        }
    }
    sheet.numbers
}

/// The type, then 1 and what is opened, or 0 and the data.
fn told(extension: TlsExtension, s: &mut Sheet) {
    match extension {
        TlsExtension::SNI(names) => {
            s.numbers.extend([0, 1, names.len() as u64]);
            names.values().for_each(|name| name_told(name, s));
        }
        TlsExtension::MaxFragmentLength(value) => s.numbers.extend([1, 1, u64::from(value)]),
        TlsExtension::EllipticCurves(groups) => {
            s.numbers.extend([10, 1, groups.len() as u64]);
            groups.values().for_each(|group| s.number(group.0));
        }
        TlsExtension::Unknown(of, data) => raw_told(of, data, s),
        // no number of the list: the case is answered one item short
        _ => {}
    }
}

fn name_told((of, name): (SNIType, &[u8]), s: &mut Sheet) {
    s.number(of.0);
    s.part(name);
}

fn raw_told(of: TlsExtensionType, data: &[u8], s: &mut Sheet) {
    s.number(of.0);
    s.number(0u8);
    s.part(data);
}

/// Of a block that is taken how many items, each by its place, and whether there is one past the
/// last; the same of each list.
pub fn one_by_one(i: &[u8]) -> Vec<u64> {
    let (_, all) = parse_tls_extensions(i).expect("a block");
    let mut sheet = Sheet::new(i);
    sheet.size(all.len());
    for n in 0..all.len() {
        match all.get(n).expect("an extension") {
            TlsExtension::SNI(names) => {
                sheet.numbers.extend([0, 1, names.len() as u64]);
                (0..names.len()).for_each(|n| name_told(names.get(n).expect("a name"), &mut sheet));
                ends(
                    names.len(),
                    names.is_empty(),
                    [names.len(), usize::MAX].map(|n| names.get(n).is_some()),
                );
            }
            TlsExtension::EllipticCurves(groups) => {
                sheet.numbers.extend([10, 1, groups.len() as u64]);
                (0..groups.len()).for_each(|n| sheet.number(groups.get(n).expect("a group").0));
                let past = [groups.len(), usize::MAX].map(|n| groups.get(n).is_some());
                ends(groups.len(), groups.is_empty(), past);
            }
            other => told(other, &mut sheet),
        }
    }
    sheet.number(all.get(all.len()).is_some());
    ends(all.len(), all.is_empty(), [usize::MAX - 1, usize::MAX].map(|n| all.get(n).is_some()));
    assert_eq!(all.as_bytes().as_ptr_range(), i.as_ptr_range(), "the bytes of the block");
    assert!(all.iter().eq(all.to_vec()) && all.iter().eq(all), "the items by their iterators");
    sheet.numbers
}

/// That a list is empty where it has nothing, and that there is nothing past its end.
fn ends(len: usize, is_empty: bool, past: [bool; 2]) {
    assert_eq!((len == 0, [false; 2]), (is_empty, past), "the end of a list");
}

/// Writes the items of a block that is taken.
pub fn rewrite(i: &[u8], out: &mut [u8]) -> Result<usize, Refusal> {
    let (_, all) = parse_tls_extensions(i).expect("a block");
    gen_tls_extensions(&all.to_vec(), out)
}

/// The extension that the bytes say, and what stands behind it: a byte, 1 where it is opened and 0
/// where it is raw, type 2, length 4 and its bytes.
fn first(i: &[u8]) -> Option<(TlsExtension<'_>, &[u8])> {
    let (head, behind) = i.split_at_checked(7)?;
    let of = u16::from_be_bytes([head[1], head[2]]);
    let len = u32::from_be_bytes([head[3], head[4], head[5], head[6]]);
    let (bytes, rest) = behind.split_at_checked(len.try_into().ok()?)?;
    let extension = match (head[0], of, bytes) {
        (0, ..) => TlsExtension::Unknown(TlsExtensionType(of), bytes),
        (1, 0, _) => TlsExtension::SNI(List::new(bytes)),
        (1, 1, [value]) => TlsExtension::MaxFragmentLength(*value),
        (1, 10, _) => TlsExtension::EllipticCurves(List::new(bytes)),
        _ => return None,
    };
    Some((extension, rest))
}

/// The extension, where the bytes say one and nothing else.
pub fn one(i: &[u8]) -> Option<TlsExtension<'_>> {
    first(i).filter(|(_, rest)| rest.is_empty()).map(|(extension, _)| extension)
}

/// The extensions, where the bytes say some and nothing else.
pub fn row(i: &[u8]) -> Option<Vec<TlsExtension<'_>>> {
    let (mut all, mut left) = (Vec::new(), i);
    while !left.is_empty() {
        let (extension, rest) = first(left)?;
        all.push(extension);
        left = rest;
    }
    Some(all)
}

/// An entry of a list of names: its type, and the name.
pub fn name(i: &[u8]) -> Option<(SNIType, &[u8])> {
    i.split_first().map(|(of, name)| (SNIType(*of), name))
}
