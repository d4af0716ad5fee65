//! Tests of `strict.rs`, which those of the Rust binding run too (`rust/tests/strict.rs`).

use super::strict::{plain, strict as read, Hello, PlainRefused, Refused};

/// The bytes of a text of hex digits; Z is 32 zero bytes, blanks are skipped.
fn bytes(text: &str) -> Vec<u8> {
    let text = text.replace('Z', &"00".repeat(32)).replace(' ', "");
    (0..text.len() / 2)
        .map(|k| u8::from_str_radix(&text[2 * k..2 * k + 2], 16).expect("hex digits"))
        .collect()
}

const SMALLEST: &str = "0303 Z 00 0002 002f 01 00";

fn hello(text: &str) -> Hello {
    read(&bytes(text)).expect("taken")
}

fn refused(text: &str) -> Refused {
    read(&bytes(text)).expect_err("refused")
}

fn split(text: &str) -> Hello {
    plain(&bytes(text)).expect("split")
}

/// The fields joined again, with their lengths; what is left over is not among them.
fn joined(body: &[u8], h: &Hello) -> Vec<u8> {
    let part = |p: (usize, usize)| body[p.0..p.0 + p.1].to_vec();
    let id = h.session_id.map_or(vec![], part);
    let mut out = h.version.to_be_bytes().to_vec();
    out.extend(part(h.random));
    out.push(u8::try_from(id.len()).expect("short id"));
    out.extend(id);
    out.extend(u16::try_from(2 * h.ciphers.len()).expect("short list").to_be_bytes());
    out.extend(h.ciphers.iter().flat_map(|c| c.to_be_bytes()));
    out.push(u8::try_from(h.comp.len()).expect("short list"));
    out.extend(&h.comp);
    if let Some(ext) = h.ext {
        out.extend(u16::try_from(ext.1).expect("short block").to_be_bytes());
        out.extend(part(ext));
    }
    out
}

#[test]
fn rows_2_to_5() {
    for (tail, ext, rest) in
        [("", None, 38), ("00", None, 38), ("0000", Some((40, 0)), 40), ("0001", None, 38)]
    {
        let text = format!("0303 Z 00 0000 00 {tail}");
        let h = split(&text);
        assert_eq!((h.ext, h.rest), (ext, rest));
        assert!(h.ciphers.is_empty() && h.comp.is_empty() && h.session_id.is_none());
        assert_eq!(refused(&text), Refused::NoCiphers(35));
        assert_eq!((refused(&text).number(), refused(&text).at()), (4, Some(35)));
    }
}

#[test]
fn rows_of_the_plain_refusals() {
    use PlainRefused::{Incomplete, LengthValue, Verify};
    let row7 = format!("0303 Z 20 {}", "aa".repeat(31));
    for (text, why, number) in [
        ("", Incomplete, 1),
        ("0303 Z 21", Verify, 3),
        (&*row7, Incomplete, 1),
        ("0303 Z 00 0001 00", LengthValue, 4),
        ("0303 Z 00 0002 00", LengthValue, 4),
        ("0303 Z 00 0000 01", LengthValue, 4),
        ("0303 Z 00 0000", Incomplete, 1),
        ("0303 Z 00 00", Incomplete, 1),
        ("0303 Z 00", Incomplete, 1),
        ("0303 Z", Incomplete, 1),
        ("03", Incomplete, 1),
        ("0303 Z 00 0001 00 00", LengthValue, 4),
        ("0303 Z 00 0003 002f00 00", LengthValue, 4),
        ("0303 Z 00 0002 002f", Incomplete, 1),
        ("0303 Z 00 0002 002f 01", LengthValue, 4),
        ("0303 Z 00 0002 002f 02 00", LengthValue, 4),
        ("0303 Z ff", Verify, 3),
        ("0303 Z 01", Incomplete, 1),
    ] {
        assert_eq!(plain(&bytes(text)), Err(why), "{text}");
        assert_eq!(refused(text), Refused::Plain(why), "{text}");
        assert_eq!((why.number(), refused(text).number()), (number, number), "{text}");
        assert_eq!(refused(text).at(), None, "{text}");
    }
}

#[test]
fn the_smallest_taken() {
    let h = hello(SMALLEST);
    let same = Hello {
        version: 0x0303,
        random: (2, 32),
        session_id: None,
        ciphers: vec![0x002f],
        comp: vec![0],
        ext: None,
        rest: 41,
    };
    assert_eq!(h, same);
    assert_eq!(hello(&format!("{SMALLEST} 0000")), Hello { ext: Some((43, 0)), rest: 43, ..h.clone() });
    assert_eq!(
        hello(&format!("{SMALLEST} 0004 00170000")),
        Hello { ext: Some((43, 4)), rest: 47, ..h.clone() }
    );
    // The contents of the block are not opened.
    assert_eq!(hello(&format!("{SMALLEST} 0001 ff")), Hello { ext: Some((43, 1)), rest: 44, ..h });
    let h = hello("0000 Z 02 aabb 0004 1301c02f 02 0100");
    assert_eq!((h.version, h.session_id, h.rest), (0, Some((35, 2)), 46));
    assert_eq!((h.ciphers, h.comp), (vec![0x1301, 0xc02f], vec![1, 0]));
}

#[test]
fn the_strict_refusals() {
    let id = "aa".repeat(32);
    for (text, why) in [
        (format!("{SMALLEST} 00"), Refused::Tail(41)),
        (format!("{SMALLEST} 0001"), Refused::Tail(41)),
        (format!("{SMALLEST} 0004 001700"), Refused::Tail(41)),
        (format!("{SMALLEST} 0000 00"), Refused::Tail(43)),
        (format!("{SMALLEST} 0004 00170000 00"), Refused::Tail(47)),
        ("0303 Z 00 0002 002f 00".into(), Refused::NoMethods(39)),
        ("0303 Z 00 0002 002f 00 00".into(), Refused::NoMethods(39)),
        ("0303 Z 00 0004 002f0035 00 0000 00".into(), Refused::NoMethods(41)),
        ("0303 Z 00 0000 01 00".into(), Refused::NoCiphers(35)),
        ("0303 Z 00 0000 01 00 ff".into(), Refused::NoCiphers(35)),
        (format!("0303 Z 20 {id} 0000 00"), Refused::NoCiphers(67)),
        (format!("0303 Z 20 {id} 0002 002f 00"), Refused::NoMethods(71)),
        (format!("0303 Z 20 {id} 0002 002f 01 00 00"), Refused::Tail(73)),
    ] {
        assert_eq!(refused(&text), why, "{text}");
        assert_eq!(refused(&text).number(), 4, "{text}");
    }
}

#[test]
fn each_prefix() {
    use PlainRefused::{Incomplete, LengthValue};
    let id = "aa".repeat(32);
    let body = bytes(&format!("0303 Z 20 {id} 0004 002f0035 02 0001 0004 00170000"));
    assert_eq!(body.len(), 82);
    for n in 0..=body.len() {
        let want = match n {
            0..=68 => Some(Refused::Plain(Incomplete)),
            69..=72 => Some(Refused::Plain(LengthValue)),
            73 => Some(Refused::Plain(Incomplete)),
            74 | 75 => Some(Refused::Plain(LengthValue)),
            77..=81 => Some(Refused::Tail(76)),
            _ => None,
        };
        assert_eq!(read(&body[..n]).err(), want, "{n}");
    }
}

#[test]
fn the_longest_taken() {
    let mut body = bytes(&format!("0303 Z 20 {} fffe", "aa".repeat(32)));
    body.extend(vec![1; 65_534]);
    body.push(255);
    body.extend(vec![2; 255]);
    body.extend([255; 2]);
    body.extend(vec![3; 65_535]);
    assert_eq!(body.len(), 131_396);
    let h = read(&body).expect("taken");
    assert_eq!((h.ciphers.len(), h.comp.len(), h.rest), (32_767, 255, 131_396));
    assert_eq!(joined(&body, &h), body);
    body.push(0);
    assert_eq!(read(&body), Err(Refused::Tail(131_396)));
}

/// All ends of up to seven bytes of a few values: what is taken joins to the body, and all of it.
#[test]
fn all_short_ends() {
    let values = [0, 1, 2, 3, 0x20, 0xff];
    let mut counts = [0_u32; 5];
    for front in ["0303 Z", "0303 Z 00", "0303 Z 01 aa 00", "0303 Z 00 0002 002f"] {
        let front = bytes(front);
        for len in 0..=7_u32 {
            for code in 0..6_usize.pow(len) {
                let mut body = front.clone();
                body.extend((0..len).map(|k| values[code / 6_usize.pow(k) % 6]));
                let whole = plain(&body);
                if let Ok(h) = &whole {
                    assert_eq!(joined(&body, h), body[..h.rest]);
                    if h.ext.is_none() {
                        let left = &body[h.rest..];
                        let none = left.len() < 2
                            || left.len() - 2 < usize::from(left[0]) * 256 + usize::from(left[1]);
                        assert!(none);
                    }
                }
                match (read(&body), whole) {
                    (Ok(h), Ok(same)) => {
                        assert_eq!(h, same);
                        assert_eq!(joined(&body, &h), body);
                        assert!(!h.ciphers.is_empty() && !h.comp.is_empty());
                        counts[0] += 1;
                    }
                    (Err(Refused::Plain(why)), Err(same)) => {
                        assert_eq!(why, same);
                        counts[1] += 1;
                    }
                    (Err(Refused::NoCiphers(at)), Ok(h)) => {
                        assert!(h.ciphers.is_empty());
                        assert_eq!(body[at..at + 2], [0, 0]);
                        counts[2] += 1;
                    }
                    (Err(Refused::NoMethods(at)), Ok(h)) => {
                        assert!(!h.ciphers.is_empty() && h.comp.is_empty());
                        assert_eq!(body[at], 0);
                        counts[3] += 1;
                    }
                    (Err(Refused::Tail(at)), Ok(h)) => {
                        assert!(!h.ciphers.is_empty() && !h.comp.is_empty());
                        assert!(at == h.rest && at < body.len());
                        counts[4] += 1;
                    }
                    (strict, plain) => panic!("{body:x?}: {strict:?}, {plain:?}"),
                }
            }
        }
    }
    println!("taken, plain, ciphers, methods, tail: {counts:?}");
    assert!(counts.iter().all(|n| *n > 0));
}
