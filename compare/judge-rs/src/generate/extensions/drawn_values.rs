//! Drawn extensions to be written, and those of blocks that were read.

use super::super::damage::harm;
use super::drawn;
use super::items::name;
use crate::account::extensions_written::{one, values, Value};
use crate::bytes::run;
use crate::case::Case;
use crate::extension::{said, said_row, Name};
use crate::rng::Rng;
use crate::table::{GEN_EXTENSION, GEN_EXTENSIONS, GEN_SERVER_NAME};

/// One in so many is long.
const LONG: usize = 512;

/// A value with bytes of its own.
struct Drawn {
    kind: Kind,
    bytes: Vec<u8>,
}

enum Kind {
    Names,
    Fragment(u8),
    Groups,
    Raw(u16),
}

impl Drawn {
    fn value(&self) -> Value<'_> {
        match self.kind {
            Kind::Names => Value::Names(&self.bytes),
            Kind::Fragment(value) => Value::Fragment(value),
            Kind::Groups => Value::Groups(&self.bytes),
            Kind::Raw(of) => Value::Raw(of, &self.bytes),
        }
    }
}

/// One case; `real` are blocks of hellos.
pub fn draw(rng: &mut Rng, real: &[Vec<u8>]) -> Case {
    let (function, input) = match rng.below(12) {
        _ if rng.below(LONG) == 0 => long(rng),
        0 => {
            let n = rng.below(40);
            (GEN_SERVER_NAME, Name { of: rng.byte() % 4, name: &rng.bytes(n) }.bytes())
        }
        1..=3 => (GEN_EXTENSION, said(&drawn_value(rng).value())),
        4 | 5 => (GEN_EXTENSIONS, read(rng, real)),
        _ => (GEN_EXTENSIONS, rows(rng)),
    };
    Case { function, length: None, input }
}

/// Up to six values; a row without raw ones in three of four.
fn rows(rng: &mut Rng) -> Vec<u8> {
    let many = rng.below(7);
    let mut all: Vec<Drawn> = (0..many).map(|_| opened(rng)).collect();
    if rng.below(4) == 0 {
        let at = rng.below(all.len() + 1);
        all.insert(at, raw(rng));
    }
    said_row(&all.iter().map(Drawn::value).collect::<Vec<_>>())
}

/// The values of a drawn block that is taken; it is drawn until one is.
fn read(rng: &mut Rng, real: &[Vec<u8>]) -> Vec<u8> {
    loop {
        let block = drawn::draw(rng, real);
        if let Ok(values) = values(&block) {
            let without_raw = values.iter().copied().filter(|value| !matches!(value, Value::Raw(..)));
            let values = if rng.below(2) == 0 { without_raw.collect() } else { values };
            return said_row(&values);
        }
    }
}

fn drawn_value(rng: &mut Rng) -> Drawn {
    if rng.below(8) == 0 {
        return raw(rng);
    }
    opened(rng)
}

fn raw(rng: &mut Rng) -> Drawn {
    let of = if rng.below(2) == 0 { *rng.pick(&[0, 1, 10, 23, 0x0a0a]) } else { rng.number() as u16 };
    let n = rng.below(8);
    Drawn { kind: Kind::Raw(of), bytes: rng.small_bytes(n) }
}

/// Names that do not fill their list, and odd groups, in one of 24.
fn opened(rng: &mut Rng) -> Drawn {
    match rng.below(3) {
        0 => {
            let mut bytes = names(rng);
            if rng.below(24) == 0 {
                harm(rng, &mut bytes);
            }
            Drawn { kind: Kind::Names, bytes }
        }
        1 => Drawn { kind: Kind::Fragment(rng.byte()), bytes: Vec::new() },
        _ => {
            let n = 2 * rng.below(8) + usize::from(rng.below(24) == 0);
            Drawn { kind: Kind::Groups, bytes: rng.bytes(n) }
        }
    }
}

fn names(rng: &mut Rng) -> Vec<u8> {
    let mut list = Vec::new();
    for _ in 0..rng.below(4) {
        let of = if rng.below(4) == 0 { rng.byte() } else { 0 };
        let n = if rng.below(8) == 0 { rng.below(300) } else { rng.below(8) };
        list.extend(name(of, &rng.bytes(n)));
    }
    list
}

/// Lengths round the most that they can be: of a name, of one extension, and of a row that ends with
/// a long list.
fn long(rng: &mut Rng) -> (&'static str, Vec<u8>) {
    let round = |rng: &mut Rng, n: usize| n - 4 + rng.below(9);
    match rng.below(4) {
        0 => {
            let n = round(rng, 65_535);
            (GEN_SERVER_NAME, Name { of: rng.byte(), name: &run(rng.byte(), n) }.bytes())
        }
        1 => {
            let list = name(0, &run(rng.byte(), round(rng, 65_530)));
            (GEN_EXTENSION, said(&Value::Names(&list)))
        }
        2 => (GEN_EXTENSION, said(&Value::Groups(&run(rng.byte(), round(rng, 65_534))))),
        _ => {
            let before: Vec<Drawn> = (0..rng.below(4)).map(|_| drawn_value(rng)).collect();
            let mut all: Vec<Value> = before.iter().map(Drawn::value).collect();
            let used: usize = all.iter().filter_map(|value| one(value).ok()).map(|text| text.len()).sum();
            let left = round(rng, 65_535 - used);
            let list = name(0, &run(rng.byte(), left - 9));
            let groups = run(rng.byte(), left - 6);
            all.push(if rng.below(2) == 0 { Value::Names(&list) } else { Value::Groups(&groups) });
            (GEN_EXTENSIONS, said_row(&all))
        }
    }
}
