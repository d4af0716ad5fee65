//! `norrabist.h` declares what the archive exports, function by function and field by field, has
//! the names of the table of refusals, and compiles in C and in C++ without a warning, links and
//! answers.

#[path = "support/programs.rs"]
mod programs;
#[path = "support/rattle.rs"]
mod rattle;

use programs::{compiled, printed, HERE, LANGUAGES};
use rattle::{text, Typed};
use std::path::Path;
use std::process::Stdio;

#[test]
fn every_function_answers_in_c_and_in_cpp() {
    for language in LANGUAGES {
        let said = printed(&compiled("tests/header.c", language), &[], Stdio::null());
        let version = format!("version {}: ", env!("CARGO_PKG_VERSION"));
        assert!(said.starts_with(&version) && said.ends_with(" facts hold\n"), "{said}");
    }
}

/// The header without its comments and what the preprocessor takes, each blank one space.
fn header() -> String {
    let all = text(&Path::new(HERE).join("norrabist.h"));
    let behind = all.split("*/").map(|part| part.split("/*").next().unwrap_or(part));
    let code: String = behind.collect();
    let lines = code.lines().filter(|line| !line.starts_with('#'));
    lines.flat_map(str::split_whitespace).collect::<Vec<_>>().join(" ")
}

/// `client_hello` of `ClientHello`.
fn snake(name: &str) -> String {
    let letters = name.chars().enumerate();
    letters.fold(String::new(), |mut all, (k, letter)| {
        all.extend((k > 0 && letter.is_ascii_uppercase()).then_some('_'));
        all.push(letter.to_ascii_lowercase());
        all
    })
}

/// The type in C of a type in Rattle, with what stands between it and a name.
fn c_type(of: &str) -> String {
    match of {
        "u8" | "u16" | "u32" => format!("uint{}_t ", &of[1..]),
        "usize" => "size_t ".into(),
        "bool" => "bool ".into(),
        "&[u8]" => "const uint8_t *".into(),
        "&mut [u8]" => "uint8_t *".into(),
        told => format!("norrabist_{} ", snake(told)),
    }
}

/// `const uint8_t *i, size_t i_len` of `i: &[u8]`.
fn parameter((name, of): &Typed) -> String {
    let length = if of.ends_with(']') { format!(", size_t {name}_len") } else { String::new() };
    format!("{}{name}{length}", c_type(of))
}

/// All of a list, one behind the other.
fn joined(list: &[Typed], between: &str) -> String {
    list.iter().map(parameter).collect::<Vec<_>>().join(between)
}

/// The pieces of a list in C, without blanks round them.
fn pieces(list: &str, between: char) -> impl Iterator<Item = &str> {
    list.split(between).map(str::trim).filter(|piece| !piece.is_empty())
}

fn sorted(all: impl Iterator<Item = String>) -> Vec<String> {
    let mut all: Vec<_> = all.collect();
    all.sort();
    all
}

#[test]
fn the_header_declares_the_exports() {
    let exports = rattle::exports().into_iter().map(|export| {
        let parameters = joined(&export.parameters, ", ");
        format!("{}{}({parameters})", c_type(&export.answer), export.name)
    });
    let header = header();
    let pieces = header.split([';', '{', '}']).map(str::trim);
    let declared = pieces.filter(|piece| piece.ends_with(')') && piece.contains(" norrabist_"));
    let own = |piece: &&str| !["static ", "return ", "NORRABIST_"].iter().any(|w| piece.starts_with(w));
    let declared = declared.filter(own).map(|piece| piece.replace("( ", "("));
    assert_eq!(sorted(declared), sorted(exports));
}

#[test]
fn the_header_has_the_structs_of_the_exports() {
    let exported = rattle::told().into_iter();
    let exported =
        exported.map(|told| format!("norrabist_{}: {}", snake(&told.name), joined(&told.fields, "; ")));
    let header = header();
    let declared = header.split("typedef struct ").skip(1).map(|told| {
        let (name, rest) = told.split_once(" {").expect("fields");
        let (fields, behind) = rest.split_once("} ").expect("an end");
        assert!(behind.starts_with(&format!("{name}; NORRABIST_HAS_SIZE({name}, ")), "{name}");
        format!("{name}: {}", pieces(fields, ';').collect::<Vec<_>>().join("; "))
    });
    assert_eq!(sorted(declared), sorted(exported));
}

/// The numbers and names of the table of RULES 1.1, as the header has them.
#[test]
fn the_header_has_the_table_of_refusals() {
    let (rules, header) = (text(&Path::new(HERE).join("../docs/RULES.md")), header());
    let rows = rules.lines().filter_map(|line| line.strip_prefix("| ")?.split_once(" | "));
    let rows = rows.filter_map(|(number, row)| Some((number.parse::<u8>().ok()?, row)));
    let (_, of) = header.split_once("enum norrabist_reason { ").expect("the enum");
    let table: Vec<_> = pieces(of.split_once(" }").expect("its end").0, ',').collect();
    let mut numbers = Vec::new();
    for ((number, row), told) in rows.take(table.len()).zip(&table) {
        let name = row.split([' ', '|']).next().expect("a name");
        let constant = format!("NORRABIST_{}", snake(name).to_uppercase());
        assert_eq!(*told, format!("{constant} = {number}"));
        assert!(header.contains(&format!("case {constant}: return \"{name}\";")), "{name}");
        numbers.push(number);
    }
    assert!(numbers.into_iter().eq((0..=12).filter(|number| *number != 10)));
    assert_eq!((table.len(), header.matches("case NORRABIST_").count()), (12, 12));
}
