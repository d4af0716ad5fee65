//! tls-parser's answer to a case.

use crate::table::{self, is_writer, refusal as number};
use crate::{case::Case, sheet::Sheet, values::Told, write};
use tls_parser::nom::error::{Error, ErrorKind};
use tls_parser::*;

/// The numbers of the answer. Panics where tls-parser says what the text cannot.
pub fn answer(case: &Case) -> Vec<u64> {
    if is_writer(case.function) {
        return write::answer(case);
    }
    let mut numbers = Vec::new();
    read(case, &mut numbers);
    numbers
}

/// The numbers of a reader's answer, put behind those that are there.
pub fn read(case: &Case, to: &mut Vec<u64>) {
    let length = usize::try_from(case.length.unwrap_or(0)).expect("a length of 64 bits");
    table::read(case.function, &case.input, length, to);
}

/// 0, the place of the rest and the values; or the number of the refusal alone.
pub fn told<T: Told>(to: &mut Vec<u64>, input: &[u8], got: IResult<&[u8], T>) {
    told_by(to, input, got.map_err(|refused| refusal_of(&refused)));
}

/// The same of what is left and a value, or the number of a refusal.
pub fn told_by<T: Told>(to: &mut Vec<u64>, input: &[u8], got: Result<(&[u8], T), u64>) {
    let mut sheet = Sheet::new(input, to);
    match got {
        Ok((rest, value)) => {
            sheet.number(0u8);
            sheet.place(rest);
            value.told(&mut sheet);
        }
        Err(number) => sheet.number(number),
    }
}

/// Of a writing 0, how many bytes and each of them; or the number of the refusal alone.
pub fn wrote(to: &mut Vec<u64>, text: Result<Vec<u8>, u64>) {
    match text {
        Ok(bytes) => {
            to.extend([0, bytes.len() as u64]);
            to.extend(bytes.into_iter().map(u64::from));
        }
        Err(number) => to.push(number),
    }
}

pub fn refusal_of(refused: &Err<Error<&[u8]>>) -> u64 {
    match refused {
        Err::Incomplete(_) => number::INCOMPLETE,
        Err::Error(e) | Err::Failure(e) => match e.code {
            ErrorKind::Complete => number::COMPLETE,
            ErrorKind::Verify => number::VERIFY,
            ErrorKind::LengthValue => number::LENGTH_VALUE,
            ErrorKind::Tag => number::TAG,
            ErrorKind::Switch => number::SWITCH,
            ErrorKind::TooLarge => number::TOO_LARGE,
            ErrorKind::Many1 => number::MANY1,
            other => panic!("a refusal without a number: {other:?}"),
        },
    }
}
