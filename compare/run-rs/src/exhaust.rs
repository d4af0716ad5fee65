//! Every short input of the readers.

use crate::families::{all, Family, Frame};
use judge::bytes::{counted, join, message, record};
use judge::case::Case;
use judge::table::{is_sized, longest};
use std::io;

type Out<'a> = &'a mut dyn FnMut(&Case) -> io::Result<()>;

pub fn run(out: Out) -> io::Result<()> {
    for family in all() {
        for function in family.functions {
            every(&family, function, out)?;
        }
    }
    Ok(())
}

/// Every input of the family for a function; with every length where it takes one.
fn every(family: &Family, function: &'static str, out: Out) -> io::Result<()> {
    let sized = family.lengths.iter().copied().filter(|n| *n <= longest(function)).map(Some);
    let lengths: Vec<Option<u64>> = if is_sized(function) { sized.collect() } else { vec![None] };
    for n in 0..=family.most {
        let mut case = Case { function, length: None, input: family.first(n) };
        let mut digits = vec![0; n];
        loop {
            for length in &lengths {
                case.length = *length;
                out(&case)?;
            }
            let at = case.input.len() - n;
            if !turn(&mut digits, &mut case.input[at..], family.letters) {
                break;
            }
        }
    }
    Ok(())
}

/// The next word over the letters; false after the last, with the first again.
fn turn(digits: &mut [usize], word: &mut [u8], letters: &[u8]) -> bool {
    for (digit, byte) in digits.iter_mut().zip(word).rev() {
        *digit = (*digit + 1) % letters.len();
        *byte = letters[*digit];
        if *digit > 0 {
            return true;
        }
    }
    false
}

impl Family {
    /// The first input with `n` letters: of all those bytes the last.
    fn first(&self, n: usize) -> Vec<u8> {
        let word = [&self.before[..], &vec![self.letters[0]; n]].concat();
        match self.frame {
            Frame::Bare => word,
            Frame::Message(handshake_type) => message(handshake_type, &word),
            Frame::Record(record_type) => record(record_type, &word),
            Frame::Item(of) => join(&[&of.to_be_bytes(), &counted(2, &word)]),
            Frame::SecondItem(of) => join(&[&[0, 1, 0, 1, 3], &of.to_be_bytes(), &counted(2, &word)]),
        }
    }
}
