//! How exact the ClientHellos of a reading that is accepted are, by the account of the strict one,
//! which looks at their bytes.

use crate::account::strict::{strict, Refused};
use crate::account::walked;
use crate::case::Case;
use crate::table::*;

/// What is said of a hello, by its number.
pub const SAID: [&str; 4] = ["exact", "without ciphers", "without methods", "with a tail"];
pub const EXACT: u64 = 0;
pub const NO_CIPHERS: u64 = 1;
pub const NO_METHODS: u64 = 2;
pub const HAS_TAIL: u64 = 3;

/// The number of each ClientHello in its order, put behind those that are there. Panics where the
/// account does not split one.
pub fn read(case: &Case, to: &mut Vec<u64>) {
    bodies(case).into_iter().for_each(|body| to.push(number(body)));
}

fn number(body: &[u8]) -> u64 {
    match strict(body) {
        Ok(_) => EXACT,
        Err(Refused::NoCiphers(_)) => NO_CIPHERS,
        Err(Refused::NoMethods(_)) => NO_METHODS,
        Err(Refused::Tail(_)) => HAS_TAIL,
        Err(Refused::Plain(why)) => panic!("{why:?} by the account, of a hello that is read"),
    }
}

/// The bodies of the ClientHellos.
fn bodies(case: &Case) -> Vec<&[u8]> {
    let i = &case.input[..];
    match case.function {
        CLIENT_HELLO | CLIENT_HELLO_STRICT | MSG_CLIENT_HELLO | MSG_CLIENT_HELLO_STRICT => vec![i],
        MESSAGE => hellos(i, 1),
        PLAINTEXT if i.first() == Some(&record_type::HANDSHAKE) => hellos(&i[5..], walked(case).0),
        _ => Vec::new(),
    }
}

/// Those of so many messages at the front.
fn hellos(mut left: &[u8], messages: usize) -> Vec<&[u8]> {
    let mut all = Vec::new();
    for _ in 0..messages {
        let [of, high, middle, low, behind @ ..] = left else { panic!("no message") };
        let (body, rest) = behind.split_at(u32::from_be_bytes([0, *high, *middle, *low]) as usize);
        if *of == kind::ClientHello {
            all.push(body);
        }
        left = rest;
    }
    all
}
