//! Damaged copies of good inputs: by the row here, by chance in `harm`.

use super::collect::Cases;
use super::good::short_bodies;
use crate::bytes::{message, record};
use crate::rng::Rng;
use crate::table::record_type::HANDSHAKE;
use crate::table::{kind, MESSAGE, PLAINTEXT};

/// Short bodies cut at each place, alone and in messages and records that fit
/// them; messages and records cut without being told so.
pub fn add(cases: &mut Cases) {
    for (of, body) in short_bodies() {
        for n in (0..body.len()).filter(|n| telling(of, *n)) {
            cases.mostly(of, &body[..n]);
        }
        let message = message(of, &body);
        let record = record(HANDSHAKE, &message);
        (0..message.len()).step_by(3).for_each(|n| cases.add(MESSAGE, &message[..n]));
        (0..record.len()).step_by(4).for_each(|n| cases.add(PLAINTEXT, &record[..n]));
        off_by_one(cases, of, &body);
    }
}

/// Not inside the random of a ServerHello, where all places are alike.
fn telling(of: u8, at: usize) -> bool {
    of != kind::ServerHello || !(4..33).contains(&at)
}

/// Each byte of a body made one more and one less: lengths are among them.
fn off_by_one(cases: &mut Cases, of: u8, body: &[u8]) {
    for at in (0..body.len()).filter(|at| telling(of, *at)) {
        for change in [1u8, 255] {
            let mut copy = body.to_vec();
            copy[at] = copy[at].wrapping_add(change);
            cases.one(of, &copy);
        }
    }
}

/// One damage by chance: a byte changed, moved by one, put in, taken out, or
/// the end cut off or drawn out.
pub fn harm(rng: &mut Rng, input: &mut Vec<u8>) {
    let at = rng.below(input.len() + 1);
    match rng.below(8) {
        0 => input.insert(at, rng.byte()),
        1 => input.truncate(at),
        2 => input.truncate(input.len().saturating_sub(1)),
        3 => input.push(rng.byte()),
        _ if at == input.len() => input.push(0),
        4 => drop(input.remove(at)),
        5 => input[at] = rng.byte(),
        6 => input[at] = input[at].wrapping_add(1),
        _ => input[at] = input[at].wrapping_sub(1),
    }
}
