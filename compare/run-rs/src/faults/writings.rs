//! Faults of the writers: each changes the room or the answer of some calls.

use super::Wrote;
use judge::case::Case;
use judge::table::refusal::{BAD_LENGTH, NOT_YET_IMPLEMENTED, NO_ROOM, TOO_LARGE};
use judge::table::*;

pub fn byte(case: &Case, _: &[u8], room: &mut [u8], wrote: Wrote) -> Wrote {
    if let (GEN_CLIENT_HELLO, Ok(n)) = (case.function, wrote) {
        room[n - 1] ^= 1;
    }
    wrote
}

pub fn behind(case: &Case, _: &[u8], room: &mut [u8], wrote: Wrote) -> Wrote {
    if let (GEN_FINISHED, Ok(n)) = (case.function, wrote) {
        room.iter_mut().skip(n).take(1).for_each(|b| *b = 0);
    }
    wrote
}

pub fn count(case: &Case, _: &[u8], _: &mut [u8], wrote: Wrote) -> Wrote {
    wrote.map(|n| n + usize::from(case.function == GEN_DRAFT_18))
}

pub fn fits(case: &Case, before: &[u8], room: &mut [u8], wrote: Wrote) -> Wrote {
    if case.function == GEN_CLIENT_KEY && wrote == Ok(room.len()) {
        room.copy_from_slice(before);
        return Err(NO_ROOM);
    }
    wrote
}

pub fn touched(case: &Case, _: &[u8], room: &mut [u8], wrote: Wrote) -> Wrote {
    if case.function == GEN_PLAINTEXT && wrote == Err(NO_ROOM) {
        room[0] = !room[0];
    }
    wrote
}

pub fn cut(case: &Case, _: &[u8], room: &mut [u8], wrote: Wrote) -> Wrote {
    if case.function == GEN_SERVER_HELLO && wrote == Err(BAD_LENGTH) {
        return Ok(room.len().min(4));
    }
    wrote
}

pub fn large(_: &Case, _: &[u8], _: &mut [u8], wrote: Wrote) -> Wrote {
    wrote.map_err(|number| if number == TOO_LARGE { BAD_LENGTH } else { number })
}

/// Of a message.
pub fn order(case: &Case, _: &[u8], room: &mut [u8], wrote: Wrote) -> Wrote {
    let is_message = [GEN_MESSAGE, GEN_ANY].contains(&case.function);
    if is_message && wrote == Err(NOT_YET_IMPLEMENTED) && room.is_empty() {
        return Err(NO_ROOM);
    }
    wrote
}

pub fn cipher_spec(case: &Case, _: &[u8], room: &mut [u8], wrote: Wrote) -> Wrote {
    if case.function == GEN_CIPHER_SPEC && wrote == Ok(1) {
        room[0] = record_type::CHANGE_CIPHER_SPEC;
    }
    wrote
}

pub fn backwards(case: &Case, _: &[u8], room: &mut [u8], wrote: Wrote) -> Wrote {
    if case.function == GEN_ANY && wrote == Ok(2) {
        room.swap(0, 1);
    }
    wrote
}

pub fn level(case: &Case, _: &[u8], room: &mut [u8], wrote: Wrote) -> Wrote {
    if case.function == GEN_ANY && wrote == Err(BAD_LENGTH) && room.len() < 2 {
        return Err(NO_ROOM);
    }
    wrote
}

pub fn data(case: &Case, _: &[u8], _: &mut [u8], wrote: Wrote) -> Wrote {
    if case.function == GEN_ANY && case.input[0] == record_type::APPLICATION_DATA {
        return Err(BAD_LENGTH);
    }
    wrote
}
