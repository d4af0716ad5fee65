//! Messages as they stand on the wire, to be read and written again: those of the
//! reading cases that are accepted, of every kind.

use super::super::{collect::Cases, fixed, good as inputs};
use crate::case::Case;
use crate::table::{GEN_MESSAGE, MESSAGE};
use crate::write;

pub fn add(cases: &mut Cases) {
    accepted(&fixed()).for_each(|input| cases.add(GEN_MESSAGE, input));
}

/// Good messages, to be damaged.
pub fn good() -> Vec<Vec<u8>> {
    accepted(&inputs::cases()).map(<[u8]>::to_vec).collect()
}

fn accepted(cases: &[Case]) -> impl Iterator<Item = &[u8]> {
    cases.iter().filter(|c| c.function == MESSAGE).map(|c| &c.input[..]).filter(|i| is_message(i))
}

pub fn is_message(i: &[u8]) -> bool {
    write::message(i).is_some()
}
