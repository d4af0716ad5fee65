//! Extension blocks, and extensions to be written: each first those that are the same for every
//! seed, then drawn ones without end.

mod blocks;
mod drawn;
mod drawn_values;
mod items;
mod real;
mod values;

use super::collect::Cases;
use crate::case::Case;
pub use drawn::draw as draw_block;
pub use drawn_values::draw as draw_value;
pub use real::blocks as real_blocks;

pub fn fixed_blocks() -> Vec<Case> {
    let mut cases = Cases::default();
    blocks::add(&mut cases);
    cases.list
}

pub fn fixed_values() -> Vec<Case> {
    let mut cases = Cases::default();
    values::add(&mut cases);
    cases.list
}
