//! The cases of the writers: first those that are the same for every seed, then drawn ones without
//! end. All lie in the domain (domain.rs).

mod chance;
mod contents;
mod hellos;
mod messages;
mod others;
mod records;

use super::collect::Cases;
use crate::case::Case;
pub use chance::draw;
pub use messages::good as good_messages;

/// The edges of every part of every kind.
pub fn fixed() -> Vec<Case> {
    let mut cases = Cases::default();
    hellos::add(&mut cases);
    others::add(&mut cases);
    records::add(&mut cases);
    contents::add(&mut cases);
    messages::add(&mut cases);
    cases.list
}
