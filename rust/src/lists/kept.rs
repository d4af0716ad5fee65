//! Lists that are made of a `Vec`.
//!
//! A list borrows its bytes, and has nothing to drop: a message that is read stays a value of plain
//! words. An owned form beside the borrowed one was measured (`MOVING.md`): readers of messages took
//! a fifth to two thirds more instructions. So the bytes of a made-up list are kept until the
//! program ends, each list once.

use super::fixed::Fixed;
use super::List;
use alloc::collections::BTreeSet;
use alloc::vec::Vec;
use std::sync::{Mutex, PoisonError};

/// The bytes of every list that was made.
static KEPT: Mutex<BTreeSet<&'static [u8]>> = Mutex::new(BTreeSet::new());

/// These bytes, for as long as the program runs.
fn kept(wire: Vec<u8>) -> &'static [u8] {
    let mut kept = KEPT.lock().unwrap_or_else(PoisonError::into_inner);
    match kept.get(&wire[..]) {
        Some(known) => known,
        None => {
            let new: &'static [u8] = wire.leak();
            kept.insert(new);
            new
        }
    }
}

/// A list to be written. Its bytes are kept until the program ends: the memory is not given back.
///
/// Equal lists share it. A program that makes lists without end, each another one, lends the bytes
/// instead, and nothing is kept: [`List::encode`] and [`List::new`].
impl<T: Fixed> From<Vec<T>> for List<'_, T> {
    fn from(items: Vec<T>) -> Self {
        List::new(kept(List::encode(&items)))
    }
}

/// A list to be written, kept as one that is made of a `Vec`.
impl<T: Fixed> From<&[T]> for List<'_, T> {
    fn from(items: &[T]) -> Self {
        List::new(kept(List::encode(items)))
    }
}

/// A list to be written, kept as one that is made of a `Vec`.
impl<T: Fixed, const N: usize> From<[T; N]> for List<'_, T> {
    fn from(items: [T; N]) -> Self {
        List::new(kept(List::encode(&items)))
    }
}

/// A list to be written, kept as one that is made of a `Vec`.
impl<T: Fixed> FromIterator<T> for List<'_, T> {
    fn from_iter<I: IntoIterator<Item = T>>(items: I) -> Self {
        List::from(Vec::from_iter(items))
    }
}
