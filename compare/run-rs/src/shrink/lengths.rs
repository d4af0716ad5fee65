//! Fewer bytes behind smaller lengths.

use super::{Smallest, SHORT};
use judge::bytes::be;

/// Lengths that stand in each other, and how many places are tried for each.
const LENGTHS: usize = 3;
const CHOICES: usize = 12;

impl Smallest<'_> {
    /// Leaves out pieces and makes up to three numbers before them less by as much: they
    /// may be lengths.
    pub fn lower_and_leave_out(&mut self, part: usize) {
        let mut size = self.bytes(part).len() / 2;
        while size > 0 && !self.is_late() {
            let places = (self.bytes(part).len() / size).min(SHORT);
            for place in 1..=places {
                let mut bytes = self.bytes(part).to_vec();
                if let Some(at) = bytes.len().checked_sub(place * size) {
                    bytes.drain(at..at + size);
                    self.lower_before(part, &bytes, at, size, LENGTHS);
                }
            }
            size /= 2;
        }
    }

    fn lower_before(&mut self, part: usize, bytes: &[u8], before: usize, by: usize, lengths: usize) -> bool {
        if self.is_late() {
            return false;
        }
        let some: Vec<_> =
            (0..before).filter_map(|at| Some((at, less(bytes, at, by)?))).take(CHOICES).collect();
        some.into_iter().any(|(at, bytes)| {
            let more = lengths > 1;
            more && self.lower_before(part, &bytes, at, by, lengths - 1) || self.tried_part(part, bytes)
        })
    }
}

/// The bytes with the number of up to three that ends at `at` less by so much.
fn less(bytes: &[u8], at: usize, by: usize) -> Option<Vec<u8>> {
    let first = at.saturating_sub(2);
    let number = bytes[first..=at].iter().fold(0, |n, b| n << 8 | usize::from(*b)).checked_sub(by)?;
    let mut out = bytes.to_vec();
    out[first..=at].copy_from_slice(&be(at + 1 - first, number));
    Some(out)
}
