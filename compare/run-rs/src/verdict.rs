//! What a comparison finds.

use crate::listed::Listed;

#[derive(Clone, Copy, PartialEq, Eq)]
pub enum Verdict {
    /// The same answer; its first number.
    Same(u64),
    /// Another answer, and the one that the list has for it; its first number.
    Listed(Listed, u64),
    /// Another answer that is on no list, or a panic.
    Differs,
}

impl Verdict {
    /// Whether the answer, the same or the list's, is no refusal.
    pub fn is_accepted(self) -> bool {
        matches!(self, Verdict::Same(0) | Verdict::Listed(_, 0))
    }
}
