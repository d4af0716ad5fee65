//! Fewer and smaller bytes.

use super::{Smallest, SHORT};

impl Smallest<'_> {
    /// Leaves out pieces, of all the bytes first, then of half of them, and so on.
    pub fn leave_out(&mut self, part: usize) {
        let mut size = self.bytes(part).len();
        while size > 0 {
            let mut at = 0;
            while at < self.bytes(part).len() {
                let mut bytes = self.bytes(part).to_vec();
                bytes.drain(at..(at + size).min(bytes.len()));
                if !self.tried_part(part, bytes) {
                    at += size;
                }
            }
            size /= 2;
        }
    }

    /// Makes pieces zero, likewise.
    pub fn zero(&mut self, part: usize) {
        let len = self.bytes(part).len();
        let mut size = len;
        while size > 0 {
            for at in (0..len).step_by(size) {
                let mut bytes = self.bytes(part).to_vec();
                let piece = at..(at + size).min(len);
                if bytes[piece.clone()].iter().any(|b| *b > 0) {
                    bytes[piece].fill(0);
                    self.tried_part(part, bytes);
                }
            }
            size /= 2;
        }
    }

    /// Makes single bytes smaller.
    pub fn lower(&mut self, part: usize) {
        if self.bytes(part).len() > SHORT {
            return;
        }
        for at in 0..self.bytes(part).len() {
            while self.bytes(part)[at] > 0 {
                let mut bytes = self.bytes(part).to_vec();
                bytes[at] /= 2;
                let mut one_less = self.bytes(part).to_vec();
                one_less[at] -= 1;
                if !self.tried_part(part, bytes) && !self.tried_part(part, one_less) {
                    break;
                }
            }
        }
    }
}
