//! A lent room between bytes that are not lent, all of them known before the call.

/// As many bytes before the room and behind it.
const GUARD: usize = 64;

#[derive(Default)]
pub struct Room {
    bytes: Vec<u8>,
    /// What the bytes were before the call, and that with each bit turned.
    fills: [Vec<u8>; 2],
    turn: usize,
    lent: usize,
}

impl Room {
    /// Fills all bytes anew, with the other fill of the two, and lends `n` of them.
    pub fn lend(&mut self, n: usize) -> &mut [u8] {
        let all = n + 2 * GUARD;
        self.grow(all);
        self.turn = 1 - self.turn;
        self.lent = n;
        self.bytes[..all].copy_from_slice(&self.fills[self.turn][..all]);
        &mut self.bytes[GUARD..GUARD + n]
    }

    fn grow(&mut self, all: usize) {
        if self.bytes.len() < all {
            self.bytes.resize(all, 0);
            self.fills[0] = (0..all).map(fill).collect();
            self.fills[1] = (0..all).map(|k| !fill(k)).collect();
        }
    }

    /// The first `n` bytes of the room.
    pub fn first(&self, n: usize) -> &[u8] {
        &self.bytes[GUARD..GUARD + n.min(self.lent)]
    }

    /// Whether the first bytes of the room are `text` and all others as they were.
    pub fn holds(&self, text: &[u8]) -> bool {
        let end = GUARD + text.len();
        text.len() <= self.lent
            && &self.bytes[GUARD..end] == text
            && self.kept(0, GUARD)
            && self.kept_from(end)
    }

    /// Whether no byte has changed.
    pub fn is_kept(&self) -> bool {
        self.kept_from(0)
    }

    /// The place in the room of the first byte that changed at or behind `from`;
    /// one before the room has a negative place.
    pub fn changed(&self, from: usize) -> Option<isize> {
        let front = 0..GUARD;
        let behind = GUARD + from..self.lent + 2 * GUARD;
        let at = front.chain(behind).find(|k| !self.kept(*k, *k + 1))?;
        Some(at as isize - GUARD as isize)
    }

    fn kept_from(&self, from: usize) -> bool {
        self.kept(from, self.lent + 2 * GUARD)
    }

    fn kept(&self, from: usize, to: usize) -> bool {
        self.bytes[from..to] == self.fills[self.turn][from..to]
    }
}

/// A byte that tells its place.
fn fill(k: usize) -> u8 {
    (k.wrapping_mul(0x9e37_79b9) >> 13) as u8
}
