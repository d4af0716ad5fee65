//! An answer as numbers: parts are told by their place in the input.

/// The place of a part that lies outside the input.
const OUTSIDE: u64 = u64::MAX;

pub struct Sheet<'a> {
    input: &'a [u8],
    pub numbers: Vec<u64>,
}

impl<'a> Sheet<'a> {
    pub fn new(input: &'a [u8]) -> Self {
        Sheet { input, numbers: Vec::new() }
    }

    pub fn number(&mut self, n: impl Into<u64>) {
        self.numbers.push(n.into());
    }

    pub fn size(&mut self, n: usize) {
        self.numbers.push(n as u64);
    }

    /// Where a part begins, by its address.
    pub fn place(&mut self, part: &[u8]) {
        let at = (part.as_ptr() as usize).wrapping_sub(self.input.as_ptr() as usize);
        let inside = at <= self.input.len() && part.len() <= self.input.len() - at;
        self.numbers.push(if inside { at as u64 } else { OUTSIDE });
    }

    pub fn part(&mut self, part: &[u8]) {
        self.place(part);
        self.size(part.len());
    }

    pub fn optional_part(&mut self, part: Option<&[u8]>) {
        self.number(part.is_some());
        if let Some(part) = part {
            self.part(part);
        }
    }
}
