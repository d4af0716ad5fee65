//! An answer as numbers: parts are told by their place in the input.

pub struct Sheet<'a> {
    input: &'a [u8],
    numbers: &'a mut Vec<u64>,
}

impl<'a> Sheet<'a> {
    /// Numbers behind those that are there.
    pub fn new(input: &'a [u8], numbers: &'a mut Vec<u64>) -> Self {
        Sheet { input, numbers }
    }

    pub fn number(&mut self, n: impl Into<u64>) {
        self.numbers.push(n.into());
    }

    pub fn size(&mut self, n: usize) {
        self.number(n as u64);
    }

    /// Where a part begins, by its address; one outside the input stops the run.
    pub fn place(&mut self, part: &[u8]) {
        let first = self.input.as_ptr() as usize;
        let at = (part.as_ptr() as usize).wrapping_sub(first);
        let inside = at <= self.input.len() && part.len() <= self.input.len() - at;
        assert!(inside, "a part of {} bytes outside the input", part.len());
        self.size(at);
    }

    pub fn part(&mut self, part: &[u8]) {
        self.place(part);
        self.size(part.len());
    }

    pub fn optional_part(&mut self, part: Option<&[u8]>) {
        self.number(u8::from(part.is_some()));
        if let Some(part) = part {
            self.part(part);
        }
    }

    pub fn list(&mut self, items: impl ExactSizeIterator<Item = u64>) {
        self.size(items.len());
        self.numbers.extend(items);
    }

    pub fn parts<'b>(&mut self, items: impl ExactSizeIterator<Item = &'b [u8]>) {
        self.size(items.len());
        for item in items {
            self.part(item);
        }
    }
}
