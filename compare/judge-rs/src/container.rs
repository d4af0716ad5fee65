//! A value as bytes: its numbers and the lengths of all its parts first, then the
//! parts, in one order.

use crate::bytes::{be, join};

#[derive(Default)]
pub struct Said {
    head: Vec<u8>,
    parts: Vec<u8>,
}

impl Said {
    pub fn number(&mut self, width: usize, n: impl Into<u64>) {
        self.head.extend(be(width, n.into() as usize));
    }

    pub fn part(&mut self, part: &[u8]) {
        self.number(4, part.len() as u64);
        self.parts.extend(part);
    }

    pub fn optional(&mut self, part: Option<&[u8]>) {
        self.number(1, part.is_some());
        self.part(part.unwrap_or(&[]));
    }

    pub fn bytes(self) -> Vec<u8> {
        join(&[&self.head, &self.parts])
    }
}

pub struct Heard<'a> {
    head: &'a [u8],
    parts: &'a [u8],
}

impl<'a> Heard<'a> {
    /// The numbers and lengths take `head` bytes.
    pub fn new(i: &'a [u8], head: usize) -> Self {
        let (head, parts) = i.split_at(head);
        Heard { head, parts }
    }

    pub fn number(&mut self, width: usize) -> usize {
        let (bytes, rest) = self.head.split_at(width);
        self.head = rest;
        bytes.iter().fold(0, |n, b| n << 8 | usize::from(*b))
    }

    pub fn part(&mut self) -> &'a [u8] {
        let n = self.number(4);
        let (part, rest) = self.parts.split_at(n);
        self.parts = rest;
        part
    }

    pub fn optional(&mut self) -> Option<&'a [u8]> {
        let flag = self.number(1);
        let part = self.part();
        assert!(flag == 1 || flag == 0 && part.is_empty(), "an absent part with bytes, or no flag");
        (flag == 1).then_some(part)
    }

    pub fn end(self) {
        assert!(self.head.is_empty() && self.parts.is_empty(), "bytes behind the value");
    }
}
