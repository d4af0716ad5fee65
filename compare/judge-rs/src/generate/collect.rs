//! Gathers cases, each once.

use crate::bytes::{message, record};
use crate::case::Case;
use crate::table::record_type::HANDSHAKE;
use crate::table::{is_sized, of_record, of_type, MANY, MESSAGE, PLAINTEXT, WITH_HEADER};
use std::collections::HashSet;

/// The most that the length of a record can say, over the limit or not.
const LONGEST: usize = 0xffff;

#[derive(Default)]
pub struct Cases {
    pub list: Vec<Case>,
    seen: HashSet<Case>,
    turn: usize,
}

impl Cases {
    pub fn push(&mut self, case: Case) {
        if self.seen.insert(case.clone()) {
            self.list.push(case);
        }
    }

    /// A function and its input; the length, where it takes one, is the input's.
    pub fn add(&mut self, function: &'static str, input: &[u8]) {
        let length = is_sized(function).then_some(input.len() as u64);
        self.push(Case { function, length, input: input.to_vec() });
    }

    pub fn add_sized(&mut self, function: &'static str, length: u64, input: &[u8]) {
        self.push(Case { function, length: Some(length), input: input.to_vec() });
    }

    /// A body for the functions of its type.
    pub fn body(&mut self, handshake_type: u8, body: &[u8]) {
        for name in of_type(handshake_type) {
            self.add(name, body);
        }
    }

    /// A body for one of the functions of its type, in turn.
    pub fn one(&mut self, handshake_type: u8, body: &[u8]) {
        self.turn += 1;
        let names = of_type(handshake_type);
        if !names.is_empty() {
            self.add(names[self.turn % names.len()], body);
        }
    }

    /// A body in a message and in a record.
    pub fn wrapped(&mut self, handshake_type: u8, body: &[u8]) {
        let message = message(handshake_type, body);
        self.add(MESSAGE, &message);
        if message.len() <= LONGEST {
            self.add(PLAINTEXT, &record(HANDSHAKE, &message));
        }
    }

    /// A body everywhere: its own functions, a message, a record.
    pub fn everywhere(&mut self, handshake_type: u8, body: &[u8]) {
        self.body(handshake_type, body);
        self.wrapped(handshake_type, body);
    }

    /// A content of a record that is no handshake record, everywhere: the function of its message,
    /// behind a header, in a record, and in one that others follow.
    pub fn content(&mut self, record_type: u8, content: &[u8]) {
        for name in of_record(record_type) {
            self.add(name, content);
        }
        let whole = record(record_type, content);
        [WITH_HEADER, PLAINTEXT, MANY].into_iter().for_each(|f| self.add(f, &whole));
        self.add(MANY, &[&whole[..], &record(HANDSHAKE, &[0; 4])].concat());
    }

    /// A body for its own functions, and in turn in a message or in a record.
    pub fn mostly(&mut self, handshake_type: u8, body: &[u8]) {
        self.turn += 1;
        self.body(handshake_type, body);
        let message = message(handshake_type, body);
        if self.turn.is_multiple_of(2) || message.len() > LONGEST {
            self.add(MESSAGE, &message);
        } else {
            self.add(PLAINTEXT, &record(HANDSHAKE, &message));
        }
    }
}
