//! The writings of which an account is kept.

use super::reading::one_or_two;
use super::{Class, Way};
use crate::case::Case;
use crate::extension::{Name, One, Row};
use crate::made::Message;
use crate::table::refusal::{BAD_LENGTH, NOT_YET_IMPLEMENTED};
use crate::table::*;

impl Way {
    /// The text, or the number of the refusal.
    pub fn written(&mut self, case: &Case) -> Result<Vec<u8>, u64> {
        match case.function {
            GEN_CIPHER_SPEC => Ok(self.cipher_spec_text()),
            GEN_ANY => match Message::read(&case.input) {
                Message::ChangeCipherSpec => Ok(self.cipher_spec_text()),
                Message::Alert { severity, code } => self.alert_text(severity, code),
                Message::ApplicationData(_) | Message::Heartbeat { .. } => Err(NOT_YET_IMPLEMENTED),
                Message::Handshake(_) => panic!("no account of handshake messages"),
            },
            GEN_EXTENSION => self.extension_text(&One::read(&case.input)),
            GEN_EXTENSIONS => self.extensions_text(&Row::read(&case.input)),
            GEN_SERVER_NAME => {
                let Name { of, name } = Name::read(&case.input);
                self.name_text(of, name)
            }
            other => panic!("no account of {other}"),
        }
    }

    /// RULES 7.13: the byte 01.
    fn cipher_spec_text(&mut self) -> Vec<u8> {
        vec![if self.parts(Class::CipherSpecWritten) { 1 } else { record_type::CHANGE_CIPHER_SPEC }]
    }

    /// RULES 7.14: level and description; a level other than 1 and 2 is BadLength.
    fn alert_text(&mut self, severity: u8, code: u8) -> Result<Vec<u8>, u64> {
        if !self.parts(Class::AlertWritten) {
            return Err(NOT_YET_IMPLEMENTED);
        }
        if one_or_two(severity) {
            return Ok(vec![severity, code]);
        }
        Err(BAD_LENGTH)
    }
}
