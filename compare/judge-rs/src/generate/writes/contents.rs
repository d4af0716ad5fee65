//! The messages of records of any type to be written.

use super::super::collect::Cases;
use super::super::good::short_messages;
use crate::bytes::{counting, run};
use crate::made::Message;
use crate::table::{limit, GEN_ANY, GEN_CIPHER_SPEC};

pub fn add(cases: &mut Cases) {
    cases.add(GEN_CIPHER_SPEC, &[]);
    put(cases, Message::ChangeCipherSpec);
    for severity in [0, 1, 2, 3, 0x14, 0x7f, 0x80, 0xff] {
        for code in [0, 1, 2, 10, 0x28, 0x80, 0xff] {
            put(cases, Message::Alert { severity, code });
        }
    }
    for n in [0, 1, 2, 4, 19, 255, limit::RECORD, limit::RECORD + 1] {
        put(cases, Message::ApplicationData(&counting(n)));
        for heartbeat_type in [0, 1, 2, 3] {
            put(cases, Message::Heartbeat { heartbeat_type, payload: &run(0x5a, n) });
        }
    }
    // Those that are written, and those that are not.
    for message in short_messages() {
        put(cases, Message::Handshake(&message));
    }
}

fn put(cases: &mut Cases, message: Message) {
    cases.add(GEN_ANY, &message.bytes());
}
