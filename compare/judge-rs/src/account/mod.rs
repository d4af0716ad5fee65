//! What Norrabist has to answer where records of all types are opened and their messages written,
//! in an account of its own: RULES 6.4 to 6.9, 6.15 to 6.20 and 7.13 to 7.15, after RFC 5246 6.2.1,
//! 7.1 and 7.2 and RFC 6520 3 and 4. Where tls-parser parts from these rules, the account has both
//! ways and a name for the difference (docs/DIFFERENCES.md), so that an answer of tls-parser is
//! either the one to give, or the one that a named difference has, or amiss. Handshake messages
//! are tls-parser's, but for the NewSessionTicket wherever it stands: RULES 4.2, after RFC 5077 3.3.
//!
//! Of extension blocks `extensions.rs` is the account, of extensions to be written
//! `extensions_written.rs`; `extensions_there.rs` has tls-parser's way.
//!
//! Of the strict ClientHello, RULES 3.14, `strict.rs` is the account: RFC 5246 7.4.1.2.
//! tls-parser's reading with three tests has to be the same.

pub mod extensions;
#[cfg(test)]
mod extensions_tests;
mod extensions_there;
mod extensions_ways;
#[cfg(test)]
mod extensions_ways_tests;
pub mod extensions_written;
#[cfg(test)]
mod extensions_written_tests;
mod handshake;
mod hello;
mod reading;
pub mod strict;
#[cfg(test)]
mod strict_tests;
pub mod ticket;
#[cfg(test)]
mod ticket_tests;
mod writing;

use crate::answer;
use crate::case::Case;
use crate::table::*;
pub use extensions_ways::told as told_block;
use reading::Read;
use tls_parser::{TlsMessage, TlsMessageHandshake};

/// Whose way is taken where there are two.
#[derive(Clone, Copy, PartialEq, Eq)]
enum By {
    Rules,
    TlsParser,
}

/// The differences, each by what it is about.
#[derive(Clone, Copy, Debug, PartialEq, Eq)]
pub enum Class {
    /// A record of application data, which tls-parser refuses with Many1.
    ApplicationData,
    /// A ChangeCipherSpec of another byte than 1: Verify there.
    CipherSpecByte,
    /// An alert of another level than 1 and 2: opened there.
    AlertLevel,
    /// A heartbeat of another type than 1 and 2: opened there.
    HeartbeatType,
    /// A heartbeat whose payload leaves under 16 bytes of padding: opened there.
    HeartbeatPadding,
    /// A heartbeat whose payload runs past the end: Incomplete there.
    HeartbeatPast,
    /// A heartbeat's length, which is looked at there only where it is under 3; that is Verify.
    HeartbeatLength,
    /// A heartbeat's padding, which is left over there.
    HeartbeatRest,
    /// The length of a NewSessionTicket's ticket, which is part of the ticket there.
    TicketLength,
    /// A ChangeCipherSpec that is written as 0x14 there.
    CipherSpecWritten,
    /// An alert, which is not written there.
    AlertWritten,
    /// An item of an extension block that does not fit: left over there.
    ExtensionCut,
    /// A server_name of no bytes: no names there.
    EmptyServerName,
    /// The length of a list of names: left over there where it is missing or past the end, and what
    /// stands behind the list is dropped.
    NameList,
    /// Names that do not fill their list: those that fit are taken there.
    NameLength,
    /// A maximum fragment length not of one byte: of more bytes the first is taken there.
    FragmentLength,
    /// The length of a list of groups, likewise.
    GroupList,
    /// An odd list of groups: left over there.
    OddGroups,
    /// An item that stays raw: left over there where its type is opened and it is damaged.
    OpenedThere,
    /// A name that is too long: its length is cut there.
    NameWritten,
    /// A list of an extension, likewise.
    ListWritten,
    /// A list that fits, and with its length does not, likewise.
    ExtensionWritten,
    /// Extensions that are too long together, likewise.
    RowWritten,
    /// Bytes that are no names, which its types cannot hold.
    NoNamesWritten,
    /// Bytes that are no groups, likewise.
    OddGroupsWritten,
}

/// How the answer of tls-parser stands to the one that is to be given.
#[derive(Clone, Copy, Debug, PartialEq, Eq)]
pub enum Stands {
    /// It is the same.
    Alike,
    /// It is another, and what that difference has.
    Parted(Class),
    /// It is another that no difference has.
    Amiss,
}

/// An account by one way, and the first rule of it that has two.
struct Way {
    by: By,
    class: Option<Class>,
}

impl Way {
    fn new(by: By) -> Self {
        Way { by, class: None }
    }

    /// Notes a rule that has two ways; whether that of RULES is taken.
    fn parts(&mut self, class: Class) -> bool {
        self.class.get_or_insert(class);
        self.by == By::Rules
    }
}

/// Whether an account is kept of such a case: in the others tls-parser's answer is the one to give.
pub fn is_kept(case: &Case) -> bool {
    let of_handshake = case.input.first() == Some(&record_type::HANDSHAKE);
    match case.function {
        PLAINTEXT | WITH_HEADER | MANY | MESSAGE | MSG_TICKET | GEN_CIPHER_SPEC => true,
        GEN_ANY => !of_handshake,
        MESSAGE_CIPHER_SPEC | MESSAGE_ALERT | MESSAGE_DATA | MESSAGE_HEARTBEAT => true,
        CLIENT_HELLO_STRICT | MSG_CLIENT_HELLO_STRICT => true,
        EXTENSIONS | GEN_EXTENSION | GEN_EXTENSIONS | GEN_SERVER_NAME => true,
        _ => false,
    }
}

/// Fills `ours` with the numbers of the answer that is to be given to a case of which an account is
/// kept.
pub fn of(case: &Case, tls_parser: &[u64], ours: &mut Vec<u64>) -> Stands {
    let class = numbers(case, By::Rules, ours);
    if *ours == tls_parser {
        return Stands::Alike;
    }
    let mut theirs = Vec::new();
    numbers(case, By::TlsParser, &mut theirs);
    match class {
        Some(class) if theirs == tls_parser => Stands::Parted(class),
        _ => Stands::Amiss,
    }
}

/// Fills `to` with the numbers of the answer that is to be given, whatever tls-parser's are.
pub fn asked(case: &Case, to: &mut Vec<u64>) {
    numbers(case, By::Rules, to);
}

/// Whether tls-parser's answer to a reading is another, as listed.
pub fn is_parted(case: &Case) -> bool {
    is_kept(case) && matches!(of(case, &answer::answer(case), &mut Vec::new()), Stands::Parted(_))
}

/// The handshake message at the front, in tls-parser's types.
pub fn message(i: &[u8]) -> Read<'_, TlsMessage<'_>> {
    Way::new(By::Rules).handshake(i)
}

/// The NewSessionTicket that the first `length` bytes are, likewise.
pub fn ticket(i: &[u8], length: usize) -> Read<'_, TlsMessageHandshake<'_>> {
    Way::new(By::Rules).ticket(i, length)
}

/// Of a record or of records that are accepted: how many messages they have, and how many bytes of
/// their contents are in none.
pub fn walked(case: &Case) -> (usize, usize) {
    Way::new(By::Rules).walked(case)
}

/// The numbers by one way.
fn numbers(case: &Case, by: By, to: &mut Vec<u64>) -> Option<Class> {
    to.clear();
    let mut way = Way::new(by);
    if is_writer(case.function) {
        answer::wrote(to, way.written(case));
    } else {
        way.read(case, to);
    }
    way.class
}
