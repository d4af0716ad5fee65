//! Wrong answers, laid over right ones.

mod extensions;
mod extensions_written;
mod others;
mod randoms;
mod readings;
mod strict;
mod tickets;
mod writings;

use crate::norrabist::{Norrabist, Walk};
use judge::case::Case;

pub type Wrote = Result<usize, u64>;

/// A fault, which does nothing where it does not apply.
#[derive(Clone, Copy)]
pub enum Fault {
    /// Changes the numbers of a reading.
    Reading(fn(&Case, &mut Vec<u64>)),
    /// Changes the room, which was `before`, and the answer of a writing.
    Writing(fn(&Case, &[u8], &mut [u8], Wrote) -> Wrote),
    /// Changes the walk over a record.
    Walk(fn(Walk) -> Walk),
    /// Changes what is handed out of randoms.
    Random(fn(&Case, &mut Vec<u64>)),
    /// Changes how exact hellos are said to be.
    Exactness(fn(&Case, &mut Vec<u64>)),
    /// Changes what is handed out of an extension block item by item.
    Items(fn(&Case, &mut Vec<u64>)),
    /// Changes the room and the answer where a block is written back.
    Rewriting(fn(&Case, &[u8], &mut [u8], Wrote) -> Wrote),
    /// Changes what tls-parser reads.
    TlsParser(fn(&Case, &mut Vec<u64>)),
}

pub struct Faulty<P> {
    pub norrabist: P,
    pub fault: Fault,
}

impl<P: Norrabist> Norrabist for Faulty<P> {
    fn read(&self, case: &Case, to: &mut Vec<u64>) {
        self.norrabist.read(case, to);
        if let Fault::Reading(change) = self.fault {
            change(case, to);
        }
    }

    fn walk(&self, case: &Case) -> Walk {
        let walk = self.norrabist.walk(case);
        match self.fault {
            Fault::Walk(change) => change(walk),
            _ => walk,
        }
    }

    fn randoms(&self, case: &Case, to: &mut Vec<u64>) {
        self.norrabist.randoms(case, to);
        if let Fault::Random(change) = self.fault {
            change(case, to);
        }
    }

    fn exactness(&self, case: &Case, to: &mut Vec<u64>) {
        self.norrabist.exactness(case, to);
        if let Fault::Exactness(change) = self.fault {
            change(case, to);
        }
    }

    fn items(&self, case: &Case, to: &mut Vec<u64>) {
        self.norrabist.items(case, to);
        if let Fault::Items(change) = self.fault {
            change(case, to);
        }
    }

    fn rewrite(&self, case: &Case, room: &mut [u8]) -> Wrote {
        let Fault::Rewriting(change) = self.fault else { return self.norrabist.rewrite(case, room) };
        let before = room.to_vec();
        let wrote = self.norrabist.rewrite(case, room);
        change(case, &before, room, wrote)
    }

    fn write(&self, case: &Case, room: &mut [u8]) -> Wrote {
        let Fault::Writing(change) = self.fault else { return self.norrabist.write(case, room) };
        let before = room.to_vec();
        let wrote = self.norrabist.write(case, room);
        change(case, &before, room, wrote)
    }
}

/// What is wrong, and how it is made.
pub const ALL: [(&str, Fault); 100] = [
    ("the rest one byte further", Fault::Reading(readings::rest)),
    ("another refusal", Fault::Reading(readings::refusal)),
    ("a refusal for a value", Fault::Reading(readings::refused)),
    ("a value for a refusal", Fault::Reading(readings::accepted)),
    ("the last certificate left out", Fault::Reading(readings::missing)),
    ("the last certificate twice", Fault::Reading(readings::twice)),
    ("a part one byte longer", Fault::Reading(readings::longer)),
    ("a part one byte later", Fault::Reading(readings::later)),
    ("a cipher with its bytes turned round", Fault::Reading(readings::cipher)),
    ("an absent block as an empty one", Fault::Reading(readings::absent)),
    ("the last message of a record left out", Fault::Reading(readings::message)),
    ("a number too many", Fault::Reading(readings::more)),
    ("a huge length taken as 0", Fault::Reading(readings::huge)),
    ("an alert record as Switch", Fault::Reading(others::record)),
    ("a ChangeCipherSpec of any byte", Fault::Reading(others::cipher_spec)),
    ("the level of an alert behind its description", Fault::Reading(others::level)),
    ("the description of an alert as its level", Fault::Reading(others::description)),
    ("application data one byte short", Fault::Reading(others::data)),
    ("a record of application data as Many1", Fault::Reading(others::many1)),
    ("a heartbeat with 15 bytes of padding", Fault::Reading(others::padding)),
    ("the rest of a heartbeat before its padding", Fault::Reading(others::before)),
    ("the type of a heartbeat before its length", Fault::Reading(others::early)),
    ("the length of a header looked at", Fault::Reading(others::header)),
    ("the last alert of a record left out", Fault::Reading(others::last)),
    ("an empty record of alerts as Incomplete", Fault::Reading(others::empty)),
    ("a heartbeat of two bytes as Complete", Fault::Reading(others::short)),
    ("the first of many records as Incomplete", Fault::Reading(others::first)),
    ("a record of many too many", Fault::Reading(others::more)),
    ("many records that end before their end", Fault::Reading(others::end)),
    ("a byte too many told as dropped", Fault::Walk(readings::dropped)),
    ("a walk that ends with Incomplete", Fault::Walk(readings::ended)),
    ("the first bytes of a longer random as its time", Fault::Random(randoms::longer)),
    ("a random of four bytes without a time", Fault::Random(randoms::four)),
    ("the bytes of a random from the fourth on", Fault::Random(randoms::early)),
    ("a strict hello without ciphers taken", Fault::Reading(strict::no_ciphers)),
    ("a strict hello without methods taken", Fault::Reading(strict::no_methods)),
    ("a strict hello with a tail taken", Fault::Reading(strict::tail)),
    ("an empty list before the refusals of the plain reader", Fault::Reading(strict::early)),
    ("a strict hello without extensions refused", Fault::Reading(strict::absent)),
    ("a tail told before an empty list", Fault::Exactness(strict::tail_first)),
    ("a hello without methods told as exact", Fault::Exactness(strict::methods_unseen)),
    ("a ticket with its length still in it", Fault::Reading(tickets::kept)),
    ("a ticket without a length taken", Fault::Reading(tickets::missing)),
    ("a ticket without a length as Incomplete", Fault::Reading(tickets::incomplete)),
    ("a ticket with a length over its bytes taken", Fault::Reading(tickets::over)),
    ("a ticket with a length under its bytes taken", Fault::Reading(tickets::under)),
    ("the bytes behind the given length of a ticket looked at", Fault::Reading(tickets::behind)),
    ("the length of a ticket before Incomplete", Fault::Reading(tickets::early)),
    ("the ticket of a message as tls-parser's", Fault::Reading(tickets::message)),
    ("the tickets of a record as tls-parser's", Fault::Reading(tickets::record)),
    ("the tickets behind a header as tls-parser's", Fault::Reading(tickets::content)),
    ("the tickets of many records as tls-parser's", Fault::Reading(tickets::joined)),
    ("a record refused for a later ticket", Fault::Reading(tickets::later)),
    ("the items before a damaged one handed out", Fault::Reading(extensions::before)),
    ("the index of a damaged item one too high", Fault::Reading(extensions::index)),
    ("the index of the last damaged item", Fault::Reading(extensions::last)),
    ("a cut item left out", Fault::Reading(extensions::cut)),
    ("an odd list of groups taken", Fault::Reading(extensions::odd)),
    ("a list with a length over its bytes taken", Fault::Reading(extensions::over)),
    ("a list with a length under its bytes taken", Fault::Reading(extensions::under)),
    ("an empty server_name taken", Fault::Reading(extensions::empty)),
    ("a fragment value of two bytes taken", Fault::Reading(extensions::fragment)),
    ("names that do not fill their list taken", Fault::Reading(extensions::unfilled)),
    ("a raw item that tls-parser cannot open refused", Fault::Reading(extensions::opened)),
    ("the last name of a list left out", Fault::Reading(extensions::name)),
    ("the type of a name as 0", Fault::Reading(extensions::name_type)),
    ("a group with its bytes turned round", Fault::Reading(extensions::group)),
    ("an item one past the last", Fault::Items(extensions::past)),
    ("a fragment value by its place as 0", Fault::Items(extensions::value)),
    ("a panic of Norrabist", Fault::Reading(readings::panic)),
    ("a panic of tls-parser", Fault::TlsParser(readings::panic)),
    ("an answer of tls-parser that no difference has", Fault::TlsParser(others::amiss)),
    ("a ticket of tls-parser's that no difference has", Fault::TlsParser(tickets::amiss)),
    ("an extension of tls-parser's that no difference has", Fault::TlsParser(extensions::amiss)),
    ("a test on tls-parser's rest left out", Fault::TlsParser(strict::tail)),
    ("a written byte changed", Fault::Writing(writings::byte)),
    ("a byte written behind the text", Fault::Writing(writings::behind)),
    ("a byte too many told", Fault::Writing(writings::count)),
    ("NoRoom where the text just fits", Fault::Writing(writings::fits)),
    ("NoRoom with a byte written", Fault::Writing(writings::touched)),
    ("a cut length written", Fault::Writing(writings::cut)),
    ("a record that is too large as BadLength", Fault::Writing(writings::large)),
    ("NoRoom before NotYetImplemented", Fault::Writing(writings::order)),
    ("a ChangeCipherSpec written as its record's type", Fault::Writing(writings::cipher_spec)),
    ("an alert written backwards", Fault::Writing(writings::backwards)),
    ("NoRoom before the level of an alert", Fault::Writing(writings::level)),
    ("application data as BadLength", Fault::Writing(writings::data)),
    ("a raw item left out of a written row", Fault::Writing(extensions_written::skipped)),
    ("BadLength before NotYetImplemented", Fault::Writing(extensions_written::length_first)),
    ("NoRoom before a raw item", Fault::Writing(extensions_written::room_before_raw)),
    ("NoRoom before the length of an extension", Fault::Writing(extensions_written::room_first)),
    ("the length of a row cut", Fault::Writing(extensions_written::outer_cut)),
    ("a byte changed before a raw item", Fault::Writing(extensions_written::touched)),
    ("an extension begun without room", Fault::Writing(extensions_written::begun)),
    ("an odd list of groups written", Fault::Writing(extensions_written::odd)),
    ("names that do not fill their list written", Fault::Writing(extensions_written::unfilled)),
    ("the length of a name cut", Fault::Writing(extensions_written::name_cut)),
    ("the longest row as BadLength", Fault::Writing(extensions_written::longest)),
    ("the longest extension by itself as BadLength", Fault::Writing(extensions_written::alone)),
    ("a block written back without its length", Fault::Rewriting(extensions_written::bare)),
];
