//! What the comparison asks of Norrabist.

use judge::case::Case;

pub trait Norrabist {
    /// The numbers of a reader's answer, put behind those that are there.
    fn read(&self, case: &Case, to: &mut Vec<u64>);

    /// The walk over the messages of a record, or of joined records, that was accepted.
    fn walk(&self, case: &Case) -> Walk;

    /// The numbers of `rand_time` and `rand_bytes`, of each ClientHello that a case has.
    fn randoms(&self, case: &Case, to: &mut Vec<u64>);

    /// The numbers of `exactness`, of each ClientHello that a case has.
    fn exactness(&self, case: &Case, to: &mut Vec<u64>);

    /// The numbers of the items of an extension block that was accepted: how many, each by its place,
    /// and whether there is one past the last.
    fn items(&self, case: &Case, to: &mut Vec<u64>);

    /// Writes the value that a case says into the room: how many bytes, or the number
    /// of the refusal.
    fn write(&self, case: &Case, room: &mut [u8]) -> Result<usize, u64>;

    /// Writes the items of an extension block that was accepted, likewise.
    fn rewrite(&self, case: &Case, room: &mut [u8]) -> Result<usize, u64>;
}

/// What Norrabist adds to a record, or to joined records together.
#[derive(Clone, Copy, Debug, PartialEq, Eq)]
pub struct Walk {
    /// How many messages the walk meets.
    pub messages: usize,
    /// The number of the refusal behind the last of them; 0 where they are no handshake messages,
    /// or those of joined records.
    pub end: u64,
    /// How many bytes are told to be dropped.
    pub dropped: usize,
}
