//! One writing, done by both; by Norrabist in rooms of several sizes.

use crate::guard::{caught, last_panic};
use crate::listed::{outside, Listed};
use crate::norrabist::Norrabist;
use crate::refusals;
use crate::room::Room;
use crate::tls_parser::{asked, asked_outside, Answer};
use crate::verdict::Verdict;
use judge::account::{self, Stands};
use judge::case::Case;
use judge::text;

/// A room that is long enough has so many bytes more than the text or the input.
const SPARE: usize = 40;

/// The answers to the last writing: Norrabist's to the last room that it was lent.
#[derive(Default)]
pub struct Writing {
    tls_parser: Answer,
    /// What is to be answered where tls-parser's answer need not be it.
    account: Option<Vec<u64>>,
    norrabist: Option<Result<usize, u64>>,
    room: Room,
    lent: usize,
}

impl Writing {
    pub fn compare(&mut self, norrabist: &impl Norrabist, case: &Case) -> Verdict {
        self.account = None;
        let outside = outside(case);
        let tls_parser = if outside.is_some() { asked_outside(case) } else { asked(case) };
        let verdict = self.verdict(norrabist, case, &tls_parser, outside);
        self.tls_parser = tls_parser;
        verdict
    }

    fn verdict(
        &mut self,
        norrabist: &impl Norrabist,
        case: &Case,
        tls_parser: &Answer,
        outside: Option<Listed>,
    ) -> Verdict {
        if account::is_kept(case) {
            return self.by_account(norrabist, case, tls_parser);
        }
        let (held, verdict) = match (tls_parser, outside) {
            (Answer::Wrote(_) | Answer::CannotHold, Some(listed)) => {
                let number = listed.number();
                (self.refuses(norrabist, case, number), Verdict::Listed(listed, number))
            }
            (Answer::Wrote(text), None) => (self.writes(norrabist, case, text), Verdict::Same(0)),
            (Answer::Refused(number), None) => {
                (self.refuses(norrabist, case, *number), Verdict::Same(*number))
            }
            _ => (false, Verdict::Differs),
        };
        if held {
            verdict
        } else {
            Verdict::Differs
        }
    }

    /// Where the answer of tls-parser need not be the one to give.
    fn by_account(&mut self, norrabist: &impl Norrabist, case: &Case, tls_parser: &Answer) -> Verdict {
        let Some(theirs) = tls_parser.numbers() else { return Verdict::Differs };
        let mut ours = Vec::new();
        let stands = account::of(case, &theirs, &mut ours);
        let held = match ours[..] {
            [0, _, ref text @ ..] => {
                let text: Vec<u8> = text.iter().map(|byte| *byte as u8).collect();
                self.writes(norrabist, case, &text)
            }
            _ => self.refuses(norrabist, case, ours[0]),
        };
        let first = ours[0];
        self.account = Some(ours);
        match stands {
            Stands::Alike if held => Verdict::Same(first),
            Stands::Parted(class) if held => Verdict::Listed(class.into(), first),
            _ => Verdict::Differs,
        }
    }

    /// The text in a long room and in one of its own size; in a shorter one no byte of it.
    fn writes(&mut self, norrabist: &impl Norrabist, case: &Case, text: &[u8]) -> bool {
        let n = text.len();
        for room in [n + SPARE, n] {
            self.lend(norrabist, case, room);
            if self.norrabist != Some(Ok(n)) || !self.room.holds(text) {
                return false;
            }
        }
        self.refuses_in(norrabist, case, n - 1, Listed::NoRoom.number())
    }

    /// The refusal in a long room, and before NoRoom in one of no bytes.
    fn refuses(&mut self, norrabist: &impl Norrabist, case: &Case, number: u64) -> bool {
        let long = case.input.len() + SPARE;
        self.refuses_in(norrabist, case, long, number) && self.refuses_in(norrabist, case, 0, number)
    }

    fn refuses_in(&mut self, norrabist: &impl Norrabist, case: &Case, room: usize, number: u64) -> bool {
        self.lend(norrabist, case, room);
        self.norrabist == Some(Err(number)) && self.room.is_kept()
    }

    fn lend(&mut self, norrabist: &impl Norrabist, case: &Case, room: usize) {
        let lent = self.room.lend(room);
        self.norrabist = caught(|| norrabist.write(case, lent));
        self.lent = room;
    }

    /// What both said: tls-parser, Norrabist.
    pub fn told(&self) -> (String, String) {
        let mut tls_parser = self.tls_parser.told();
        if let Some(account) = &self.account {
            tls_parser += &format!(", to be answered {}", text::numbers(account));
        }
        (tls_parser, format!("in a room of {} bytes {}", self.lent, self.norrabist_told()))
    }

    fn norrabist_told(&self) -> String {
        let (said, from) = match self.norrabist {
            None => return format!("a panic: {}", last_panic()),
            Some(Ok(n)) => (format!("wrote {n} bytes: {}", text::input(self.room.first(n))), n),
            Some(Err(number)) => (refusals::told(number), 0),
        };
        match self.room.changed(from.min(self.lent)) {
            Some(at) => format!("{said}; and changed the byte at place {at} of the room"),
            None => said,
        }
    }
}
