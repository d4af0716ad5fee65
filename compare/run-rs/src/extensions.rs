//! What is compared of extensions besides the answers: a block that was taken is gone through item by
//! item and written back, and what was written is read back.

use crate::guard::{self, caught, last_panic, PANIC};
use crate::norrabist::Norrabist;
use crate::refusals;
use crate::room::Room;
use crate::tally::grouped;
use crate::verdict::Verdict;
use judge::account;
use judge::account::extensions_written::{values, Value};
use judge::bytes::counted;
use judge::case::Case;
use judge::extension::said_row;
use judge::table::refusal::{BAD_LENGTH, NOT_YET_IMPLEMENTED};
use judge::table::{EXTENSIONS, GEN_EXTENSION, GEN_EXTENSIONS};
use judge::text;

/// What was to be said of the last case and what Norrabist said, and how often each was asked.
#[derive(Default)]
pub struct Extensions {
    room: Room,
    asked: Vec<u64>,
    norrabist: Vec<u64>,
    differs: Option<(String, String)>,
    /// Blocks gone through item by item, written back, and texts read back.
    counts: [u64; 3],
}

impl Extensions {
    /// Whether all is as it has to be, of what was accepted.
    pub fn compare(&mut self, norrabist: &impl Norrabist, case: &Case, verdict: Verdict) -> bool {
        self.differs = None;
        if !verdict.is_accepted() {
            return true;
        }
        match case.function {
            EXTENSIONS => self.one_by_one(norrabist, case) && self.written_back(norrabist, case),
            GEN_EXTENSION => self.read_back(norrabist, case, 0),
            GEN_EXTENSIONS => self.read_back(norrabist, case, 2),
            _ => true,
        }
    }

    /// How many items, each by its place, and that there is none one past the last.
    fn one_by_one(&mut self, norrabist: &impl Norrabist, case: &Case) -> bool {
        account::asked(case, &mut self.asked);
        self.asked.drain(..2);
        self.asked.push(0);
        guard::numbers(&mut self.norrabist, |to| norrabist.items(case, to));
        self.counts[0] += 1;
        self.same("one by one")
    }

    /// The same bytes behind their length; with a raw item nothing, and nothing where there are more
    /// bytes than the length can say.
    fn written_back(&mut self, norrabist: &impl Norrabist, case: &Case) -> bool {
        let values = values(&case.input).expect("a block");
        let has_raw = values.iter().any(|value| matches!(value, Value::Raw(..)));
        let text = counted(2, &case.input);
        let asked = match case.input.len() {
            _ if has_raw => Err(NOT_YET_IMPLEMENTED),
            n if n > usize::from(u16::MAX) => Err(BAD_LENGTH),
            n => Ok(n + 2),
        };
        let lent = self.room.lend(text.len());
        let wrote = caught(|| norrabist.rewrite(case, lent));
        let held = match asked {
            Ok(_) => self.room.holds(&text),
            Err(_) => self.room.is_kept(),
        };
        self.counts[1] += u64::from(asked.is_ok());
        if wrote == Some(asked) && held {
            return true;
        }
        let room = text::input(self.room.first(text.len()));
        self.differs = Some((
            format!("written back {}", wrote_told(Some(asked))),
            format!("written back {}, in a room {room}", wrote_told(wrote)),
        ));
        false
    }

    /// The text, from behind so many bytes of it, as a block: its items are the values that were
    /// written.
    fn read_back(&mut self, norrabist: &impl Norrabist, case: &Case, outer: usize) -> bool {
        account::asked(case, &mut self.asked);
        let input = self.asked[2 + outer..].iter().map(|byte| *byte as u8).collect();
        let block = Case { function: EXTENSIONS, length: None, input };
        let again = values(&block.input).map(|values| said_row(&values));
        assert_eq!(again.as_ref(), Ok(&case.input), "the values of the text");
        account::asked(&block, &mut self.asked);
        guard::numbers(&mut self.norrabist, |to| norrabist.read(&block, to));
        self.counts[2] += 1;
        self.same("read back")
    }

    /// Whether the numbers are the same; keeps them where they are not.
    fn same(&mut self, what: &str) -> bool {
        if self.asked == self.norrabist {
            return true;
        }
        let norrabist = match self.norrabist[..] {
            [PANIC] => format!("a panic: {}", last_panic()),
            _ => text::numbers(&self.norrabist),
        };
        self.differs =
            Some((format!("{what} {}", text::numbers(&self.asked)), format!("{what} {norrabist}")));
        false
    }

    /// What was to be said and what was, where they differ.
    pub fn told(&self) -> Option<(String, String)> {
        self.differs.clone()
    }

    /// How often each was asked.
    pub fn table(&self) -> String {
        let [blocks, back, read] = self.counts.map(grouped);
        format!(
            "extensions of {blocks} blocks one by one, {back} blocks written back, {read} texts read back"
        )
    }
}

fn wrote_told(wrote: Option<Result<usize, u64>>) -> String {
    match wrote {
        None => format!("a panic: {}", last_panic()),
        Some(Ok(n)) => format!("{n} bytes"),
        Some(Err(number)) => refusals::told(number),
    }
}
