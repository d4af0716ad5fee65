//! How many cases were compared, and what was answered.

use crate::listed::{self, Listed};
use crate::reading::{has_end, is_walked};
use crate::refusals::NAMES;
use crate::verdict::Verdict;
use judge::case::Case;
use judge::table::{is_writer, refusal, READING, WRITING};

const FUNCTIONS: usize = READING.len() + WRITING.len();
const NUMBERS: usize = NAMES.len();

/// Inputs over so many bytes are long.
const LONG: usize = 16_384;

pub struct Tally {
    /// By function, and by the first number of Norrabist's answer.
    answers: [[u64; NUMBERS]; FUNCTIONS],
    listed: [u64; listed::ALL.len()],
    pub cases: u64,
    /// To which tls-parser gives the same answer.
    pub alike: u64,
    long: u64,
}

impl Tally {
    pub fn new() -> Self {
        let (answers, listed) = ([[0; NUMBERS]; FUNCTIONS], [0; listed::ALL.len()]);
        Tally { answers, listed, cases: 0, alike: 0, long: 0 }
    }

    pub fn add(&mut self, case: &Case, verdict: Verdict) {
        self.cases += 1;
        self.long += u64::from(case.input.len() > LONG);
        let number = match verdict {
            Verdict::Same(number) | Verdict::Listed(_, number) => number,
            Verdict::Differs => return,
        };
        self.answers[row(case.function)][number as usize] += 1;
        match verdict {
            Verdict::Listed(listed, _) => self.listed[listed as usize] += 1,
            _ => self.alike += 1,
        }
        if number == 0 {
            self.add_accepted(case);
        }
    }

    /// Every text was also asked for in a room that is too short, every record walked over.
    fn add_accepted(&mut self, case: &Case) {
        self.listed[Listed::NoRoom as usize] += u64::from(is_writer(case.function));
        self.listed[Listed::Dropped as usize] += u64::from(is_walked(case.function));
        self.listed[Listed::NoSuch as usize] += u64::from(has_end(case));
    }

    /// The tables of functions, refusals and listed differences.
    pub fn table(&self) -> String {
        [self.functions(), self.refusals(), self.differences()].join("\n")
    }

    fn functions(&self) -> String {
        let mut out = format!("{:<44}{:>14}{:>14}\n", "Function", "Cases", "Accepted");
        let mut line = |name: &str, all: u64, accepted: u64| {
            out += &format!("{name:<44}{:>14}{:>14}\n", grouped(all), grouped(accepted));
        };
        for (name, answers) in READING.into_iter().chain(WRITING).zip(&self.answers) {
            line(name, answers.iter().sum(), answers[0]);
        }
        line("all", self.cases, self.of_number(0));
        out + &format!("{} of the inputs have more than {LONG} bytes\n", grouped(self.long))
    }

    fn refusals(&self) -> String {
        let mut out = format!("{:>4}  {:<52}{:>14}\n", "No.", "Refusal", "Answers");
        for (number, name) in NAMES.iter().enumerate().skip(1).filter(|(_, name)| !name.is_empty()) {
            let besides = match number as u64 {
                refusal::NO_ROOM => self.listed[Listed::NoRoom as usize],
                refusal::NO_SUCH => self.listed[Listed::NoSuch as usize],
                _ => 0,
            };
            let answers = self.of_number(number) + besides;
            out += &format!("{number:>4}  {name:<52}{:>14}\n", grouped(answers));
        }
        out
    }

    fn differences(&self) -> String {
        let mut out =
            format!("{:<44}{:>14}{:>14}  {}\n", "Listed difference", "Answer", "Times", "Listed under");
        for (listed, times) in listed::ALL.into_iter().zip(self.listed) {
            let (heading, item) = listed.place();
            let answer = if listed.is_account() { "any".into() } else { listed.number().to_string() };
            out += &format!("{item:<44}{answer:>14}{:>14}  {heading}\n", grouped(times));
        }
        out
    }

    fn of_number(&self, number: usize) -> u64 {
        self.answers.iter().map(|answers| answers[number]).sum()
    }
}

fn row(name: &str) -> usize {
    READING.iter().chain(&WRITING).position(|known| *known == name).expect("a known function")
}

/// The digits in groups of three.
pub fn grouped(n: u64) -> String {
    let digits = n.to_string();
    let mut out = String::new();
    for (at, digit) in digits.chars().enumerate() {
        if at > 0 && (digits.len() - at).is_multiple_of(3) {
            out.push(',');
        }
        out.push(digit);
    }
    out
}
