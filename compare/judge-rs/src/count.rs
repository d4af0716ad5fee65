//! How many answered cases there are, by function and by the first number of the answer that is to
//! be given, and to how many tls-parser gives another.

use crate::table::{refusal, READING, WRITING};
use crate::text::PARTED;

/// The first numbers of answers, and what they are.
const HEADS: [(u64, &str); 10] = [
    (0, "accepted"),
    (refusal::INCOMPLETE, "Incomplete"),
    (refusal::COMPLETE, "Complete"),
    (refusal::VERIFY, "Verify"),
    (refusal::LENGTH_VALUE, "LengthValue"),
    (refusal::TAG, "Tag"),
    (refusal::SWITCH, "Switch"),
    (refusal::TOO_LARGE, "TooLarge"),
    (refusal::BAD_LENGTH, "BadLength"),
    (refusal::NOT_YET_IMPLEMENTED, "NotYet"),
];
const COLUMNS: usize = HEADS.len();
const ROWS: usize = READING.len() + WRITING.len();

/// The table, with a last row of sums.
pub fn table(lines: &[String]) -> String {
    let mut counts = [[0usize; COLUMNS]; ROWS];
    let mut parted = [0usize; ROWS];
    for line in lines {
        let (row, column) = place(line).unwrap_or_else(|| panic!("no answered case: {line}"));
        counts[row][column] += 1;
        parted[row] += usize::from(line.contains(PARTED));
    }
    let mut out = row("function", HEADS.map(|(_, head)| head.into()), "all", "parted");
    for ((name, counts), parted) in READING.into_iter().chain(WRITING).zip(counts).zip(parted) {
        let sum: usize = counts.iter().sum();
        out += &row(name, counts.map(|n| n.to_string()), &sum.to_string(), &parted.to_string());
    }
    let sums: [usize; COLUMNS] = std::array::from_fn(|k| counts.iter().map(|c| c[k]).sum());
    let parted: usize = parted.iter().sum();
    out + &row("all", sums.map(|n| n.to_string()), &lines.len().to_string(), &parted.to_string())
}

/// The row of a line's function and the column of its answer.
fn place(line: &str) -> Option<(usize, usize)> {
    let (case, answer) = line.split_once(" = ")?;
    let name = case.split(' ').next()?;
    let number: u64 = answer.split(' ').next()?.parse().ok()?;
    let row = READING.iter().chain(&WRITING).position(|known| *known == name)?;
    Some((row, HEADS.iter().position(|(n, _)| *n == number)?))
}

fn row(name: &str, cells: [String; COLUMNS], sum: &str, parted: &str) -> String {
    let cells: String = cells.iter().map(|c| format!("{c:>12}")).collect();
    format!("{name:<44}{cells}{sum:>8}{parted:>8}\n")
}
