//! The commands of the judge.

use judge::{account, answer::answer, apart, case::Case, count, generate, text, truncations};
use judge::{account::Stands, text::PARTED};
use std::io::{self, BufRead, BufWriter, Write};
use std::panic::{catch_unwind, AssertUnwindSafe};
use std::process::exit;

const USAGE: &str = "judge generate SEED COUNT          prints COUNT cases of the readers
judge generate-writes SEED COUNT   prints COUNT cases of the writers
judge generate-blocks SEED COUNT   prints COUNT extension blocks
judge generate-extensions SEED COUNT
                                   prints COUNT cases of the writers of extensions
judge answer                       reads cases, prints them with their answers, and with
                                   tls-parser's where it gives another
judge count                        reads answered cases, prints a table of them
judge truncations                  prints what tls-parser writes outside the domain
judge apart                        prints an answer of tls-parser that no case asks for";

fn main() -> io::Result<()> {
    let words: Vec<String> = std::env::args().skip(1).collect();
    let words: Vec<&str> = words.iter().map(String::as_str).collect();
    match words[..] {
        ["generate", seed, many] => generate::generate(number(seed), number(many), &mut print_case()),
        ["generate-writes", seed, many] => {
            generate::generate_writes(number(seed), number(many), &mut print_case())
        }
        ["generate-blocks", seed, many] => {
            generate::generate_blocks(number(seed), number(many), &mut print_case())
        }
        ["generate-extensions", seed, many] => {
            generate::generate_extensions(number(seed), number(many), &mut print_case())
        }
        ["answer"] => print_answers(),
        ["count"] => print_counts(),
        ["truncations"] => write!(io::stdout(), "{}", truncations::table()),
        ["apart"] => write!(io::stdout(), "{}", apart::table()),
        _ => usage(),
    }
}

fn usage() -> ! {
    eprintln!("{USAGE}");
    exit(2)
}

fn number(word: &str) -> u64 {
    word.parse().unwrap_or_else(|_| usage())
}

fn print_case() -> impl FnMut(&Case) -> io::Result<()> {
    let mut out = BufWriter::new(io::stdout().lock());
    move |case| writeln!(out, "{case}")
}

fn print_answers() -> io::Result<()> {
    let mut out = BufWriter::new(io::stdout().lock());
    for line in lines() {
        let line = line?;
        let case: Case = line.parse().unwrap_or_else(|e| stop(&line, e));
        // A panic here is tls-parser's, or an answer that the text cannot say.
        let numbers = catch_unwind(AssertUnwindSafe(|| answers(&case)))
            .unwrap_or_else(|_| stop(&line, "no answer".into()))
            .unwrap_or_else(|amiss| stop(&line, amiss));
        writeln!(out, "{case} = {numbers}")?;
    }
    Ok(())
}

/// The answer that is to be given, and behind it that of tls-parser where the two part.
fn answers(case: &Case) -> Result<String, String> {
    let theirs = answer(case);
    if !account::is_kept(case) {
        return Ok(text::numbers(&theirs));
    }
    let mut ours = Vec::new();
    let stands = account::of(case, &theirs, &mut ours);
    let (ours, theirs) = (text::numbers(&ours), text::numbers(&theirs));
    match stands {
        Stands::Alike => Ok(ours),
        Stands::Parted(_) => Ok([ours, theirs].join(PARTED)),
        Stands::Amiss => Err(format!("tls-parser gives {theirs}, which is neither {ours} nor listed")),
    }
}

fn print_counts() -> io::Result<()> {
    let all: io::Result<Vec<String>> = lines().collect();
    print!("{}", count::table(&all?));
    Ok(())
}

/// The lines of standard input without comments.
fn lines() -> impl Iterator<Item = io::Result<String>> {
    let said = |line: &io::Result<String>| !matches!(line, Ok(l) if l.is_empty() || l.starts_with('#'));
    io::stdin().lock().lines().filter(said)
}

fn stop(line: &str, why: String) -> ! {
    eprintln!("stopped: {why}\nat: {line}");
    exit(1)
}
