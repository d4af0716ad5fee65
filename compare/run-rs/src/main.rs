//! Compares Norrabist and tls-parser in one program: `run CASES SEED`.

mod bench;
mod blocks;
mod cut;
mod documented;
mod drawn;
mod exactness;
mod exhaust;
mod extensions;
mod families;
mod faults;
mod guard;
mod linked;
mod listed;
mod norrabist;
mod outside;
mod parts;
mod progress;
mod randoms;
mod reading;
mod refusals;
mod report;
mod room;
mod rows;
mod runs;
mod self_test;
mod shrink;
mod tally;
mod tls_parser;
mod verdict;
mod writing;

use linked::Linked;
use runs::Run;
use std::process::ExitCode;
use tally::grouped;

const USAGE: &str = "run CASES SEED          compares Norrabist and tls-parser
run --self-test SEED    shows that wrong answers are found";

fn main() -> ExitCode {
    guard::keep_panics();
    let words: Vec<String> = std::env::args().skip(1).collect();
    let words: Vec<&str> = words.iter().map(String::as_str).collect();
    guard::caught(|| command(&words)).unwrap_or_else(|| stop(&format!("stopped: {}", guard::last_panic())))
}

fn command(words: &[&str]) -> ExitCode {
    if let Some(missing) = documented::missing() {
        return stop(&missing);
    }
    let done = match *words {
        ["--self-test", seed] => number(seed).map(self_test::run),
        [cases, seed] => number(cases).zip(number(seed)).map(|(cases, seed)| compared(cases, seed)),
        _ => None,
    };
    done.unwrap_or_else(|| stop(USAGE))
}

fn stop(why: &str) -> ExitCode {
    eprintln!("{why}");
    ExitCode::from(2)
}

fn number(word: &str) -> Option<u64> {
    word.parse().ok()
}

fn compared(cases: u64, seed: u64) -> ExitCode {
    let mut run = Run::telling(Linked);
    let ended = run.all(cases, seed);
    if let Some(case) = run.found.take() {
        eprintln!("a difference; a smaller case is looked for");
        println!("An unlisted difference:\n{}", report::smallest(&mut run, &case));
        println!("SEED {seed}: {} cases compared, 1 unlisted difference", grouped(run.tally.cases));
        return ExitCode::FAILURE;
    }
    ended.expect("a run to its end");
    println!("{}", run.tally.table());
    let randoms = &run.bench.randoms;
    let (compared, of_four) = (grouped(randoms.compared), grouped(randoms.of_four));
    println!(
        "rand_time and rand_bytes of {compared} cases, {of_four} of them made up with a random of four bytes"
    );
    println!("{}", run.bench.exactness.table());
    println!("{}\n", run.bench.extensions.table());
    let (cases, alike) = (run.tally.cases, run.tally.alike);
    println!("{} cases answered alike, {} by a listed difference", grouped(alike), grouped(cases - alike));
    println!("SEED {seed}: {} cases compared, 0 unlisted differences", grouped(cases));
    ExitCode::SUCCESS
}
