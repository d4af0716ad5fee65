//! Whether wrong answers are found: each fault in turn is laid over Norrabist.

use crate::bench::Bench;
use crate::faults::{Fault, Faulty, ALL};
use crate::linked::Linked;
use crate::report;
use crate::runs::Run;
use crate::tally::grouped;
use crate::verdict::Verdict;
use judge::answer;
use std::process::ExitCode;

/// So many drawn cases at most for each fault.
const CASES: u64 = 40_000;

pub fn run(seed: u64) -> ExitCode {
    let found = ALL.iter().filter(|(name, fault)| is_found(name, *fault, seed)).count();
    println!("SEED {seed}: {found} of {} injected faults found", ALL.len());
    if found == ALL.len() {
        ExitCode::SUCCESS
    } else {
        ExitCode::FAILURE
    }
}

fn is_found(name: &str, fault: Fault, seed: u64) -> bool {
    let mut run = Run::new(Faulty { norrabist: Linked, fault });
    if let Fault::TlsParser(change) = fault {
        run.bench.reading.tls_parser_reads = Box::new(move |case, to| {
            answer::read(case, to);
            change(case, to);
        });
    }
    let ended = run.drawn(CASES, seed);
    let Some(case) = run.found.take() else {
        println!("NOT FOUND: {name} ({ended:?})\n");
        return false;
    };
    println!("{name}: found at case {}, of {} bytes", grouped(run.tally.cases), case.input.len());
    println!("{}", report::smallest(&mut run, &case));
    let alone = Bench::new(Linked).compare(&case) != Verdict::Differs;
    println!("{}", if alone { "" } else { "  it differs without the fault too\n" });
    alone
}
