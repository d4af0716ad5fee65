//! A run: cases to the bench until one differs.

use crate::bench::Bench;
use crate::norrabist::Norrabist;
use crate::progress::Progress;
use crate::shrink::shrink;
use crate::tally::Tally;
use crate::verdict::Verdict;
use crate::{blocks, drawn, exhaust, outside, rows};
use judge::case::Case;
use std::io;

/// For so many cases one value is drawn that may not be written.
const OUTSIDE: u64 = 64;

pub struct Run<P> {
    pub bench: Bench<P>,
    pub tally: Tally,
    pub found: Option<Case>,
    progress: Option<Progress>,
}

impl<P: Norrabist> Run<P> {
    pub fn new(norrabist: P) -> Self {
        Run { bench: Bench::new(norrabist), tally: Tally::new(), found: None, progress: None }
    }

    /// With a word on standard error now and then.
    pub fn telling(norrabist: P) -> Self {
        Run { progress: Some(Progress::new()), ..Run::new(norrabist) }
    }

    pub fn all(&mut self, cases: u64, seed: u64) -> io::Result<()> {
        self.begin("short inputs");
        exhaust::run(&mut |case| self.case(case))?;
        rows::run(&mut |case| self.case(case))?;
        blocks::run(&mut |case| self.case(case))?;
        self.drawn(cases, seed)
    }

    /// All but the short inputs.
    pub fn drawn(&mut self, cases: u64, seed: u64) -> io::Result<()> {
        self.begin("drawn readings");
        drawn::readings(seed, cases - cases / 2, &mut |case| self.case(case))?;
        self.begin("drawn extension blocks");
        drawn::blocks(seed, cases - cases / 2, &mut |case| self.case(case))?;
        self.begin("drawn extensions to be written");
        drawn::extensions(seed, cases / 2, &mut |case| self.case(case))?;
        self.begin("drawn writings");
        drawn::writings(seed, cases / 2, &mut |case| self.case(case))?;
        self.begin("values that may not be written");
        outside::edges(&mut |case| self.case(case))?;
        outside::drawn(seed, cases / OUTSIDE, &mut |case| self.case(case))?;
        self.begin("");
        Ok(())
    }

    fn begin(&mut self, what: &'static str) {
        if let Some(progress) = &mut self.progress {
            progress.begin(what);
        }
    }

    /// Fails at a difference that is on no list.
    fn case(&mut self, case: &Case) -> io::Result<()> {
        let verdict = self.bench.compare(case);
        self.tally.add(case, verdict);
        if let Some(progress) = &mut self.progress {
            progress.step();
        }
        if verdict == Verdict::Differs {
            self.found = Some(case.clone());
            return Err(io::Error::other("a difference"));
        }
        Ok(())
    }

    /// The smallest case that differs too, with what both say to it.
    pub fn smallest(&mut self, case: &Case) -> (Case, String, String) {
        let small = shrink(case, &mut |case| self.bench.compare(case) == Verdict::Differs);
        self.bench.compare(&small);
        let (tls_parser, norrabist) = self.bench.told(&small);
        (small, tls_parser, norrabist)
    }
}
