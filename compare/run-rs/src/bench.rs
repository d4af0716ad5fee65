//! Where cases are compared.

use crate::exactness::Exactness;
use crate::extensions::Extensions;
use crate::norrabist::Norrabist;
use crate::randoms::Randoms;
use crate::reading::Reading;
use crate::verdict::Verdict;
use crate::writing::Writing;
use judge::case::Case;
use judge::table::is_writer;

pub struct Bench<P> {
    norrabist: P,
    pub reading: Reading,
    writing: Writing,
    pub randoms: Randoms,
    pub exactness: Exactness,
    pub extensions: Extensions,
}

impl<P: Norrabist> Bench<P> {
    pub fn new(norrabist: P) -> Self {
        let (reading, writing, randoms) = (Reading::default(), Writing::default(), Randoms::default());
        let (exactness, extensions) = (Exactness::default(), Extensions::default());
        Bench { norrabist, reading, writing, randoms, exactness, extensions }
    }

    pub fn compare(&mut self, case: &Case) -> Verdict {
        let verdict = if is_writer(case.function) {
            self.writing.compare(&self.norrabist, case)
        } else {
            self.reading.compare(&self.norrabist, case)
        };
        let randoms = self.randoms.compare(&self.norrabist, case, verdict);
        let exactness = self.exactness.compare(&self.norrabist, case, verdict);
        let extensions = self.extensions.compare(&self.norrabist, case, verdict);
        if randoms && exactness && extensions {
            verdict
        } else {
            Verdict::Differs
        }
    }

    /// What tls-parser and Norrabist said to the last case.
    pub fn told(&self, case: &Case) -> (String, String) {
        let (tls_parser, norrabist) =
            if is_writer(case.function) { self.writing.told() } else { self.reading.told() };
        let besides = [self.randoms.told(), self.exactness.told(), self.extensions.told()];
        let besides = besides.into_iter().flatten();
        besides.fold((tls_parser, norrabist), |(tls_parser, norrabist), (one, other)| {
            (format!("{tls_parser}, {one}"), format!("{norrabist}, {other}"))
        })
    }
}
