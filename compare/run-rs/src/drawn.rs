//! The generator's cases, with handshake messages in records of other types among them.

use judge::case::Case;
use judge::generate;
use judge::rng::Rng;
use judge::table::record_type::OTHERS;
use judge::table::PLAINTEXT;
use std::io;

type Out<'a> = &'a mut dyn FnMut(&Case) -> io::Result<()>;

/// One in so many plaintext records gets another type.
const SHARE: usize = 16;

pub fn readings(seed: u64, many: u64, out: Out) -> io::Result<()> {
    let mut rng = Rng::new(!seed);
    generate::generate(seed, many, &mut |case| {
        if case.function != PLAINTEXT || case.input.is_empty() || rng.below(SHARE) > 0 {
            return out(case);
        }
        let mut other = case.clone();
        other.input[0] = *rng.pick(&OTHERS);
        out(&other)
    })
}

pub fn blocks(seed: u64, many: u64, out: Out) -> io::Result<()> {
    generate::generate_blocks(seed, many, out)
}

pub fn extensions(seed: u64, many: u64, out: Out) -> io::Result<()> {
    generate::generate_extensions(seed, many, out)
}

pub fn writings(seed: u64, many: u64, out: Out) -> io::Result<()> {
    generate::generate_writes(seed, many, out)
}
