//! The cases: first those that are the same for every seed, then drawn ones without end.

mod chance;
mod collect;
mod contents;
mod damage;
mod drawn_records;
mod drawn_tickets;
mod exact;
mod extensions;
mod good;
mod hellos;
mod joined;
mod lists;
mod messages;
mod others;
mod records;
mod rows;
mod tickets;
mod writes;

use crate::{case::Case, domain, rng::Rng, table::EXTENSIONS};
use collect::Cases;
use std::io;

type Out<'a> = &'a mut dyn FnMut(&Case) -> io::Result<()>;

/// One in so many drawn readings is of a NewSessionTicket.
const TICKETS: usize = 12;

/// Hands out `many` cases of the readers; the same seed gives the same ones.
pub fn generate(seed: u64, many: u64, out: Out) -> io::Result<()> {
    let (good, hellos, messages) = (good::cases(), good::hellos(), good::short_messages());
    // Tickets are drawn from a source of their own, so that the others are the same without them.
    let (mut tickets, mut turn) = (Rng::new(seed.rotate_left(16)), 0);
    hand_out(fixed(), seed, many, out, |rng| {
        turn += 1;
        match turn % TICKETS {
            0 => drawn_tickets::draw(&mut tickets, &messages),
            _ => chance::draw(rng, &good, &hellos),
        }
    })
}

/// Hands out `many` cases of the writers, likewise.
pub fn generate_writes(seed: u64, many: u64, out: Out) -> io::Result<()> {
    let messages = writes::good_messages();
    let mut held = |case: &Case| {
        domain::hold(case);
        out(case)
    };
    hand_out(writes::fixed(), seed, many, &mut held, |rng| writes::draw(rng, &messages))
}

/// Hands out `many` extension blocks, likewise.
pub fn generate_blocks(seed: u64, many: u64, out: Out) -> io::Result<()> {
    let real = extensions::real_blocks();
    hand_out(extensions::fixed_blocks(), seed, many, out, |rng| {
        let input = extensions::draw_block(rng, &real);
        Case { function: EXTENSIONS, length: None, input }
    })
}

/// Hands out `many` cases of the writers of extensions, likewise.
pub fn generate_extensions(seed: u64, many: u64, out: Out) -> io::Result<()> {
    let real = extensions::real_blocks();
    hand_out(extensions::fixed_values(), seed, many, out, |rng| extensions::draw_value(rng, &real))
}

fn hand_out(
    fixed: Vec<Case>,
    seed: u64,
    many: u64,
    out: Out,
    mut draw: impl FnMut(&mut Rng) -> Case,
) -> io::Result<()> {
    let many = usize::try_from(many).expect("a count of 64 bits");
    for case in fixed.iter().take(many) {
        out(case)?;
    }
    let mut rng = Rng::new(seed);
    for _ in fixed.len()..many {
        out(&draw(&mut rng))?;
    }
    Ok(())
}

/// The cases that every run begins with, the rows of RULES 8 first.
fn fixed() -> Vec<Case> {
    let mut cases = Cases::default();
    rows::add(&mut cases);
    hellos::add(&mut cases);
    others::add(&mut cases);
    lists::add(&mut cases);
    messages::add(&mut cases);
    records::add(&mut cases);
    contents::add(&mut cases);
    joined::add(&mut cases);
    good::add(&mut cases);
    damage::add(&mut cases);
    exact::add(&mut cases);
    tickets::add(&mut cases);
    cases.list
}
