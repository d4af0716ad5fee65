//! A tap: many flows, each with a buffer of its own that holds its records, met in no order.

use crate::{floor, inputs, norrabist, tls_parser};

/// A flow: its records, and how far they are read.
struct Flow {
    bytes: Box<[u8]>,
    at: usize,
}

/// The same flow for C: `struct flow` of `tap.c`.
#[repr(C)]
struct LentFlow {
    bytes: *const u8,
    len: usize,
    at: usize,
}

/// The flows, the order in which they are met, and how many records each has.
pub struct Tap {
    flows: Vec<Flow>,
    lent: Vec<LentFlow>,
    order: Vec<u32>,
    rounds: usize,
}

/// Reads all records of all flows: the sum of what was seen.
pub type Pass = fn(&mut Tap) -> usize;

impl Tap {
    pub fn new(count: usize) -> Tap {
        // hellos of four captures and of three: twelve buffers are all that there are
        let kinds: Vec<Vec<Vec<u8>>> = (0..12).map(inputs::flow).collect();
        let flow = |k: usize| Flow { bytes: kinds[k % kinds.len()].concat().into(), at: 0 };
        let flows: Vec<Flow> = (0..count).map(flow).collect();
        let lend = |flow: &Flow| LentFlow { bytes: flow.bytes.as_ptr(), len: flow.bytes.len(), at: 0 };
        let lent = flows.iter().map(lend).collect();
        Tap { flows, lent, order: shuffled(count), rounds: kinds[0].len() }
    }

    /// One record of each flow, then the next of each, until all are read.
    #[inline(always)]
    fn pass(&mut self, step: impl Fn(&[u8]) -> Option<(&[u8], usize)>) -> usize {
        let mut sum = 0usize;
        self.flows.iter_mut().for_each(|flow| flow.at = 0);
        for _ in 0..self.rounds {
            for k in &self.order {
                let flow = &mut self.flows[*k as usize];
                let Some((rest, seen)) = step(&flow.bytes[flow.at..]) else { return usize::MAX };
                flow.at = flow.bytes.len() - rest.len();
                sum = sum.wrapping_add(seen);
            }
        }
        sum
    }
}

/// The numbers below `count`, each one once, in an order that no cache foresees.
fn shuffled(count: usize) -> Vec<u32> {
    let mut order: Vec<u32> = (0..count as u32).collect();
    let mut random = crate::Random::new();
    for k in (1..count).rev() {
        order.swap(k, random.below(k + 1));
    }
    order
}

#[inline(never)]
pub fn norrabist(tap: &mut Tap) -> usize {
    tap.pass(norrabist::step)
}

#[inline(never)]
pub fn tls_parser(tap: &mut Tap) -> usize {
    tap.pass(tls_parser::step)
}

#[inline(never)]
pub fn floor(tap: &mut Tap) -> usize {
    tap.pass(floor::step)
}

extern "C" {
    fn tap_pass(flows: *mut LentFlow, order: *const u32, count: usize, rounds: usize) -> usize;
}

/// Norrabist by a program in C, through its header alone.
#[inline(never)]
pub fn norrabist_c(tap: &mut Tap) -> usize {
    // SAFETY: `lent` holds as many flows as `order` numbers below that; their bytes are those of
    // `flows`, which live as long and are not changed.
    unsafe { tap_pass(tap.lent.as_mut_ptr(), tap.order.as_ptr(), tap.order.len(), tap.rounds) }
}
