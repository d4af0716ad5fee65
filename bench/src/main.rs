//! Norrabist, tls-parser and a floor written by hand, on the same inputs, in one program. `run`
//! builds it, calls it and prints what it says:
//!
//! - `bench check`: all sides see the same, and the floor makes Norrabist's checks.
//! - `bench list`: the classes, one to a line: name, what is asked of a release build and with LTO
//!   (`-` for nothing), how often `count` is to run it (0 for never), and what to divide by.
//! - `bench time`: the classes with the times of the three sides, in nanoseconds.
//! - `bench grow`: what grows, side and nanoseconds a KB at each length.
//! - `bench count CLASS SIDE TIMES`: runs one side so many times, for a counter of instructions.

mod check;
mod classes;
mod floor;
mod inputs;
mod norrabist;
mod numbers;
mod tap;
mod timing;
mod tls_parser;

use classes::{Class, LENGTHS, SIDES};
use std::env;
use std::process::exit;

/// What `step` sees, one after the other, until it refuses: the sum.
#[inline(always)]
fn each<'a>(mut i: &'a [u8], step: impl Fn(&'a [u8]) -> Option<(&'a [u8], usize)>) -> usize {
    let mut sum = 0usize;
    while let Some((rest, seen)) = step(i) {
        sum = sum.wrapping_add(seen);
        i = rest;
    }
    sum
}

/// Numbers by chance, the same in every run (xorshift64).
struct Random(u64);

impl Random {
    fn new() -> Self {
        Random(0x9e37_79b9_7f4a_7c15)
    }

    /// A number below `limit`.
    fn below(&mut self, limit: usize) -> usize {
        self.0 ^= self.0 << 13;
        self.0 ^= self.0 >> 7;
        self.0 ^= self.0 << 17;
        (self.0 % limit.max(1) as u64) as usize
    }
}

fn main() {
    let words: Vec<String> = env::args().skip(1).collect();
    let words: Vec<&str> = words.iter().map(String::as_str).collect();
    match words[..] {
        ["check"] => check::all(),
        ["list"] => classes::all().iter().for_each(list),
        ["time"] => classes::all().iter().for_each(time),
        ["grow"] => classes::growths().iter().for_each(grow),
        ["count", name, side, times] => count(name, side, times),
        _ => usage(),
    }
}

fn list(class: &Class) {
    let asked = |ratio: Option<f64>| ratio.map_or("-".to_string(), |ratio| format!("{ratio:?}"));
    let (release, lto) = (asked(class.asked.release), asked(class.asked.lto));
    println!("{} {release} {lto} {} {}", class.name, class.times, class.parts);
}

fn time(class: &Class) {
    let mut work = class.work();
    check::sums(class.name, &mut work);
    let [norrabist, tls_parser, floor] = timing::best(&mut work).map(|time| time / class.parts as f64);
    println!("{} {norrabist:.2} {tls_parser:.2} {floor:.2}", class.name);
}

fn grow(growth: &classes::Growth) {
    let mut kilobyte = [const { Vec::new() }; SIDES.len()];
    for len in LENGTHS {
        let mut work = growth.work(len);
        check::sums(growth.name, &mut work);
        let times = timing::best(&mut work);
        kilobyte.iter_mut().zip(times).for_each(|(all, time)| all.push(time / (len as f64 / 1024.0)));
    }
    for (side, times) in SIDES.iter().zip(kilobyte) {
        print!("{} {side}", growth.name);
        times.iter().for_each(|time| print!(" {time:.2}"));
        println!();
    }
}

fn count(name: &str, side: &str, times: &str) {
    let class = classes::all().into_iter().find(|class| class.name == name).unwrap_or_else(|| usage());
    let side = SIDES.iter().position(|known| *known == side).unwrap_or_else(|| usage());
    let times = times.parse().unwrap_or_else(|_| usage());
    println!("{}", class.work().run(side, times));
}

fn usage() -> ! {
    eprintln!("bench check | bench list | bench time | bench grow | bench count CLASS SIDE TIMES");
    exit(2)
}
