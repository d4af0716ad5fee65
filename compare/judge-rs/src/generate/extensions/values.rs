//! Extensions to be written: each kind alone and in rows, and every length at its edges.

use super::super::collect::Cases;
use super::items::name;
use crate::account::extensions_written::Value;
use crate::bytes::{join, run, telling};
use crate::extension::{said, said_row, Name};
use crate::table::{GEN_EXTENSION, GEN_EXTENSIONS, GEN_SERVER_NAME};

const VALUE: Value = Value::Fragment(2);
const RAW: Value = Value::Raw(23, &[]);

/// Lists that names fill, and bytes that none fill.
const NAMES: [&[u8]; 11] = [
    &[],
    &[0, 0, 0],
    &[0, 0, 1, 0x61],
    &[0, 0, 1, 0x61, 7, 0, 0, 0xff, 0, 2, 0, 0],
    &[0],
    &[0, 0],
    &[0, 0, 1],
    &[0, 0, 0, 0],
    &[0, 0, 2, 0x61],
    &[0, 1, 0, 0x61],
    &[0, 0, 1, 0x61, 0, 0, 2, 0x61],
];
const GROUPS: [&[u8]; 6] = [&[], &[0, 29], &[0, 29, 1, 0], &[0], &[0, 29, 0], &[0xff; 7]];

pub fn add(cases: &mut Cases) {
    row(cases, &[]);
    small().iter().for_each(|value| both(cases, value));
    rows(cases);
    long_names(cases);
    long_groups(cases);
    long_rows(cases);
    server_names(cases);
}

fn row(cases: &mut Cases, values: &[Value]) {
    cases.add(GEN_EXTENSIONS, &said_row(values));
}

/// By itself, and in a row of its own.
fn both(cases: &mut Cases, value: &Value) {
    cases.add(GEN_EXTENSION, &said(value));
    row(cases, &[*value]);
}

fn small() -> Vec<Value<'static>> {
    let raw = [(23, &[][..]), (0, &[0, 0]), (0, &[]), (1, &[1]), (10, &[0, 2, 0, 29]), (0x0a0a, &[0])];
    let values = [0, 1, 4, 0xff].map(Value::Fragment);
    let raw = raw.map(|(of, data)| Value::Raw(of, data));
    let lists = NAMES.map(Value::Names).into_iter().chain(GROUPS.map(Value::Groups));
    lists.chain(values).chain(raw).collect()
}

/// Good, odd and raw ones in every order of three.
fn rows(cases: &mut Cases) {
    let some = [Value::Names(NAMES[3]), Value::Groups(GROUPS[2]), VALUE, RAW, Value::Groups(&[0])];
    for first in some {
        for second in some {
            row(cases, &[first, second]);
            row(cases, &[second, first, VALUE]);
        }
    }
    row(cases, &[some[0], some[1], some[2], some[1], some[0], some[2]]);
}

fn long_names(cases: &mut Cases) {
    for n in [255, 256, 65_526, 65_527, 65_530, 65_531, 65_532, 65_533, 65_535] {
        let list = name(0, &telling(n));
        both(cases, &Value::Names(&list));
        row(cases, &[RAW, Value::Names(&list)]);
    }
    // a byte that is in no name behind a long one
    both(cases, &Value::Names(&join(&[&name(0, &run(1, 65_520)), &[0]])));
    for n in [65_523, 65_524] {
        row(cases, &[Value::Names(&join(&[&name(0, &run(1, 30_000)), &name(1, &run(2, n - 30_000))]))]);
    }
}

fn long_groups(cases: &mut Cases) {
    for n in [127, 128, 32_764, 32_765, 32_766, 32_767, 32_768, 32_769] {
        both(cases, &Value::Groups(&telling(2 * n)));
    }
    both(cases, &Value::Groups(&telling(65_529)));
    row(cases, &[Value::Groups(&telling(65_534)), RAW]);
}

/// Rows whose length is round the most that it can be.
fn long_rows(cases: &mut Cases) {
    row(cases, &[VALUE; 256]);
    for n in [65_520, 65_521, 65_522] {
        row(cases, &[Value::Names(&name(0, &run(1, n))), VALUE]);
        row(cases, &[VALUE, Value::Names(&name(0, &run(1, n)))]);
    }
    for n in [32_758, 32_760, 32_762] {
        row(cases, &[Value::Groups(&telling(n)), Value::Groups(&telling(n)), VALUE]);
    }
}

fn server_names(cases: &mut Cases) {
    for n in [0, 1, 2, 255, 256, 257, 65_526, 65_534, 65_535, 65_536, 65_537, 131_071, 131_072] {
        cases.add(GEN_SERVER_NAME, &Name { of: 0, name: &telling(n) }.bytes());
    }
    for of in [1, 7, 0xff] {
        cases.add(GEN_SERVER_NAME, &Name { of, name: &[0x61, 0x62] }.bytes());
    }
}
