//! The bodies without lists: the functions with a length argument, the status, the next protocol, the
//! key update, the hello request.

use super::collect::Cases;
use crate::bytes::{announced, hex, join, run};
use crate::table::{kind, limit, MSG_TICKET, SIZED};

pub fn add(cases: &mut Cases) {
    lengths(cases);
    statuses(cases);
    next_protocols(cases);
    for body in ["", "00", "01", "ff", "0001", "00ff00"] {
        for of in [kind::KeyUpdate, kind::HelloRequest, kind::EndOfEarlyData] {
            cases.everywhere(of, &hex(body));
        }
    }
    for body in ["", "7f", "7f12", "7f1213", "7f121301", "0303", "03040000", "0000000000000000"] {
        cases.mostly(kind::HelloRetryRequest, &hex(body));
    }
}

/// Length arguments from 0, round the bytes there are, and very large.
fn lengths(cases: &mut Cases) {
    for name in SIZED {
        let sizes: &[u64] = if name == MSG_TICKET { &[0, 1, 3, 4, 5, 9] } else { &[0, 1, 5] };
        for there in sizes.iter().copied() {
            let input: Vec<u8> = (1..=there as u8).collect();
            let round = [there.saturating_sub(1), there, there + 1];
            let large = [limit::BODY as u64, 1 << 32, u64::MAX];
            for length in (0..=5).chain(round).chain(large) {
                cases.add_sized(name, length, &input);
            }
        }
        let long = run(0x5a, 70_000);
        [69_999, 70_000, 70_001].into_iter().for_each(|n| cases.add_sized(name, n, &long));
    }
}

fn statuses(cases: &mut Cases) {
    for body in ["", "01", "0100", "010000", "01000000", "00000000", "ff000001", "01000001aa", "01000001aaee"]
    {
        cases.everywhere(kind::CertificateStatus, &hex(body));
    }
    for n in [255usize, 65536] {
        for there in [n - 1, n, n + 1] {
            let blob = announced(3, n, &run(0x5a, there));
            cases.mostly(kind::CertificateStatus, &join(&[&[1], &blob]));
        }
    }
    cases.everywhere(kind::CertificateStatus, &hex("01ffffff"));
}

fn next_protocols(cases: &mut Cases) {
    for body in [
        "",
        "00",
        "01",
        "0000",
        "000000",
        "0001",
        "0001aa",
        "01aa",
        "01aa00",
        "01aa01",
        "01aa01bb",
        "01aa01bbee",
        "0001aaee",
    ] {
        cases.mostly(kind::NextProtocol, &hex(body));
    }
    for there in [254, 255, 256, 257] {
        cases.mostly(kind::NextProtocol, &announced(1, 255, &run(0x5a, there)));
        cases.mostly(kind::NextProtocol, &join(&[&[0], &announced(1, 255, &run(0x5a, there))]));
        cases.mostly(
            kind::NextProtocol,
            &join(&[&announced(1, 255, &run(0x5a, 255)), &announced(1, 255, &run(0xa5, there))]),
        );
    }
}
