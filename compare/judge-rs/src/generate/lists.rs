//! The bodies with lists: certificates, and both forms of the request.

use super::collect::Cases;
use crate::bytes::{announced, counted, hex, join, run};
use crate::table::kind;

pub fn add(cases: &mut Cases) {
    certificates(cases);
    large_certificates(cases);
    requests(cases);
    request_forms(cases);
    large_requests(cases);
}

/// Lists of whole, empty and cut items, announced as long, one less, one more.
fn certificates(cases: &mut Cases) {
    let lists = [
        "",
        "00",
        "0000",
        "000000",
        "000000 00",
        "000000 0000",
        "000000 000000",
        "000001",
        "000001 aa",
        "000001 aa ff",
        "000001 aa 0000",
        "000001 aa 000002 bb",
        "000001 aa 000002 bbcc",
        "000002 aa",
        "000000 000001 aa 000000",
        "000003 aabbcc 000000 000002 ddee",
        "ffffff aa",
        "000001 aa 010000 bb",
    ];
    for list in lists {
        let list = hex(list);
        for n in [list.len().saturating_sub(1), list.len(), list.len() + 1] {
            cases.mostly(kind::Certificate, &announced(3, n, &list));
        }
    }
    for body in ["", "00", "0000", "ffffff", "00ffff", "000000ee", "000003000000ee"] {
        cases.everywhere(kind::Certificate, &hex(body));
    }
}

fn large_certificates(cases: &mut Cases) {
    for n in [255usize, 256, 65536] {
        for announced_n in [n - 1, n, n + 1] {
            let item = announced(3, announced_n, &run(0x5a, n));
            cases.body(kind::Certificate, &counted(3, &item));
        }
    }
    // Nothing but empty items, with each possible remainder.
    for n in [60, 61, 62] {
        cases.mostly(kind::Certificate, &counted(3, &run(0, n)));
    }
}

/// Types, signature pairs and names of small lengths, each with each.
fn requests(cases: &mut Cases) {
    let types = ["00", "01 40", "02 40"];
    let pairs = ["", "0000", "0001 04", "0002 0403", "0003 040308", "0004 04030804"];
    let names = ["", "0000", "0001 00", "0002 0000", "0003 0001aa", "0004 0001aaff", "0004 0002aa"];
    for t in types {
        for p in pairs {
            for n in names {
                cases.one(kind::CertificateRequest, &join(&[&hex(t), &hex(p), &hex(n)]));
            }
        }
    }
}

/// Bodies where the choice of the form, or what is left, is the point.
fn request_forms(cases: &mut Cases) {
    let bodies = [
        "",
        "00",
        "0000",
        "01",
        "0140",
        "014000",
        "01400000",
        "0140000000",
        "00 0002 0000 0000",
        "00 0004 0000 0000",
        "00 0004 0001 aaff",
        "00 0000 0000 ee",
        "00 0000 ee",
        "00 0002 0403 0000 ee",
        "00 0002 0403 0001",
        "00 0002 0403 0002 0000",
        "00 0002 0403 0005 0001aa 00",
        "00 0003 0001 aa",
        "00 0003 0001 aa 00",
        "00 0003 0001 aa 0000",
        "00 ffff",
        "00 0000 ffff",
        "00 0001 00 0001",
        "00 0006 0002 aabb 0000",
        "02 0140 0008 0002 aabb 0002 ccdd",
    ];
    for body in bodies {
        cases.mostly(kind::CertificateRequest, &hex(body));
    }
}

fn large_requests(cases: &mut Cases) {
    for there in [254, 255, 256] {
        let types = announced(1, 255, &run(0x40, there));
        cases.mostly(kind::CertificateRequest, &types);
        cases.mostly(kind::CertificateRequest, &join(&[&types, &[0, 2, 4, 3, 0, 2, 0, 0]]));
    }
    // Pairs and one name as long as their lengths can say.
    for n in [65534usize, 65535] {
        let pairs = counted(2, &run(4, n));
        let name = counted(2, &counted(2, &run(0x5a, n - 2)));
        cases.body(kind::CertificateRequest, &join(&[&[0], &pairs, &[0, 0]]));
        cases.body(kind::CertificateRequest, &join(&[&[0], &pairs, &[0]]));
        cases.body(kind::CertificateRequest, &join(&[&[0, 0, 0], &name]));
        cases.body(kind::CertificateRequest, &join(&[&[0], &name]));
        cases.body(kind::CertificateRequest, &join(&[&[0], &name[..name.len() - 1]]));
    }
}
