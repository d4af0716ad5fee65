//! Tests of `extensions_written.rs` and of the way back, which those of the Rust binding run too
//! (`rust/tests/extension_blocks.rs`).

use super::extensions_written::{is_filled, name, one, row, values, Unwritten, Value};

use Unwritten::{BadLength, NotYet};

/// The text of an extension by itself, and in a row of its own.
fn alone(value: Value, text: &[u8]) {
    assert_eq!(one(&value).as_deref(), Ok(text));
    let len = u16::try_from(text.len()).expect("a length").to_be_bytes();
    assert_eq!(row(&[value]), Ok([&len[..], text].concat()));
}

#[test]
fn the_smallest() {
    assert_eq!(row(&[]), Ok(vec![0, 0]));
    alone(Value::Names(&[]), &[0, 0, 0, 2, 0, 0]);
    alone(Value::Names(&[0, 0, 1, 0x61]), &[0, 0, 0, 6, 0, 4, 0, 0, 1, 0x61]);
    alone(Value::Fragment(4), &[0, 1, 0, 1, 4]);
    alone(Value::Groups(&[]), &[0, 10, 0, 2, 0, 0]);
    alone(Value::Groups(&[0, 29]), &[0, 10, 0, 4, 0, 2, 0, 29]);
    assert_eq!(name(0, b"a"), Ok(vec![0, 0, 1, 0x61]));
    assert_eq!(name(7, b""), Ok(vec![7, 0, 0]));
    assert_eq!((NotYet.number(), BadLength.number()), (12, 8));
}

#[test]
fn what_is_no_list() {
    for list in [&[0][..], &[0, 0], &[0, 0, 1], &[0, 0, 0, 0], &[0, 0, 2, 0x61], &[0, 0, 0, 1, 0, 1]] {
        assert!(!is_filled(list));
        assert_eq!(one(&Value::Names(list)), Err(BadLength));
        assert_eq!(row(&[Value::Fragment(1), Value::Names(list)]), Err(BadLength));
    }
    for n in [1, 3, 65_535] {
        assert_eq!(one(&Value::Groups(&vec![0; n])), Err(BadLength));
        assert_eq!(row(&[Value::Groups(&vec![0; n]), Value::Fragment(1)]), Err(BadLength));
    }
}

/// A raw item anywhere comes before lengths that do not fit.
#[test]
fn raw_first() {
    let (raw, odd, fine) = (Value::Raw(10, &[0, 0]), Value::Groups(&[0]), Value::Fragment(1));
    let long = vec![0; 65_536];
    let long = Value::Groups(&long);
    for of in [0, 1, 2, 10, 0x0a0a, 0xffff] {
        assert_eq!(one(&Value::Raw(of, &[])), Err(NotYet));
    }
    for bad in [odd, long, Value::Names(&[0])] {
        for list in [[raw, bad, fine], [bad, raw, fine], [bad, fine, raw], [fine, bad, raw]] {
            assert_eq!(row(&list), Err(NotYet));
        }
        assert_eq!(row(&[fine, bad, fine]), Err(BadLength));
    }
}

/// Names of so many bytes each, as a list.
fn names(lengths: &[usize]) -> Vec<u8> {
    lengths.iter().flat_map(|n| name(0, &vec![0x61; *n]).expect("a name")).collect()
}

fn len(text: Result<Vec<u8>, Unwritten>) -> Result<usize, Unwritten> {
    text.map(|text| text.len())
}

#[test]
fn the_longest_names() {
    assert_eq!(len(name(0, &[0; 65_535])), Ok(65_538));
    assert_eq!(len(name(0, &[0; 65_536])), Err(BadLength));
    // behind the outer length, and by itself
    assert_eq!(len(row(&[Value::Names(&names(&[65_526]))])), Ok(65_537));
    assert_eq!(len(row(&[Value::Names(&names(&[65_527]))])), Err(BadLength));
    assert_eq!(len(one(&Value::Names(&names(&[65_527])))), Ok(65_536));
    assert_eq!(len(one(&Value::Names(&names(&[65_530])))), Ok(65_539));
    for list in [names(&[65_531]), names(&[65_532]), names(&[65_533]), names(&[65_535, 65_535])] {
        assert_eq!(one(&Value::Names(&list)), Err(BadLength));
        assert_eq!(row(&[Value::Names(&list)]), Err(BadLength));
    }
    assert_eq!(len(row(&[Value::Names(&names(&[30_000, 35_523]))])), Ok(65_537));
    assert_eq!(len(row(&[Value::Names(&names(&[30_000, 35_524]))])), Err(BadLength));
}

#[test]
fn the_longest_groups() {
    let groups = vec![0; 131_072];
    assert_eq!(len(row(&[Value::Groups(&groups[..2 * 32_764])])), Ok(65_536));
    assert_eq!(len(row(&[Value::Groups(&groups[..2 * 32_765])])), Err(BadLength));
    assert_eq!(len(one(&Value::Groups(&groups[..2 * 32_765]))), Ok(65_536));
    assert_eq!(len(one(&Value::Groups(&groups[..2 * 32_766]))), Ok(65_538));
    for n in [65_534, 65_536, 131_072] {
        assert_eq!(one(&Value::Groups(&groups[..n])), Err(BadLength));
        assert_eq!(row(&[Value::Groups(&groups[..n])]), Err(BadLength));
    }
}

/// The outer length counts all of a row.
#[test]
fn the_longest_rows() {
    let value = Value::Fragment(1);
    assert_eq!(len(row(&vec![value; 13_107])), Ok(65_537));
    assert_eq!(len(row(&vec![value; 13_108])), Err(BadLength));
    let list = names(&[65_521]);
    assert_eq!(len(row(&[Value::Names(&list), value])), Ok(65_537));
    assert_eq!(len(row(&[value, Value::Names(&list), value])), Err(BadLength));
    let half = vec![0; 32_758];
    assert_eq!(len(row(&[Value::Groups(&half), Value::Groups(&half)])), Ok(65_530));
    assert_eq!(len(row(&[Value::Groups(&half), Value::Groups(&half), value])), Ok(65_535));
    assert_eq!(len(row(&[Value::Groups(&half), Value::Groups(&half), value, value])), Err(BadLength));
}

/// Every word of so many of these letters behind given bytes: what is taken without a raw item is
/// written back behind its length. How many are, how many have a raw item, and how many are damaged.
fn there_and_back(before: &[u8], letters: &[u8], most: u32) -> [u32; 3] {
    let (k, mut counts) = (letters.len(), [0; 3]);
    for n in 0..=most {
        for code in 0..k.pow(n) {
            let word = (0..n).map(|place| letters[code / k.pow(place) % k]);
            let i: Vec<u8> = before.iter().copied().chain(word).collect();
            let Ok(values) = values(&i) else {
                counts[2] += 1;
                continue;
            };
            match row(&values) {
                Ok(text) => {
                    assert_eq!((&text[..2], &text[2..]), (&[0, i.len() as u8][..], &i[..]));
                    counts[0] += 1;
                }
                Err(unwritten) => {
                    assert_eq!(unwritten, NotYet);
                    counts[1] += 1;
                }
            }
        }
    }
    counts
}

#[test]
fn all_short_blocks() {
    assert_eq!(there_and_back(&[], &[0, 1, 2, 4, 10], 8), [33, 14_916, 473_332]);
    assert_eq!(there_and_back(&[0, 0, 0], &[0, 1, 2, 3, 4, 5, 6], 7), [57, 47, 960_696]);
    assert_eq!(there_and_back(&[0, 10, 0], &[0, 1, 2, 3, 4, 6], 7), [1_333, 34, 334_556]);
}
