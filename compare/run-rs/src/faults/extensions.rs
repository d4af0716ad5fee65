//! Faults of the reader of extension blocks. Where they apply is told by the account.
#![allow(clippy::ptr_arg)] // they all have one type

use judge::account::extensions::{groups, names, open, split, Entry, Harm, Item, Part};
use judge::account::{self, told_block, Class, Stands};
use judge::answer;
use judge::case::Case;
use judge::table::refusal::LENGTH_VALUE;
use judge::table::EXTENSIONS;

/// What is made of an item that is damaged so; none where it is refused.
type Taken = fn(&[u8], &Entry, Harm) -> Option<Item>;

/// The answer where damaged items are taken so, if some are.
fn taken(case: &Case, to: &mut Vec<u64>, so: Taken) {
    if case.function != EXTENSIONS || to[0] == 0 {
        return;
    }
    let (entries, end) = split(&case.input);
    let mut items = Vec::new();
    for (index, entry) in entries.iter().enumerate() {
        let opened = open(&case.input, entry);
        match opened.or_else(|harm| so(&case.input, entry, harm).ok_or(harm)) {
            Ok(item) => items.push(item),
            Err(_) => return *to = vec![LENGTH_VALUE, index as u64],
        }
    }
    if end < case.input.len() {
        return *to = vec![LENGTH_VALUE, entries.len() as u64];
    }
    to.clear();
    told_block(to, case.input.len(), &items);
}

/// A list of an item with other bytes.
fn list(i: &[u8], entry: &Entry, part: Part) -> Item {
    match entry.of {
        0 => Item::Names(names(i, part).0),
        _ => Item::Groups(groups(i, part)),
    }
}

/// How many bytes the length of an item's list says, and how many stand behind it.
fn lengths(i: &[u8], entry: &Entry) -> (usize, usize) {
    let (at, len) = entry.data;
    (usize::from(i[at]) << 8 | usize::from(i[at + 1]), len - 2)
}

pub fn odd(case: &Case, to: &mut Vec<u64>) {
    taken(case, to, |i, entry, harm| {
        let (at, len) = entry.data;
        (harm == Harm::Odd).then(|| list(i, entry, (at + 2, len - 2)))
    });
}

/// The list is what there is.
pub fn over(case: &Case, to: &mut Vec<u64>) {
    taken(case, to, |i, entry, harm| {
        let is_over = harm == Harm::Unlike && lengths(i, entry).0 > lengths(i, entry).1;
        is_over.then(|| list(i, entry, (entry.data.0 + 2, lengths(i, entry).1)))
    });
}

/// The list is what the length says.
pub fn under(case: &Case, to: &mut Vec<u64>) {
    taken(case, to, |i, entry, harm| {
        let is_under = harm == Harm::Unlike && lengths(i, entry).0 < lengths(i, entry).1;
        is_under.then(|| list(i, entry, (entry.data.0 + 2, lengths(i, entry).0)))
    });
}

pub fn empty(case: &Case, to: &mut Vec<u64>) {
    taken(case, to, |_, entry, _| (entry.of == 0 && entry.data.1 == 0).then(|| Item::Names(Vec::new())));
}

pub fn fragment(case: &Case, to: &mut Vec<u64>) {
    taken(case, to, |i, entry, harm| {
        (harm == Harm::Fragment && entry.data.1 == 2).then(|| Item::Fragment(i[entry.data.0]))
    });
}

pub fn unfilled(case: &Case, to: &mut Vec<u64>) {
    taken(case, to, |i, entry, harm| {
        let (at, len) = entry.data;
        (harm == Harm::Name).then(|| list(i, entry, (at + 2, len - 2)))
    });
}

/// The items before the first that is damaged.
pub fn before(case: &Case, to: &mut Vec<u64>) {
    if case.function != EXTENSIONS || to[0] == 0 || to[1] == 0 {
        return;
    }
    let entries = split(&case.input).0;
    let good = entries.iter().map_while(|entry| open(&case.input, entry).ok());
    let good: Vec<Item> = good.collect();
    let (at, len) = entries[good.len() - 1].data;
    to.clear();
    told_block(to, at + len, &good);
}

pub fn index(case: &Case, to: &mut Vec<u64>) {
    if case.function == EXTENSIONS && to[0] == LENGTH_VALUE {
        to[1] += 1;
    }
}

/// The index of the last item that is damaged.
pub fn last(case: &Case, to: &mut Vec<u64>) {
    if case.function == EXTENSIONS && to[0] == LENGTH_VALUE {
        let (entries, end) = split(&case.input);
        let bad = entries.iter().rposition(|entry| open(&case.input, entry).is_err());
        to[1] = if end < case.input.len() { entries.len() } else { bad.unwrap_or(0) } as u64;
    }
}

/// A cut item is left out.
pub fn cut(case: &Case, to: &mut Vec<u64>) {
    let (_, end) = split(&case.input);
    if case.function == EXTENSIONS && end < case.input.len() {
        account::asked(&Case { input: case.input[..end].to_vec(), ..case.clone() }, to);
    }
}

/// Refused where tls-parser cannot open a raw item, and the account takes the block.
pub fn opened(case: &Case, to: &mut Vec<u64>) {
    if case.function != EXTENSIONS || to[0] != 0 {
        return;
    }
    let mut theirs = Vec::new();
    answer::read(case, &mut theirs);
    if account::of(case, &theirs, &mut Vec::new()) == Stands::Parted(Class::OpenedThere) {
        *to = vec![LENGTH_VALUE, theirs[2]];
    }
}

/// Of a block of one list of names, which has two and more.
pub fn name(case: &Case, to: &mut Vec<u64>) {
    if case.function == EXTENSIONS && to[0] == 0 && to[2] == 1 && to[3..5] == [0, 1] && to[5] >= 2 {
        to[5] -= 1;
        to.truncate(to.len() - 3);
    }
}

/// The type of the last name of the same as 0.
pub fn name_type(case: &Case, to: &mut Vec<u64>) {
    if case.function == EXTENSIONS && to[0] == 0 && to[2] == 1 && to[3..5] == [0, 1] && to[5] >= 1 {
        let at = to.len() - 3;
        to[at] = 0;
    }
}

/// The first group of a block of groups alone.
pub fn group(case: &Case, to: &mut Vec<u64>) {
    if case.function == EXTENSIONS && to[0] == 0 && to[2] == 1 && to[3..5] == [10, 1] && to[5] >= 1 {
        to[6] = u64::from((to[6] as u16).swap_bytes());
    }
}

/// Of tls-parser: a block that is read to its end with an item too many counted.
pub fn amiss(case: &Case, to: &mut Vec<u64>) {
    if case.function == EXTENSIONS && to[1] == case.input.len() as u64 && to[2] > 2 {
        to[2] += 1;
    }
}

/// Of the items one by one: one past the last.
pub fn past(_: &Case, to: &mut Vec<u64>) {
    to.last_mut().into_iter().for_each(|past| *past = 1);
}

/// Likewise: the fragment value of a block that has nothing else.
pub fn value(_: &Case, to: &mut Vec<u64>) {
    if let [1, 1, 1, value, _] = &mut to[..] {
        *value = 0;
    }
}
