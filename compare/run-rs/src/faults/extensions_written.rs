//! Faults of the writers of extensions. Where they apply is told by the account.

use super::Wrote;
use judge::account::extensions_written::{one, row, Unwritten, Value};
use judge::bytes::{counted, join};
use judge::case::Case;
use judge::extension;
use judge::table::refusal::{BAD_LENGTH, NOT_YET_IMPLEMENTED, NO_ROOM};
use judge::table::{GEN_EXTENSION, GEN_EXTENSIONS, GEN_SERVER_NAME};

/// The values of a row; none of another function.
fn values(case: &Case) -> Vec<Value<'_>> {
    let values = (case.function == GEN_EXTENSIONS).then(|| extension::row(&case.input));
    values.flatten().unwrap_or_default()
}

/// The text in the room, where it fits.
fn write(text: &[u8], room: &mut [u8]) -> Wrote {
    room.get_mut(..text.len()).ok_or(NO_ROOM)?.copy_from_slice(text);
    Ok(text.len())
}

/// A row without its raw items.
pub fn skipped(case: &Case, _: &[u8], room: &mut [u8], wrote: Wrote) -> Wrote {
    let values = values(case);
    let opened = values.into_iter().filter(|value| !matches!(value, Value::Raw(..)));
    match row(&opened.collect::<Vec<_>>()) {
        Ok(text) if wrote == Err(NOT_YET_IMPLEMENTED) && case.function == GEN_EXTENSIONS => {
            write(&text, room)
        }
        _ => wrote,
    }
}

pub fn length_first(case: &Case, _: &[u8], _: &mut [u8], wrote: Wrote) -> Wrote {
    let is_bad = |value: &Value| one(value) == Err(Unwritten::BadLength);
    if wrote == Err(NOT_YET_IMPLEMENTED) && values(case).iter().any(is_bad) {
        return Err(BAD_LENGTH);
    }
    wrote
}

pub fn room_before_raw(case: &Case, _: &[u8], room: &mut [u8], wrote: Wrote) -> Wrote {
    if case.function == GEN_EXTENSIONS && wrote == Err(NOT_YET_IMPLEMENTED) && room.is_empty() {
        return Err(NO_ROOM);
    }
    wrote
}

pub fn room_first(case: &Case, _: &[u8], room: &mut [u8], wrote: Wrote) -> Wrote {
    let is_of = [GEN_EXTENSION, GEN_EXTENSIONS].contains(&case.function);
    if is_of && wrote == Err(BAD_LENGTH) && room.is_empty() {
        return Err(NO_ROOM);
    }
    wrote
}

/// Of a row each of which fits alone.
pub fn outer_cut(case: &Case, _: &[u8], room: &mut [u8], wrote: Wrote) -> Wrote {
    let texts: Result<Vec<_>, _> = values(case).iter().map(one).collect();
    match texts {
        Ok(texts) if wrote == Err(BAD_LENGTH) && case.function == GEN_EXTENSIONS => {
            write(&counted(2, &texts.concat()), room)
        }
        _ => wrote,
    }
}

/// The last byte of a long room.
pub fn touched(case: &Case, _: &[u8], room: &mut [u8], wrote: Wrote) -> Wrote {
    if case.function == GEN_EXTENSIONS && wrote == Err(NOT_YET_IMPLEMENTED) {
        room.iter_mut().next_back().into_iter().for_each(|byte| *byte = !*byte);
    }
    wrote
}

/// What fits of a text that has no room.
pub fn begun(case: &Case, _: &[u8], room: &mut [u8], wrote: Wrote) -> Wrote {
    if case.function == GEN_EXTENSION && wrote == Err(NO_ROOM) {
        room.iter_mut().take(2).for_each(|byte| *byte = 0);
    }
    wrote
}

/// The list of an extension as it is, with its length.
fn listed(case: &Case, room: &mut [u8], wrote: Wrote, list: Option<(u16, &[u8])>) -> Wrote {
    match list {
        Some((of, list)) if wrote == Err(BAD_LENGTH) && case.function == GEN_EXTENSION => {
            write(&join(&[&of.to_be_bytes(), &counted(2, &counted(2, list))]), room)
        }
        _ => wrote,
    }
}

pub fn odd(case: &Case, _: &[u8], room: &mut [u8], wrote: Wrote) -> Wrote {
    let list = extension::one(&case.input).and_then(|value| match value {
        Value::Groups(list) => Some((10, list)),
        _ => None,
    });
    listed(case, room, wrote, list)
}

pub fn unfilled(case: &Case, _: &[u8], room: &mut [u8], wrote: Wrote) -> Wrote {
    let list = extension::one(&case.input).and_then(|value| match value {
        Value::Names(list) => Some((0, list)),
        _ => None,
    });
    listed(case, room, wrote, list)
}

pub fn name_cut(case: &Case, _: &[u8], room: &mut [u8], wrote: Wrote) -> Wrote {
    if case.function == GEN_SERVER_NAME && wrote == Err(BAD_LENGTH) {
        return write(&join(&[&case.input[..1], &counted(2, &case.input[1..])]), room);
    }
    wrote
}

/// The longest row of all.
pub fn longest(case: &Case, before: &[u8], room: &mut [u8], wrote: Wrote) -> Wrote {
    if case.function == GEN_EXTENSIONS && wrote == Ok(65_537) {
        room.copy_from_slice(before);
        return Err(BAD_LENGTH);
    }
    wrote
}

/// An extension by itself whose text is longer than a row's can be.
pub fn alone(case: &Case, before: &[u8], room: &mut [u8], wrote: Wrote) -> Wrote {
    if case.function == GEN_EXTENSION && wrote.is_ok_and(|n| n > 65_535) {
        room.copy_from_slice(before);
        return Err(BAD_LENGTH);
    }
    wrote
}

/// Written back without the outer length.
pub fn bare(case: &Case, _: &[u8], room: &mut [u8], wrote: Wrote) -> Wrote {
    wrote.map(|_| {
        room[..case.input.len()].copy_from_slice(&case.input);
        case.input.len()
    })
}
