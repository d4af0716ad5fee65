//! What tls-parser writes for extensions.

use super::Written;
use crate::account::extensions::{groups, names};
use crate::account::extensions_written::{is_filled, Value};
use crate::extension::Name;
use crate::table::refusal::CANNOT_HOLD;
use cookie_factory::gen_simple;
use tls_parser::*;

/// How many bytes stand before the only name of an extension: tag, length, length of the list.
const BEFORE_NAME: usize = 6;

pub fn extension(value: &Value) -> Written {
    gen_simple(gen_tls_extension(&held(value)?), Vec::new())
}

pub fn extensions(values: &Vec<Value>) -> Written {
    let all = values.iter().map(held).collect::<Result<Vec<_>, _>>()?;
    gen_simple(gen_tls_extensions(&all), Vec::new())
}

/// Not public in tls-parser: what stands behind the lengths of an extension with that name alone.
pub fn server_name(m: &Name) -> Written {
    let extension = TlsExtension::SNI(vec![(SNIType(m.of), m.name)]);
    let text = gen_simple(gen_tls_extension(&extension), Vec::new())?;
    Ok(text[BEFORE_NAME..].to_vec())
}

/// The value in tls-parser's types, where they can hold it.
fn held<'a>(value: &Value<'a>) -> Result<TlsExtension<'a>, GenError> {
    match *value {
        Value::Names(list) if is_filled(list) => {
            let all = names(list, (0, list.len())).0.into_iter();
            Ok(TlsExtension::SNI(all.map(|(of, (at, len))| (SNIType(of), &list[at..at + len])).collect()))
        }
        Value::Groups(list) if list.len().is_multiple_of(2) => {
            let all = groups(list, (0, list.len())).into_iter();
            Ok(TlsExtension::EllipticCurves(all.map(NamedGroup).collect()))
        }
        Value::Names(_) | Value::Groups(_) => Err(GenError::CustomError(CANNOT_HOLD as u32)),
        Value::Fragment(value) => Ok(TlsExtension::MaxFragmentLength(value)),
        Value::Raw(of, data) => Ok(TlsExtension::Unknown(TlsExtensionType(of), data)),
    }
}
