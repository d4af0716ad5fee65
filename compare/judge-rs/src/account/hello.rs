//! The strict ClientHello of the account, on the sheet.

use super::reading::Read;
use super::strict::{strict, Hello, Part};
use crate::sheet::Sheet;
use crate::table::kind;
use crate::values::Told;

/// The hello as a message.
pub struct Message(Hello);

pub fn contents(i: &[u8]) -> Read<'_, Hello> {
    let hello = strict(i).map_err(|refused| refused.number())?;
    Ok((&i[hello.rest..], hello))
}

pub fn message(i: &[u8]) -> Read<'_, Message> {
    contents(i).map(|(rest, hello)| (rest, Message(hello)))
}

impl Told for Hello {
    fn told(&self, s: &mut Sheet) {
        s.number(self.version);
        part(s, self.random);
        optional(s, self.session_id);
        s.list(self.ciphers.iter().map(|cipher| u64::from(*cipher)));
        s.list(self.comp.iter().map(|method| u64::from(*method)));
        optional(s, self.ext);
    }
}

impl Told for Message {
    fn told(&self, s: &mut Sheet) {
        s.number(kind::ClientHello);
        self.0.told(s);
    }
}

fn part(s: &mut Sheet, (at, len): Part) {
    s.size(at);
    s.size(len);
}

fn optional(s: &mut Sheet, of: Option<Part>) {
    s.number(of.is_some());
    of.into_iter().for_each(|of| part(s, of));
}
