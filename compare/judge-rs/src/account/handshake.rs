//! Handshake messages: tls-parser's, but for the NewSessionTicket, of which `ticket.rs` has the rule.

use super::reading::Read;
use super::ticket::{given, lifetime, Refused, Ticket};
use super::{Class, Way};
use crate::answer::refusal_of;
use crate::table::kind;
use tls_parser::*;

/// Where the ticket begins in a body by tls-parser: its length is part of it.
const THEIRS: usize = 4;

impl Way {
    /// RULES 4.2 and 4.14: the first `length` bytes are a NewSessionTicket.
    pub fn ticket<'a>(&mut self, i: &'a [u8], length: usize) -> Read<'a, TlsMessageHandshake<'a>> {
        let read = match given(i, length) {
            // these two are tls-parser's too
            Err(refused @ (Refused::Short | Refused::Past)) => Err(refused),
            read if self.parts(Class::TicketLength) => read,
            _ => Ok(Ticket { lifetime: lifetime(i), ticket: (THEIRS, length - THEIRS) }),
        };
        let Ticket { lifetime, ticket: (at, len) } = read.map_err(|refused| refused.number())?;
        let content = TlsNewSessionTicketContent { ticket_lifetime_hint: lifetime, ticket: &i[at..at + len] };
        Ok((&i[length..], TlsMessageHandshake::NewSessionTicket(content)))
    }

    /// RULES 5: the message at the front.
    pub fn handshake<'a>(&mut self, i: &'a [u8]) -> Read<'a, TlsMessage<'a>> {
        let Some((body, rest)) = ticket_body(i) else {
            return parse_tls_message_handshake(i).map_err(|refused| refusal_of(&refused));
        };
        let (_, ticket) = self.ticket(body, body.len())?;
        Ok((rest, TlsMessage::Handshake(ticket)))
    }
}

/// The body and what stands behind it, where a whole NewSessionTicket is at the front.
fn ticket_body(i: &[u8]) -> Option<(&[u8], &[u8])> {
    let [kind::NewSessionTicket, high, middle, low, behind @ ..] = i else { return None };
    behind.split_at_checked(u32::from_be_bytes([0, *high, *middle, *low]) as usize)
}
