//! The messages of a record's content, one after the other (RULES 6).

use crate::content::{alert, whole_heartbeat, TlsMessage, TlsMessageApplicationData};
use crate::ffi::{count_contents, count_messages, message_head, part, TallyTold};
use crate::handshake::TlsMessageHandshake;
use crate::refusal::{refused, Refusal};
use crate::table::{met, reader, TlsHandshakeType, TlsRecordType, Told};
use crate::table::{ALERT_LEN, CHANGE_CIPHER_SPEC_LEN, MESSAGE_HEAD_LEN};
use crate::views::view;
#[cfg(feature = "alloc")]
use alloc::vec::Vec;
use core::iter::FusedIterator;

/// The messages of a record's content, until one is refused; where tls-parser has a `Vec`.
///
/// A message is opened when it is handed out, and handed out by value. All of them are of the kind
/// that the type of the record says.
///
/// ```
/// use norrabist::{TlsMessage, TlsMessageHandshake, TlsMessages};
///
/// let messages = TlsMessages::new(&[0x14, 0, 0, 1, 9, 0, 0, 0, 0]);
/// let finished = TlsMessage::Handshake(TlsMessageHandshake::Finished(&[9]));
/// assert_eq!((messages.len(), messages.first()), (2, Some(finished)));
/// for message in messages {
///     assert!(matches!(message, TlsMessage::Handshake(_)));
/// }
/// ```
#[derive(Clone, Copy)]
pub struct TlsMessages<'a> {
    content: &'a [u8],
    /// The first message, as the record's reader told it, where it is a handshake message.
    first: Option<Told>,
    /// Where the messages that are not told begin.
    at: usize,
    record_type: TlsRecordType,
}

impl<'a> TlsMessages<'a> {
    /// The handshake messages that these bytes hold.
    #[inline]
    pub const fn new(content: &'a [u8]) -> Self {
        TlsMessages::of(TlsRecordType::Handshake, content)
    }

    /// The messages that these bytes hold, as the content of a record of that type. A type that is
    /// not listed has none.
    ///
    /// ```
    /// use norrabist::{TlsMessage, TlsMessages, TlsRecordType};
    ///
    /// let messages = TlsMessages::of(TlsRecordType::ChangeCipherSpec, &[1, 1, 0]);
    /// assert_eq!(messages, [TlsMessage::ChangeCipherSpec; 2]);
    /// assert_eq!(messages.dropped(), 1);
    /// ```
    #[inline]
    pub const fn of(record_type: TlsRecordType, content: &'a [u8]) -> Self {
        TlsMessages { content, first: None, at: 0, record_type }
    }

    /// The messages of a handshake record: the first was told, and ends at `at`.
    #[inline(always)]
    pub(crate) fn opened(content: &'a [u8], first: Told, at: usize) -> Self {
        TlsMessages { content, first: Some(first), at, record_type: TlsRecordType::Handshake }
    }

    /// The type of the record.
    #[inline]
    pub const fn record_type(&self) -> TlsRecordType {
        self.record_type
    }

    /// The content of the record.
    #[inline]
    pub const fn as_bytes(&self) -> &'a [u8] {
        self.content
    }

    /// How many messages there are, and where the last one ends.
    fn tally(&self) -> TallyTold {
        if is_handshake(self.record_type) {
            return count_messages(self.content, 0);
        }
        count_contents(self.record_type.0, self.content)
    }

    /// How many messages there are, by a walk over them.
    pub fn len(&self) -> usize {
        self.tally().count
    }

    /// How many bytes behind the last message are in none, by a walk over the messages.
    pub fn dropped(&self) -> usize {
        self.content.len().saturating_sub(self.tally().end)
    }

    /// Whether there is no message.
    #[inline]
    pub fn is_empty(&self) -> bool {
        self.first.is_none() && self.iter().next().is_none()
    }

    /// The messages in their order. Those of a record that is no handshake record are counted first.
    #[inline]
    pub fn iter(&self) -> Messages<'a> {
        let mut messages = Messages { handshakes: self.handshakes(), record_type: self.record_type };
        if !is_handshake(self.record_type) {
            // they stand one behind the other, up to the end of the last
            let end = count_contents(self.record_type.0, self.content).end;
            messages.handshakes.walk.content = part(self.content, 0, end).unwrap_or(&[]);
        }
        messages
    }

    /// The handshake messages in their order: all that a handshake record has, and none of any
    /// other.
    #[inline]
    pub fn handshakes(&self) -> Handshakes<'a> {
        let content = if is_handshake(self.record_type) { self.content } else { &[] };
        Handshakes { first: self.first, walk: Walk { content, at: self.at } }
    }

    /// The handshake messages by their types and bodies.
    #[inline]
    pub fn heads(&self) -> Heads<'a> {
        let content = if is_handshake(self.record_type) { self.content } else { &[] };
        Heads { walk: Walk { content, at: 0 } }
    }

    /// The first message.
    #[inline]
    pub fn first(&self) -> Option<TlsMessage<'a>> {
        self.iter().next()
    }

    /// The message at that place, counted from 0. The messages before it are walked over.
    #[inline]
    pub fn get(&self, place: usize) -> Option<TlsMessage<'a>> {
        self.iter().nth(place)
    }

    /// The last message. All messages are walked over to find it.
    #[inline]
    pub fn last(&self) -> Option<TlsMessage<'a>> {
        self.iter().last()
    }

    /// The messages in a `Vec`.
    #[cfg(feature = "alloc")]
    pub fn to_vec(&self) -> Vec<TlsMessage<'a>> {
        self.iter().collect()
    }
}

view!(TlsMessages of TlsMessage by Messages, "messages");

/// Whether a record has handshake messages. No is marked as the answer that is seldom given: what
/// goes over handshake messages is then compiled as if there were no others.
#[inline(always)]
pub(crate) fn is_handshake(record_type: TlsRecordType) -> bool {
    #[cold]
    fn seldom() {}

    if record_type != TlsRecordType::Handshake {
        seldom();
        return false;
    }
    true
}

/// What is done with a message that is handed on.
pub(crate) trait Then<'a, B> {
    /// What comes of it.
    type Answer;

    /// Takes the message, and what came of those before it.
    fn then(self, so_far: B, message: TlsMessageHandshake<'a>) -> Self::Answer;

    /// Where the parts of the message do not lie in its body.
    fn outside(so_far: B) -> Self::Answer;
}

/// The message by itself.
pub(crate) struct Alone;

impl<'a> Then<'a, ()> for Alone {
    type Answer = Option<TlsMessageHandshake<'a>>;

    #[inline(always)]
    fn then(self, (): (), message: TlsMessageHandshake<'a>) -> Self::Answer {
        Some(message)
    }

    #[inline(always)]
    fn outside((): ()) -> Self::Answer {
        None
    }
}

/// The message folded to those before it; these again, where the walk ends.
struct Fold<'f, F>(&'f mut F);

impl<'a, B, F: FnMut(B, TlsMessageHandshake<'a>) -> B> Then<'a, B> for Fold<'_, F> {
    type Answer = Result<B, B>;

    #[inline(always)]
    fn then(self, so_far: B, message: TlsMessageHandshake<'a>) -> Self::Answer {
        Ok(self.0(so_far, message))
    }

    #[inline(always)]
    fn outside(so_far: B) -> Self::Answer {
        Err(so_far)
    }
}

/// A handshake message that is not opened: only messages that can be are handed out.
#[derive(Clone, Copy, Debug, PartialEq)]
pub struct TlsMessageHead<'a> {
    /// The type.
    pub kind: TlsHandshakeType,
    /// The body, without type and length.
    pub body: &'a [u8],
}

/// Walks over the heads of messages, whatever their bodies.
#[derive(Clone, Copy)]
struct Walk<'a> {
    content: &'a [u8],
    at: usize,
}

/// What stands at a byte: the type of a message, or that of none; its body, and where the next one
/// begins.
struct Met<'a> {
    met: u16,
    body: &'a [u8],
    next: usize,
}

impl<'a> Walk<'a> {
    /// What stands at the byte.
    #[inline(always)]
    fn meet(&self) -> Option<Met<'a>> {
        let head = message_head(self.content, self.at);
        let body = head.body as usize;
        let body = part(self.content, head.next.wrapping_sub(body), body)?;
        Some(Met { met: met(head.msg_type, head.number), body, next: head.next })
    }

    /// The next message, opened; none where it is refused.
    #[inline(always)]
    fn open(&self) -> Option<(TlsMessageHandshake<'a>, usize)> {
        let met = self.meet()?;
        let message = Told::of(met.met, met.body)?.message(met.body)?;
        Some((message, met.next))
    }
}

/// Hands out handshake messages that are not opened.
#[derive(Clone)]
pub struct Heads<'a> {
    walk: Walk<'a>,
}

impl<'a> Iterator for Heads<'a> {
    type Item = TlsMessageHead<'a>;

    #[inline]
    fn next(&mut self) -> Option<TlsMessageHead<'a>> {
        let met = self.walk.meet()?;
        // where head or body is refused, the walk ends
        let told = Told::of(met.met, met.body)?;
        self.walk.at = met.next;
        Some(TlsMessageHead { kind: told.handshake_type(), body: met.body })
    }

    #[inline]
    fn count(self) -> usize {
        count_messages(self.walk.content, self.walk.at).count
    }
}

impl FusedIterator for Heads<'_> {}

/// Hands out handshake messages.
#[derive(Clone)]
pub struct Handshakes<'a> {
    first: Option<Told>,
    walk: Walk<'a>,
}

impl<'a> Handshakes<'a> {
    /// The body of the first message, which ends where the others begin.
    #[inline(always)]
    fn first_body(&self) -> &'a [u8] {
        self.walk.content.get(MESSAGE_HEAD_LEN as usize..self.walk.at).unwrap_or(&[])
    }
}

impl<'a> Iterator for Handshakes<'a> {
    type Item = TlsMessageHandshake<'a>;

    #[inline(always)]
    fn next(&mut self) -> Option<TlsMessageHandshake<'a>> {
        let (told, body) = match self.first.take() {
            Some(told) => (told, self.first_body()),
            None => {
                let met = self.walk.meet()?;
                // where head or body is refused, the walk ends
                let told = Told::of(met.met, met.body)?;
                self.walk.at = met.next;
                (told, met.body)
            }
        };
        told.message(body)
    }

    // for `for_each`, `sum`, `collect` and their like
    #[inline]
    fn fold<B, F: FnMut(B, Self::Item) -> B>(self, start: B, mut f: F) -> B {
        let mut folded = start;
        if let Some(told) = self.first {
            match told.hand_on(self.first_body(), folded, Fold(&mut f)) {
                Ok(so_far) => folded = so_far,
                Err(so_far) => return so_far,
            }
        }
        let mut walk = self.walk;
        while let Some(met) = walk.meet() {
            let Some(told) = Told::of(met.met, met.body) else { break };
            match told.hand_on(met.body, folded, Fold(&mut f)) {
                Ok(so_far) => folded = so_far,
                Err(so_far) => return so_far,
            }
            walk.at = met.next;
        }
        folded
    }

    #[inline]
    fn count(self) -> usize {
        let behind = count_messages(self.walk.content, self.walk.at).count;
        behind + usize::from(self.first.is_some())
    }
}

impl FusedIterator for Handshakes<'_> {}

/// Hands out messages that are not handshake messages, by where they lie. The content ends with the
/// last of them.
#[derive(Clone, Copy)]
struct Others<'a> {
    record_type: TlsRecordType,
    walk: Walk<'a>,
}

impl<'a> Iterator for Others<'a> {
    type Item = TlsMessage<'a>;

    #[inline(always)]
    fn next(&mut self) -> Option<TlsMessage<'a>> {
        let Walk { content, at } = self.walk;
        let (message, len) = match self.record_type {
            TlsRecordType::ChangeCipherSpec if at < content.len() => {
                (TlsMessage::ChangeCipherSpec, CHANGE_CIPHER_SPEC_LEN)
            }
            TlsRecordType::Alert => {
                let [severity, code, ..] = *content.get(at..)? else { return None };
                (alert(severity, code), ALERT_LEN)
            }
            // one message, all of the content
            TlsRecordType::ApplicationData if at == 0 => {
                (TlsMessage::ApplicationData(TlsMessageApplicationData { blob: content }), 1)
            }
            TlsRecordType::Heartbeat if at == 0 => (whole_heartbeat(content)?, 1),
            _ => return None,
        };
        self.walk.at += len as usize;
        Some(message)
    }
}

/// Hands out messages.
#[derive(Clone)]
pub struct Messages<'a> {
    handshakes: Handshakes<'a>,
    record_type: TlsRecordType,
}

impl<'a> Messages<'a> {
    /// The same, where they are not handshake messages.
    #[inline(always)]
    fn others(&self) -> Others<'a> {
        Others { record_type: self.record_type, walk: self.handshakes.walk }
    }
}

impl<'a> Iterator for Messages<'a> {
    type Item = TlsMessage<'a>;

    #[inline(always)]
    fn next(&mut self) -> Option<TlsMessage<'a>> {
        if is_handshake(self.record_type) {
            return self.handshakes.next().map(TlsMessage::Handshake);
        }
        let mut others = self.others();
        let message = others.next();
        self.handshakes.walk = others.walk;
        message
    }

    #[inline]
    fn fold<B, F: FnMut(B, Self::Item) -> B>(self, start: B, mut f: F) -> B {
        if is_handshake(self.record_type) {
            return self.handshakes.fold(start, |folded, message| f(folded, TlsMessage::Handshake(message)));
        }
        self.others().fold(start, f)
    }

    #[inline]
    fn count(self) -> usize {
        if is_handshake(self.record_type) {
            return self.handshakes.count();
        }
        self.others().count()
    }
}

impl FusedIterator for Messages<'_> {}

/// The handshake message that begins at byte `at` of a record's content, and the byte at which the
/// next one begins.
///
/// # Errors
///
/// `NoSuch`, where none that can be opened begins there.
#[inline]
pub fn record_walk_next(content: &[u8], at: usize) -> Result<(TlsMessageHandshake<'_>, usize), Refusal> {
    let walk = Walk { content, at };
    walk.open().ok_or_else(|| refused(reader::WALK, content, at))
}
