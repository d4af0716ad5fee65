//! A NewSessionTicket (RFC 5077 3.3), from the bytes alone: lifetime 4, the ticket's length 2, the
//! ticket. It shares nothing with the reader that is judged, nor with tls-parser.

/// How many bytes the lifetime has, and how many there are before the ticket.
const LIFETIME: usize = 4;
const HEAD: usize = 6;

/// A ticket that is taken.
#[derive(Clone, Copy, Debug, PartialEq, Eq)]
pub struct Ticket {
    pub lifetime: u32,
    /// Where it begins in the body, and how many bytes it has.
    pub ticket: (usize, usize),
}

/// Why a body is not taken.
#[derive(Clone, Copy, Debug, PartialEq, Eq)]
pub enum Refused {
    /// It has under 4 bytes, or its given length is under 4.
    Short,
    /// There are fewer bytes than the given length.
    Past,
    /// The ticket's length is missing: under 2 bytes stand behind the lifetime.
    NoLength,
    /// The ticket's length is not how many bytes stand behind it.
    Unlike,
}

impl Refused {
    /// The number of the refusal: Verify, Incomplete, LengthValue.
    pub fn number(&self) -> u64 {
        match self {
            Self::Short => 3,
            Self::Past => 1,
            Self::NoLength | Self::Unlike => 4,
        }
    }
}

/// The number that big-endian bytes say.
fn number(bytes: &[u8]) -> u32 {
    bytes.iter().fold(0, |n, byte| n * 256 + u32::from(*byte))
}

/// The first four bytes of a body that has as many.
pub fn lifetime(body: &[u8]) -> u32 {
    number(&body[..LIFETIME])
}

/// A whole body.
pub fn ticket(body: &[u8]) -> Result<Ticket, Refused> {
    if body.len() < LIFETIME {
        return Err(Refused::Short);
    }
    if body.len() < HEAD {
        return Err(Refused::NoLength);
    }
    let there = body.len() - HEAD;
    if number(&body[LIFETIME..HEAD]) as usize != there {
        return Err(Refused::Unlike);
    }
    Ok(Ticket { lifetime: lifetime(body), ticket: (HEAD, there) })
}

/// The body that the first `length` bytes are; what stands behind them is not looked at.
pub fn given(i: &[u8], length: usize) -> Result<Ticket, Refused> {
    if length < LIFETIME {
        return Err(Refused::Short);
    }
    ticket(i.get(..length).ok_or(Refused::Past)?)
}
