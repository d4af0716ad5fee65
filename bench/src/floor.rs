//! The floor: a reader written by hand for this bench, with no proof and no boundary. It borrows,
//! makes no list, and opens a body right where it is visited; the visits themselves are those of
//! the other sides. It makes every check of RULES 2 to 6 and 11, each one once; `check.rs` holds
//! its answers to Norrabist's.

use crate::each;
use crate::numbers::*;

/// Why bytes are refused (RULES 1.1).
#[derive(Clone, Copy, PartialEq)]
enum Refusal {
    Incomplete,
    Complete,
    Verify,
    LengthValue,
    Tag,
    Switch,
    TooLarge,
}
use Refusal::*;

/// A part and the bytes behind it, or the refusal.
type Taken<'a, T> = Result<(T, &'a [u8]), Refusal>;

#[inline]
fn take(i: &[u8], n: usize) -> Taken<'_, &[u8]> {
    i.split_at_checked(n).ok_or(Incomplete)
}

#[inline]
fn array<const N: usize>(i: &[u8]) -> Taken<'_, &[u8; N]> {
    i.split_first_chunk().ok_or(Incomplete)
}

#[inline]
fn u24(bytes: [u8; 3]) -> usize {
    usize::from(bytes[0]) << 16 | usize::from(bytes[1]) << 8 | usize::from(bytes[2])
}

/// A length of one byte, and as many bytes.
#[inline]
fn part8(i: &[u8]) -> Taken<'_, &[u8]> {
    let ([len], i) = array(i)?;
    take(i, usize::from(*len))
}

/// A length of two bytes, and as many bytes.
#[inline]
fn part16(i: &[u8]) -> Taken<'_, &[u8]> {
    let (len, i) = array(i)?;
    take(i, usize::from(u16::from_be_bytes(*len)))
}

/// A length of three bytes, and as many bytes.
#[inline]
fn part24(i: &[u8]) -> Taken<'_, &[u8]> {
    let (len, i) = array(i)?;
    take(i, u24(*len))
}

/// A length of two bytes, and all the bytes behind it.
#[inline]
fn whole16(i: &[u8]) -> Result<&[u8], Refusal> {
    match part16(i) {
        Ok((part, [])) => Ok(part),
        _ => Err(LengthValue),
    }
}

/// The extensions: absent where not all of them are there (RULES 3.7).
#[inline]
fn extensions(i: &[u8]) -> Option<&[u8]> {
    part16(i).ok().map(|(ext, _)| ext)
}

/// Version, random and session id, with which hellos begin.
struct Start<'a> {
    version: u16,
    random: &'a [u8; 32],
    session_id: Option<&'a [u8]>,
}

#[inline(always)]
fn start(i: &[u8]) -> Taken<'_, Start<'_>> {
    let (head, i) = array::<35>(i)?;
    let [high, low, random @ .., len] = head;
    let len = usize::from(*len);
    if len > MAX_ID_LEN {
        return Err(Verify);
    }
    let (id, i) = take(i, len)?;
    let version = u16::from_be_bytes([*high, *low]);
    Ok((Start { version, random, session_id: (len > 0).then_some(id) }, i))
}

struct ClientHello<'a> {
    start: Start<'a>,
    ciphers: &'a [u8],
    methods: &'a [u8],
    ext: Option<&'a [u8]>,
}

#[inline(always)]
fn read_client_hello(i: &[u8]) -> Result<ClientHello<'_>, Refusal> {
    let (start, i) = start(i)?;
    let (len, i) = array(i)?;
    let len = u16::from_be_bytes(*len);
    if len % 2 != 0 {
        return Err(LengthValue);
    }
    let (ciphers, i) = i.split_at_checked(usize::from(len)).ok_or(LengthValue)?;
    let ([len], i) = array(i)?;
    let (methods, i) = i.split_at_checked(usize::from(*len)).ok_or(LengthValue)?;
    Ok(ClientHello { start, ciphers, methods, ext: extensions(i) })
}

struct ServerHello<'a> {
    start: Start<'a>,
    cipher: u16,
    compression: u8,
    ext: Option<&'a [u8]>,
}

#[inline]
fn version(i: &[u8]) -> Result<u16, Refusal> {
    array(i).map(|(version, _)| u16::from_be_bytes(*version))
}

#[inline(always)]
fn read_server_hello(i: &[u8]) -> Result<ServerHello<'_>, Refusal> {
    let version = version(i)?;
    if !(SSL30..=TLS12).contains(&version) {
        return Err(Tag);
    }
    let (start, i) = start(i)?;
    let ([high, low, compression], i) = array(i)?;
    let ext = if version == SSL30 { None } else { extensions(i) };
    Ok(ServerHello { start, cipher: u16::from_be_bytes([*high, *low]), compression: *compression, ext })
}

struct Request<'a> {
    types: &'a [u8],
    pairs: &'a [u8],
    names: &'a [u8],
}

/// The long form, or else the short one (RULES 4.9).
#[inline(always)]
fn read_request(i: &[u8]) -> Result<Request<'_>, Refusal> {
    let (types, i) = part8(i).map_err(|_| Complete)?;
    let (first, i) = part16(i).map_err(|_| Complete)?;
    Ok(match part16(i) {
        Ok((names, _)) => Request { types, pairs: first, names },
        Err(_) => Request { types, pairs: &[], names: first },
    })
}

#[inline]
fn len(part: Option<&[u8]>) -> usize {
    part.map_or(0, <[u8]>::len)
}

/// The sum of bytes.
#[inline]
fn bytes(list: &[u8]) -> usize {
    list.iter().map(|b| usize::from(*b)).sum()
}

/// The sum of numbers of two bytes.
#[inline]
fn pairs(list: &[u8]) -> usize {
    list.chunks_exact(2).map(|pair| usize::from(u16::from_be_bytes([pair[0], pair[1]]))).sum()
}

/// The lengths of the parts of a list, up to the first that does not fit.
#[inline]
fn parts(list: &[u8], part: fn(&[u8]) -> Taken<'_, &[u8]>) -> usize {
    each(list, |i| part(i).ok().map(|(item, rest)| (rest, item.len())))
}

#[inline]
fn begun(s: &Start) -> usize {
    usize::from(s.version) + s.random.len() + len(s.session_id)
}

#[inline(never)]
fn hello(c: &ClientHello) -> usize {
    begun(&c.start) + pairs(c.ciphers) + bytes(c.methods) + len(c.ext)
}

#[inline(never)]
fn answer(s: &ServerHello) -> usize {
    begun(&s.start) + usize::from(s.cipher) + usize::from(s.compression) + len(s.ext)
}

#[inline(never)]
fn request(r: &Request) -> usize {
    bytes(r.types) + pairs(r.pairs) + parts(r.names, part16)
}

#[inline(never)]
fn certificate(chain: &[u8]) -> usize {
    parts(chain, part24)
}

/// A body, opened by its type and visited (RULES 5.4).
#[inline(always)]
fn body(msg_type: u8, i: &[u8]) -> Result<usize, Refusal> {
    Ok(match msg_type {
        HELLO_REQUEST => 1,
        CLIENT_HELLO => hello(&read_client_hello(i)?),
        SERVER_HELLO if version(i) == Ok(TLS13_DRAFT18) => array::<36>(i).map(|_| 2)?,
        SERVER_HELLO => answer(&read_server_hello(i)?),
        NEW_SESSION_TICKET => {
            let (hint, i) = array(i).map_err(|_| Verify)?;
            u32::from_be_bytes(*hint) as usize + whole16(i)?.len()
        }
        END_OF_EARLY_DATA => 2,
        HELLO_RETRY_REQUEST => array::<4>(i).map(|_| 2)?,
        CERTIFICATE => certificate(part24(i)?.0),
        CERTIFICATE_REQUEST => request(&read_request(i)?),
        SERVER_KEY_EXCHANGE | SERVER_DONE | CERTIFICATE_VERIFY | CLIENT_KEY_EXCHANGE | FINISHED => i.len(),
        CERTIFICATE_STATUS => part24(array::<1>(i)?.1)?.0.len(),
        KEY_UPDATE => usize::from(array::<1>(i)?.0[0]),
        NEXT_PROTOCOL => {
            let (protocol, i) = part8(i)?;
            protocol.len() + part8(i)?.0.len()
        }
        _ => return Err(Switch),
    })
}

/// The message at the front: what was seen in it, and the bytes behind it.
#[inline(always)]
fn message(i: &[u8]) -> Taken<'_, usize> {
    let ([msg_type, len @ ..], i) = array::<4>(i)?;
    let (content, rest) = take(i, u24(*len))?;
    Ok((body(*msg_type, content)?, rest))
}

/// The messages up to the first that is refused; where that is the very first, its refusal.
#[inline(always)]
fn each_message(content: &[u8], one: impl Fn(&[u8]) -> Taken<'_, usize>) -> Result<usize, Refusal> {
    let (mut sum, mut i) = (0, content);
    loop {
        match one(i) {
            Ok((seen, rest)) => (sum, i) = (sum + seen, rest),
            Err(refusal) if i.len() == content.len() => return Err(refusal),
            Err(_) => return Ok(sum),
        }
    }
}

#[inline]
fn messages(content: &[u8]) -> Result<usize, Refusal> {
    each_message(content, message)
}

/// The levels of alerts, the types of heartbeats.
#[inline]
fn one_or_two(n: u8) -> Result<usize, Refusal> {
    if matches!(n, 1 | 2) {
        return Ok(usize::from(n));
    }
    Err(LengthValue)
}

/// The ChangeCipherSpec at the front (RULES 6.15).
#[inline]
fn change_cipher_spec(i: &[u8]) -> Taken<'_, usize> {
    match array(i)? {
        ([1], rest) => Ok((1, rest)),
        _ => Err(LengthValue),
    }
}

/// The alert at the front (RULES 6.16).
#[inline]
fn alert(i: &[u8]) -> Taken<'_, usize> {
    let ([level], i) = array(i)?;
    let level = one_or_two(*level)?;
    let ([code], rest) = array(i)?;
    Ok((level + usize::from(*code), rest))
}

/// The heartbeat that a content is (RULES 6.18).
#[inline]
fn heartbeat(i: &[u8]) -> Result<usize, Refusal> {
    let ([of, len @ ..], i) = array::<3>(i)?;
    let (of, len) = (one_or_two(*of)?, usize::from(u16::from_be_bytes(*len)));
    if i.len() < len + MIN_PADDING_LEN {
        return Err(LengthValue);
    }
    Ok(of + len)
}

/// The messages of a content, by the type of its record (RULES 6.9). Nothing is added up of those
/// that are no handshake messages, as the other sides do it.
#[inline]
fn content(record_type: u8, i: &[u8]) -> Result<usize, Refusal> {
    let seen = match record_type {
        HANDSHAKE => messages(i),
        CHANGE_CIPHER_SPEC => each_message(i, change_cipher_spec).map(|_| 0),
        ALERT => each_message(i, alert).map(|_| 0),
        APPLICATION_DATA => return Ok(0),
        HEARTBEAT => return heartbeat(i).map(|_| 0),
        _ => return Err(Switch),
    };
    seen.map_err(|refusal| if refusal == Incomplete { Complete } else { refusal })
}

#[inline]
fn plaintext(i: &[u8]) -> Taken<'_, usize> {
    let ([record_type, _, _, len @ ..], i) = array::<5>(i)?;
    let len = usize::from(u16::from_be_bytes(*len));
    if len > MAX_RECORD_LEN {
        return Err(TooLarge);
    }
    let (i, rest) = take(i, len)?;
    Ok((len + content(*record_type, i)?, rest))
}

/// The items that fill a list, or the refusal where one does not fit (RULES 11.6).
#[inline(always)]
fn filled(list: &[u8], item: impl Fn(&[u8]) -> Taken<'_, usize>) -> Result<usize, Refusal> {
    let (mut sum, mut i) = (0, list);
    while !i.is_empty() {
        let (seen, rest) = item(i).map_err(|_| LengthValue)?;
        (sum, i) = (sum + seen, rest);
    }
    Ok(sum)
}

/// The server name at the front, behind its type.
#[inline]
fn name(i: &[u8]) -> Taken<'_, usize> {
    let ([of], i) = array(i)?;
    let (name, rest) = part16(i)?;
    Ok((usize::from(*of) + name.len(), rest))
}

/// The groups of a list, two bytes each.
#[inline]
fn groups(list: &[u8]) -> Result<usize, Refusal> {
    if list.len() % 2 != 0 {
        return Err(LengthValue);
    }
    Ok(pairs(list))
}

/// The data of an extension, opened by its type and visited (RULES 11.3).
#[inline(always)]
fn data(ext_type: u16, i: &[u8]) -> Result<usize, Refusal> {
    match ext_type {
        SERVER_NAME => filled(whole16(i)?, name),
        MAX_FRAGMENT_LENGTH => match i {
            [n] => Ok(usize::from(*n)),
            _ => Err(LengthValue),
        },
        SUPPORTED_GROUPS => groups(whole16(i)?),
        _ => Ok(0),
    }
}

/// The extension at the front: what was seen in it, and the bytes behind it.
#[inline(always)]
fn extension(i: &[u8]) -> Taken<'_, usize> {
    let (of, i) = array(i)?;
    let of = u16::from_be_bytes(*of);
    let (i, rest) = part16(i)?;
    Ok((usize::from(of) + data(of, i)?, rest))
}

/// The record at the front: what is behind it, and what was seen in it.
#[inline]
pub fn step(i: &[u8]) -> Option<(&[u8], usize)> {
    plaintext(i).ok().map(|(seen, rest)| (rest, seen))
}

#[inline(never)]
pub fn record(i: &[u8]) -> usize {
    step(i).map_or(usize::MAX, |(rest, seen)| rest.len() + seen)
}

/// One record after the other.
#[inline(never)]
pub fn joined(i: &[u8]) -> usize {
    each(i, step)
}

/// One message after the other.
#[inline(never)]
pub fn walk(content: &[u8]) -> usize {
    messages(content).unwrap_or(0)
}

#[inline(never)]
pub fn client_hello(i: &[u8]) -> usize {
    read_client_hello(i).map_or(usize::MAX, |c| hello(&c))
}

#[inline(never)]
pub fn server_hello(i: &[u8]) -> usize {
    read_server_hello(i).map_or(usize::MAX, |s| answer(&s))
}

/// All extensions of a block.
#[inline(never)]
pub fn block(i: &[u8]) -> usize {
    filled(i, extension).unwrap_or(usize::MAX)
}
