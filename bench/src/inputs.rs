//! The inputs: captures of real handshakes, records and extension blocks as long as they may be,
//! and rows of records, messages, certificates and extensions of any length.

use crate::numbers::*;

/// The handshake records of a capture, one by one.
fn records(hex: &str) -> Vec<Vec<u8>> {
    let digits: Vec<u32> = hex.chars().filter_map(|c| c.to_digit(16)).collect();
    let bytes: Vec<u8> = digits.chunks_exact(2).map(|d| (d[0] * 16 + d[1]) as u8).collect();
    let mut records = Vec::new();
    let mut rest = &bytes[..];
    while let [_, _, _, high, low, ..] = *rest {
        let (record, after) = rest.split_at(5 + usize::from(high) * 256 + usize::from(low));
        if record[0] == HANDSHAKE {
            records.push(record.to_vec());
        }
        rest = after;
    }
    records
}

pub fn client_hellos() -> Vec<Vec<u8>> {
    let samples = [
        include_str!("../../compare/samples/client-hello-10.hex"),
        include_str!("../../compare/samples/client-hello-12.hex"),
        include_str!("../../compare/samples/client-hello-13.hex"),
        include_str!("../../compare/samples/client-hello-gnutls.hex"),
    ];
    samples.into_iter().flat_map(records).collect()
}

/// The first record of each server's flight.
pub fn server_hellos() -> Vec<Vec<u8>> {
    let samples = [
        include_str!("../../compare/samples/server-flight-10.hex"),
        include_str!("../../compare/samples/server-flight-12.hex"),
        include_str!("../../compare/samples/server-hello-13.hex"),
    ];
    samples.into_iter().flat_map(|hex| records(hex).into_iter().take(1)).collect()
}

/// A whole handshake of TLS 1.2, record by record.
pub fn flights() -> Vec<Vec<u8>> {
    let samples = [
        include_str!("../../compare/samples/client-hello-12.hex"),
        include_str!("../../compare/samples/server-flight-12.hex"),
        include_str!("../../compare/samples/client-flight-12.hex"),
        include_str!("../../compare/samples/server-end-12.hex"),
    ];
    samples.into_iter().flat_map(records).collect()
}

/// The extension block of each captured ClientHello.
pub fn client_blocks() -> Vec<Vec<u8>> {
    client_hellos().iter().map(|record| block(record)).collect()
}

/// The extension block of a ClientHello's record: what its last length holds.
fn block(record: &[u8]) -> Vec<u8> {
    let pair = |at: usize| usize::from(record[at]) << 8 | usize::from(record[at + 1]);
    // behind the heads of record and message, the version and the random
    let id = 5 + 4 + 2 + 32;
    let ciphers = id + 1 + usize::from(record[id]);
    let methods = ciphers + 2 + pair(ciphers);
    let ext = methods + 1 + usize::from(record[methods]);
    let block = &record[ext + 2..];
    assert_eq!(block.len(), pair(ext));
    block.to_vec()
}

fn u16_bytes(n: usize) -> [u8; 2] {
    (n as u16).to_be_bytes()
}

fn u24_bytes(n: usize) -> [u8; 3] {
    [(n >> 16) as u8, (n >> 8) as u8, n as u8]
}

fn message(msg_type: u8, body: &[u8]) -> Vec<u8> {
    [&[msg_type][..], &u24_bytes(body.len()), body].concat()
}

fn extension(ext_type: u16, data: &[u8]) -> Vec<u8> {
    [&ext_type.to_be_bytes()[..], &u16_bytes(data.len()), data].concat()
}

fn record(content: &[u8]) -> Vec<u8> {
    record_of(HANDSHAKE, content)
}

fn record_of(record_type: u8, content: &[u8]) -> Vec<u8> {
    assert!(content.len() <= MAX_RECORD_LEN);
    let version = TLS12.to_be_bytes();
    [&[record_type][..], &version, &u16_bytes(content.len()), content].concat()
}

/// One ClientHello, 8,298 ciphers in 16,640 bytes.
pub fn many_ciphers() -> Vec<u8> {
    let ciphers = MAX_RECORD_LEN - 44;
    let mut body = [&TLS12.to_be_bytes()[..], &[7; 32], &[1, 9], &u16_bytes(ciphers)].concat();
    body.extend((0..ciphers).map(|k| (k * 37) as u8));
    body.extend([1, 0]);
    record(&message(CLIENT_HELLO, &body))
}

/// One Certificate of three, 16,640 bytes in all.
pub fn three_certificates() -> Vec<u8> {
    let each = [6_000, 5_000, MAX_RECORD_LEN - 4 - 3 - 9 - 11_000];
    let chain: Vec<u8> =
        each.into_iter().flat_map(|n| [&u24_bytes(n)[..], &vec![0x30; n]].concat()).collect();
    record(&message(CERTIFICATE, &[&u24_bytes(chain.len())[..], &chain].concat()))
}

/// 4,160 messages of four bytes.
pub fn tiny_messages() -> Vec<u8> {
    record(&message(HELLO_REQUEST, &[]).repeat(MAX_RECORD_LEN / 4))
}

/// A message of each kind that can be short, 4 to 16 bytes.
fn short_round() -> Vec<u8> {
    [
        message(HELLO_REQUEST, &[]),
        message(FINISHED, &[9; 12]),
        message(SERVER_DONE, &[]),
        message(KEY_UPDATE, &[1]),
        message(CLIENT_KEY_EXCHANGE, &[8; 8]),
        message(NEW_SESSION_TICKET, &[0, 0, 0, 9, 0, 0]),
        message(CERTIFICATE_VERIFY, &[4; 4]),
        message(NEXT_PROTOCOL, &[2, b'h', b'2', 0]),
    ]
    .concat()
}

/// Messages of 4 to 16 bytes, of all kinds that can be so short.
pub fn short_messages() -> Vec<u8> {
    record(&row(MAX_RECORD_LEN, &short_round()))
}

/// The smallest extension of each kind that is opened, 17 bytes in all.
fn small_extensions() -> Vec<u8> {
    [
        extension(SERVER_NAME, &[0, 0]),
        extension(MAX_FRAGMENT_LENGTH, &[1]),
        extension(SUPPORTED_GROUPS, &[0, 0]),
    ]
    .concat()
}

/// One block of 65,535 bytes: 11,565 extensions of 5 and 6 bytes.
pub fn many_extensions() -> Vec<u8> {
    joined_extensions(MAX_BLOCK_LEN)
}

/// The buffer of flow `k` of a tap: the handshake records of TLS 1.2, with the hellos of one
/// capture or another.
pub fn flow(k: usize) -> Vec<Vec<u8>> {
    let (clients, servers) = (client_hellos(), server_hellos());
    let mut records = flights();
    records[0].clone_from(&clients[k % clients.len()]);
    records[1].clone_from(&servers[k % servers.len()]);
    records
}

/// Records with messages of the kinds that the captures lack.
pub fn each_kind() -> Vec<Vec<u8>> {
    let draft18 = [&TLS13_DRAFT18.to_be_bytes()[..], &[7; 32], &[0x13, 1, 0, 1, 9]].concat();
    let messages = [
        message(SERVER_HELLO, &draft18),
        message(HELLO_RETRY_REQUEST, &[0x7f, 0x12, 0x13, 1, 0, 2, 8, 8]),
        message(CERTIFICATE_REQUEST, &[2, 1, 64, 0, 4, 4, 1, 2, 1, 0, 5, 0, 1, 7, 0, 0]),
        message(CERTIFICATE_REQUEST, &[1, 1, 0, 3, 0, 1, 7]),
        message(CERTIFICATE_STATUS, &[1, 0, 0, 3, 1, 2, 3]),
        message(END_OF_EARLY_DATA, &[]),
        message(SERVER_KEY_EXCHANGE, &[3; 5]),
        short_round(),
    ];
    messages.iter().map(|content| record(content)).chain([record(&messages.concat())]).collect()
}

/// Records of the types that hold no handshake messages.
pub fn other_types() -> Vec<Vec<u8>> {
    vec![
        record_of(CHANGE_CIPHER_SPEC, &[1]),
        record_of(CHANGE_CIPHER_SPEC, &[1, 1, 1, 2]),
        record_of(ALERT, &[2, 40]),
        record_of(ALERT, &[1, 0, 2, 10, 1]),
        record_of(APPLICATION_DATA, &[]),
        record_of(APPLICATION_DATA, b"GET /"),
        record_of(HEARTBEAT, &[&[1, 0, 4][..], &[8; 4], &[0; MIN_PADDING_LEN]].concat()),
        record_of(HEARTBEAT, &[&[2, 0, 0][..], &[0; MIN_PADDING_LEN]].concat()),
    ]
}

/// Extension blocks with what the captures lack: fragment lengths, rows of names, empty lists,
/// types that say nothing, and the name without data that a server sends, which is damage.
pub fn each_extension() -> Vec<Vec<u8>> {
    let sound = [
        extension(SERVER_NAME, &[0, 12, 0, 0, 2, b'a', b'b', 1, 0, 0, 0, 0, 1, b'c']),
        extension(MAX_FRAGMENT_LENGTH, &[4]),
        extension(SUPPORTED_GROUPS, &[0, 6, 0, 29, 0x11, 0xec, 0xfa, 0xfa]),
        extension(0xfafa, &[]),
        extension(21, &[0; 9]),
        small_extensions(),
    ];
    let damaged = extension(SERVER_NAME, &[]);
    let rows = [sound.concat(), [&damaged[..], &sound[1]].concat(), damaged];
    sound.into_iter().chain(rows).collect()
}

/// As many whole rounds as `len` bytes hold.
fn row(len: usize, round: &[u8]) -> Vec<u8> {
    round.repeat(len / round.len())
}

/// A record with a ClientHello and one with a ServerHello, again and again.
pub fn joined_records(len: usize) -> Vec<u8> {
    row(len, &flights()[..2].concat())
}

/// Short messages of eight kinds, again and again.
pub fn joined_messages(len: usize) -> Vec<u8> {
    row(len, &short_round())
}

/// Small extensions of the three kinds that are opened, again and again.
pub fn joined_extensions(len: usize) -> Vec<u8> {
    row(len, &small_extensions())
}

/// One Certificate, of certificates of 61 bytes.
pub fn many_certificates(len: usize) -> Vec<u8> {
    let chain = row(len - 7, &[&u24_bytes(61)[..], &[0x30; 61]].concat());
    message(CERTIFICATE, &[&u24_bytes(chain.len())[..], &chain].concat())
}
