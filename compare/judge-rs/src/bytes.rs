//! The parts from which inputs are put together.

use crate::table::version::TLS12;

/// The last `width` bytes of n, big-endian.
pub fn be(width: usize, n: usize) -> Vec<u8> {
    (n as u64).to_be_bytes()[8 - width..].to_vec()
}

pub fn run(byte: u8, n: usize) -> Vec<u8> {
    vec![byte; n]
}

/// 1, 2, 3 and so on, so that a byte tells its place.
pub fn counting(n: usize) -> Vec<u8> {
    (1..=n).map(|k| k as u8).collect()
}

/// Bytes that count while they are few; of many only the first and the last three differ from a
/// run.
pub fn telling(n: usize) -> Vec<u8> {
    if n <= 260 {
        return counting(n);
    }
    join(&[&[1, 2, 3], &run(0x5a, n - 6), &[0xfd, 0xfe, 0xff]])
}

pub fn join(parts: &[&[u8]]) -> Vec<u8> {
    parts.concat()
}

/// A length of `width` bytes and the bytes.
pub fn counted(width: usize, body: &[u8]) -> Vec<u8> {
    announced(width, body.len(), body)
}

/// A length that need not be that of the bytes behind it.
pub fn announced(width: usize, n: usize, body: &[u8]) -> Vec<u8> {
    join(&[&be(width, n), body])
}

/// A message of that type.
pub fn message(handshake_type: u8, body: &[u8]) -> Vec<u8> {
    join(&[&[handshake_type], &counted(3, body)])
}

/// A record of that type, of TLS 1.2.
pub fn record(record_type: u8, body: &[u8]) -> Vec<u8> {
    join(&[&[record_type], &TLS12.to_be_bytes(), &counted(2, body)])
}

/// Reads hex with any white space between bytes.
pub fn hex(text: &str) -> Vec<u8> {
    let digits: String = text.split_whitespace().collect();
    assert!(digits.len().is_multiple_of(2), "half a byte in {text}");
    (0..digits.len()).step_by(2).map(|i| u8::from_str_radix(&digits[i..i + 2], 16).expect("hex")).collect()
}
