//! Parts of bytes, by the lengths that were told.

/// Cuts parts of these lengths off the front, one behind the other; with what follows them. None
/// where they are longer than the bytes, which no export tells.
///
/// One test serves all parts.
#[inline(always)]
pub fn cut<const N: usize>(i: &[u8], lens: [u32; N]) -> Option<([&[u8]; N], &[u8])> {
    // then no sum of the lengths is too large for a number
    const { assert!(usize::BITS == 64 && N <= 1 << 16) };
    let mut end = 0;
    for len in lens {
        end += len as usize;
    }
    if end > i.len() {
        return None;
    }
    let mut parts = [i; N];
    let mut at = 0;
    for (part, len) in parts.iter_mut().zip(lens) {
        let next = at + len as usize;
        // SAFETY: `at` and `next` are sums of the first lengths, and the sum of them all is no
        // larger than the number of bytes.
        *part = unsafe { i.get_unchecked(at..next) };
        at = next;
    }
    // SAFETY: `end` is no larger than the number of bytes.
    Some((parts, unsafe { i.get_unchecked(end..) }))
}

/// The part that begins at `start`, `len` bytes long. None where that lies outside, which no export
/// tells.
#[inline(always)]
pub fn part(i: &[u8], start: usize, len: usize) -> Option<&[u8]> {
    i.get(start..start.wrapping_add(len))
}
