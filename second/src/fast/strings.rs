//! Strings, looked at sixteen (or eight) bytes at a time.

use super::Bad;

/// A zero must be among the first so many bytes.
const LIMIT: usize = 2047;
const NAMES: usize = 255;

/// The place after the zero that ends the string at `at`.
#[inline(always)]
pub fn after(input: &[u8], at: usize, end: usize) -> Result<usize, Bad> {
    let stop = end.min(at + LIMIT);
    let found = find(input, at, stop);
    if found < stop && input[found] == 0 {
        return Ok(found + 1);
    }
    Err(Bad)
}

/// The place after a list of names and the empty one that ends it.
pub fn after_names(input: &[u8], mut at: usize, end: usize) -> Result<usize, Bad> {
    for _ in 0..=NAMES {
        let next = after(input, at, end)?;
        if next == at + 1 {
            return Ok(next);
        }
        at = next;
    }
    Err(Bad)
}

/// The first byte 00 or FF from `at` on; `stop` or more if there is none
/// before `stop`.
#[inline(always)]
pub fn find(input: &[u8], mut at: usize, stop: usize) -> usize {
    while at < stop {
        let Some(piece) = input[at..].first_chunk::<STRIDE>() else {
            return find_in_rest(input, at, stop);
        };
        if let Some(offset) = first_marker(piece) {
            return at + offset;
        }
        at += STRIDE;
    }
    stop
}

/// The end of the input is too near to look at many bytes at once.
fn find_in_rest(input: &[u8], at: usize, stop: usize) -> usize {
    let rest = &input[at..stop];
    at + rest.iter().position(|&byte| byte == 0 || byte == 0xFF).unwrap_or(rest.len())
}

#[cfg(target_arch = "x86_64")]
const STRIDE: usize = 16;

#[cfg(target_arch = "x86_64")]
#[inline(always)]
fn first_marker(piece: &[u8; STRIDE]) -> Option<usize> {
    use std::arch::x86_64::*;
    // SAFETY: SSE2 is part of x86_64, and the load takes the 16 bytes lent.
    let found = unsafe {
        let bytes = _mm_loadu_si128(piece.as_ptr().cast());
        let zero = _mm_cmpeq_epi8(bytes, _mm_setzero_si128());
        let ones = _mm_cmpeq_epi8(bytes, _mm_set1_epi8(-1));
        _mm_movemask_epi8(_mm_or_si128(zero, ones))
    };
    (found != 0).then(|| found.trailing_zeros() as usize)
}

#[cfg(not(target_arch = "x86_64"))]
const STRIDE: usize = 8;

/// A byte is zero if taking one from it borrows while its high bit was clear;
/// the lowest such mark is exact. FF is zero in the complement.
#[cfg(not(target_arch = "x86_64"))]
#[inline(always)]
fn first_marker(piece: &[u8; STRIDE]) -> Option<usize> {
    let word = u64::from_le_bytes(*piece);
    let zeros = |w: u64| w.wrapping_sub(u64::MAX / 255) & !w & (u64::MAX / 255 * 128);
    let found = zeros(word) | zeros(!word);
    (found != 0).then(|| found.trailing_zeros() as usize / 8)
}
