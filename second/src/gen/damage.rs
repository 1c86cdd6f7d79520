//! Damage: recordings that were well-formed before something happened to them.

use super::rng::Rng;
use super::{encode, reading};
use crate::read::read_recording;

fn good(rng: &mut Rng) -> Vec<u8> {
    let reading = reading::reading(rng);
    encode::wasteful(&reading, rng)
}

/// Cut short at any byte.
pub fn cut(rng: &mut Rng) -> Vec<u8> {
    let mut bytes = good(rng);
    bytes.truncate(rng.below(bytes.len() + 1));
    bytes
}

/// One to three bytes set to other values.
pub fn change(rng: &mut Rng) -> Vec<u8> {
    let mut bytes = good(rng);
    for _ in 0..=rng.below(3) {
        let at = rng.below(bytes.len());
        bytes[at] = match rng.below(4) {
            0 => bytes[at] ^ 1 << rng.below(8),
            1 => bytes[at].wrapping_add(1),
            2 => rng.pick(&[0, 0xFF, 0x80, 0x7F, 2, 21]),
            _ => rng.byte(),
        };
    }
    bytes
}

/// The start of one recording and the end of another, cut anywhere or between
/// blocks.
pub fn splice(rng: &mut Rng) -> Vec<u8> {
    let (first, second) = (good(rng), good(rng));
    let (end, start) = if rng.chance(50) {
        (block_place(rng, &first), block_place(rng, &second))
    } else {
        (rng.below(first.len() + 1), rng.below(second.len() + 1))
    };
    [&first[..end], &second[start..]].concat()
}

/// The place of one of the blocks, or the end.
fn block_place(rng: &mut Rng, bytes: &[u8]) -> usize {
    let mut places: Vec<usize> = read_recording(bytes).blocks.iter().map(|b| b.place).collect();
    places.push(bytes.len());
    rng.pick(&places)
}

/// A block whose size is not that of its messages, or that has no angles.
pub fn sizes(rng: &mut Rng) -> Vec<u8> {
    let mut bytes = good(rng);
    let at = block_place(rng, &bytes);
    if at + 16 > bytes.len() {
        let stray = rng.below(20);
        bytes.extend((0..stray).map(|_| rng.byte()));
        return bytes;
    }
    if rng.chance(25) {
        let angle = at + 4 + 4 * rng.below(3);
        bytes[angle + 2] |= 0x80;
        bytes[angle + 3] |= 0x7F;
        return bytes;
    }
    let size = u32::from_le_bytes(bytes[at..at + 4].try_into().unwrap());
    let size = match rng.below(6) {
        0 => size.wrapping_add(1),
        1 => size.wrapping_sub(1),
        2 => rng.pick(&[8000, 8001, 0, 0x8000_0000, u32::MAX]),
        3 => size + rng.below(100) as u32,
        4 => size.saturating_sub(rng.below(100) as u32),
        _ => rng.word() as u32,
    };
    bytes[at..at + 4].copy_from_slice(&size.to_le_bytes());
    bytes
}

/// A message of a well-formed recording is cut, changed or put elsewhere, and
/// the block's size made to fit, so that the message itself is what is wrong.
pub fn message(rng: &mut Rng) -> Vec<u8> {
    let bytes = good(rng);
    let attempt = read_recording(&bytes);
    let filled: Vec<_> = attempt.blocks.iter().filter(|b| !b.messages.is_empty()).collect();
    if filled.is_empty() {
        return [bytes, vec![0; rng.below(20)]].concat();
    }
    let block = rng.pick(&filled);
    let step = &block.messages[rng.below(block.messages.len())];
    let body = block.place + 16;
    let mut message = bytes[step.place..step.next].to_vec();
    let mut tail = &bytes[step.next..block.next];
    match rng.below(5) {
        0 => {
            message.truncate(rng.below(message.len()) + 1);
            tail = &[];
        }
        1 => message[0] = rng.byte(),
        2 => {
            let at = rng.below(message.len().min(8));
            message[at] = rng.byte();
        }
        3 => message = vec![2],
        _ => message.insert(0, rng.byte()),
    }
    let body = [&bytes[body..step.place], &message, tail].concat();
    let head = [&(body.len() as u32).to_le_bytes()[..], &bytes[block.place + 4..block.place + 16]];
    [&bytes[..block.place], &head.concat(), &body, &bytes[block.next..]].concat()
}
