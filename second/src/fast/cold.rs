//! Why a message is refused: asked once, for a message known not to be good.

use super::scene::FastScene;
use super::{MAX_ENTITY, TIME_END};
use crate::message::Refusal;

const SHORT: u8 = 5;
const UNKNOWN: u8 = 6;
const STRING: u8 = 7;
const RESERVED: u8 = 8;
const RANGE: u8 = 9;
const TIME: u8 = 10;

/// What a message's fields ask of the bytes, in the order of the wire. Fields
/// that any bytes fit are in only where another field follows them.
enum Ask {
    /// So many bytes.
    Bytes(usize),
    /// A byte below this.
    Below(u8),
    /// A byte from 1 to 16.
    Limit,
    /// The four bytes of protocol 15.
    Protocol,
    /// An entity of two bytes.
    Entity,
    /// The word that sound and stopsound split.
    ChannelAndEntity,
    Text,
    Names,
    /// Four bytes of time.
    Time,
    /// One more static.
    Static,
}

#[cold]
pub fn refusal(input: &[u8], at: usize, end: usize, scene: &FastScene) -> Refusal {
    // A disconnect is whole and has no rule: what is wrong is the next byte.
    if input[at] == 2 {
        return Refusal { number: 11, place: at + 1 };
    }
    let bytes = &input[at..end];
    let number = match why(bytes, scene) {
        Err(number) => number,
        Ok(_) => unreachable!("a good message was called bad at {at}"),
    };
    Refusal { number, place: at }
}

fn why<'a>(bytes: &'a [u8], scene: &FastScene) -> Result<&'a [u8], u8> {
    use Ask::*;
    let rest = &bytes[1..];
    let fields: &[Ask] = match bytes[0] {
        3 => &[Below(32), Bytes(4)],
        4 => &[Protocol],
        5 => &[Entity],
        6 => return sound(rest, scene),
        7 => &[Time],
        8 | 9 | 26 | 31 | 34 => &[Text],
        10 => &[Bytes(3)],
        11 => &[Protocol, Limit, Bytes(1), Text, Names, Names],
        12 => &[Below(64), Text],
        13 => &[Below(scene.limit), Text],
        14 => &[Below(scene.limit), Bytes(2)],
        15 => return client_data(rest, scene),
        16 => &[ChannelAndEntity],
        17 => &[Below(scene.limit), Bytes(1)],
        18 => &[Bytes(11)],
        19 => &[Bytes(8)],
        20 => &[Static, Bytes(13)],
        22 => &[Entity, Bytes(13)],
        23 => return temporary(rest, scene),
        24 | 25 => &[Bytes(1)],
        29 => &[Bytes(9)],
        32 => &[Bytes(2)],
        128..=255 => return update(bytes, scene),
        _ => return Err(UNKNOWN),
    };
    ask_all(rest, fields, scene)
}

fn ask_all<'a>(bytes: &'a [u8], fields: &[Ask], scene: &FastScene) -> Result<&'a [u8], u8> {
    fields.iter().try_fold(bytes, |rest, field| ask(rest, field, scene))
}

/// Answers one field: the bytes after it, or the refusal's number.
fn ask<'a>(bytes: &'a [u8], field: &Ask, scene: &FastScene) -> Result<&'a [u8], u8> {
    match field {
        Ask::Bytes(count) => bytes.get(*count..).ok_or(SHORT),
        Ask::Below(limit) => rule(bytes, RANGE, |[byte]| byte < *limit),
        Ask::Limit => rule(bytes, RANGE, |[byte]| (1..=16).contains(&byte)),
        Ask::Protocol => rule(bytes, RANGE, |four| u32::from_le_bytes(four) == 15),
        Ask::Entity => rule(bytes, RANGE, |two| u16::from_le_bytes(two) <= MAX_ENTITY),
        Ask::ChannelAndEntity => {
            rule(bytes, RANGE, |two| u16::from_le_bytes(two) / 8 <= MAX_ENTITY)
        }
        Ask::Text => text(bytes),
        Ask::Names => names(bytes),
        Ask::Time => {
            rule(bytes, TIME, |four| (scene.time..TIME_END).contains(&u32::from_le_bytes(four)))
        }
        Ask::Static if scene.statics >= 128 => Err(RANGE),
        Ask::Static => Ok(bytes),
    }
}

/// A field of `N` bytes: whole first, then its rule.
fn rule<const N: usize>(
    bytes: &[u8],
    number: u8,
    holds: impl FnOnce([u8; N]) -> bool,
) -> Result<&[u8], u8> {
    let (field, rest) = bytes.split_first_chunk().ok_or(SHORT)?;
    if holds(*field) {
        Ok(rest)
    } else {
        Err(number)
    }
}

fn text(bytes: &[u8]) -> Result<&[u8], u8> {
    let window = &bytes[..bytes.len().min(2047)];
    match window.iter().position(|&byte| byte == 0 || byte == 0xFF) {
        Some(at) if bytes[at] == 0 => Ok(&bytes[at + 1..]),
        Some(_) => Err(STRING),
        None if window.len() == 2047 => Err(STRING),
        None => Err(SHORT),
    }
}

fn names(mut bytes: &[u8]) -> Result<&[u8], u8> {
    for _ in 0..256 {
        let rest = text(bytes)?;
        if bytes[0] == 0 {
            return Ok(rest);
        }
        bytes = rest;
    }
    Err(RANGE)
}

fn sound<'a>(bytes: &'a [u8], scene: &FastScene) -> Result<&'a [u8], u8> {
    rule(bytes, RESERVED, |[mask]| mask <= 3)?;
    let sent = bytes[0].count_ones() as usize;
    ask_all(&bytes[1..], &[Ask::Bytes(sent), Ask::ChannelAndEntity, Ask::Bytes(7)], scene)
}

fn client_data<'a>(bytes: &'a [u8], scene: &FastScene) -> Result<&'a [u8], u8> {
    rule(bytes, RESERVED, |mask| u16::from_le_bytes(mask) & 0x8100 == 0)?;
    let sent = bytes[0].count_ones() + (bytes[1] & 0x70).count_ones();
    ask(&bytes[2..], &Ask::Bytes(sent as usize + 12), scene)
}

fn temporary<'a>(bytes: &'a [u8], scene: &FastScene) -> Result<&'a [u8], u8> {
    match bytes.first() {
        None => Err(SHORT),
        Some(0..=4 | 7 | 8 | 10 | 11) => ask(&bytes[1..], &Ask::Bytes(6), scene),
        Some(12) => ask(&bytes[1..], &Ask::Bytes(8), scene),
        Some(5 | 6 | 9 | 13) => ask_all(&bytes[1..], &[Ask::Entity, Ask::Bytes(12)], scene),
        Some(_) => Err(RANGE),
    }
}

fn update<'a>(bytes: &'a [u8], scene: &FastScene) -> Result<&'a [u8], u8> {
    let low = bytes[0];
    let mut rest = &bytes[1..];
    let mut high = 0;
    if low & 1 != 0 {
        rest = rule(rest, RESERVED, |[byte]| byte < 0x80)?;
        high = bytes[1];
    }
    let entity = if high & 0x40 != 0 { Ask::Entity } else { Ask::Bytes(1) };
    let pairs = (low & 0b1110).count_ones();
    let singles = (low & 0b0101_0000).count_ones() + (high & 0b0011_1111).count_ones();
    ask_all(rest, &[entity, Ask::Bytes((2 * pairs + singles) as usize)], scene)
}
