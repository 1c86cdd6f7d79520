//! Checks Quake DEM recordings (protocol 15, client view) and writes their normal form.
//!
//! A recording is accepted if, read whole from the scene at the start, it meets no refusal. The functions behind this
//! crate are proved to answer what the definitions of recording, refusal and normal form say, for any bytes.
//!
//! ```
//! let recording = b"-07\n";
//! assert_eq!(cobbrundle::check(recording)?.track, -7);
//! assert_eq!(cobbrundle::normalise(recording)?, b"-7\n");
//! # Ok::<(), cobbrundle::Refusal>(())
//! ```

use std::fmt;

extern "C" {
    fn cobbrundle_check(
        bytes: *const u8,
        length: usize,
        place: &mut usize,
        track: &mut i16,
        blocks: &mut usize,
        messages: &mut usize,
    ) -> u8;

    fn cobbrundle_normalise(
        bytes: *const u8,
        length: usize,
        room: *mut u8,
        room_length: usize,
        place: &mut usize,
        written: &mut usize,
    ) -> u8;
}

/// What an accepted recording holds.
#[derive(Clone, Copy, Debug, PartialEq, Eq)]
pub struct Summary {
    /// The track number, -999 to 999.
    pub track: i16,
    /// The number of blocks.
    pub blocks: usize,
    /// The number of messages in all blocks.
    pub messages: usize,
}

/// Why a recording is not accepted, or not written. It is shown as `refused 6 at 19`.
#[derive(Clone, Copy, Debug, PartialEq, Eq)]
pub struct Refusal {
    /// 1 to 11 for a recording that is not accepted, 12 for room that is too short (`include/cobbrundle.h` lists them).
    pub number: u8,
    /// Where, in bytes from the first of the recording; for 12 the length that is needed.
    pub place: usize,
}

impl fmt::Display for Refusal {
    fn fmt(&self, f: &mut fmt::Formatter<'_>) -> fmt::Result {
        write!(f, "refused {} at {}", self.number, self.place)
    }
}

impl std::error::Error for Refusal {}

/// Reads a recording whole, once: what it holds, or the first refusal that it meets.
///
/// ```
/// let summary = cobbrundle::check(b"2\n")?;
/// assert_eq!((summary.track, summary.blocks, summary.messages), (2, 0, 0));
/// # Ok::<(), cobbrundle::Refusal>(())
/// ```
///
/// ```
/// let refusal = cobbrundle::check(b"1234\n").unwrap_err();
/// assert_eq!(refusal.to_string(), "refused 1 at 3");
/// ```
pub fn check(recording: &[u8]) -> Result<Summary, Refusal> {
    let (mut place, mut track, mut blocks, mut messages) = (0, 0, 0, 0);
    // SAFETY: the function reads the bytes lent and writes the four numbers, which lie apart; it has no other demand.
    let number = unsafe {
        cobbrundle_check(
            recording.as_ptr(),
            recording.len(),
            &mut place,
            &mut track,
            &mut blocks,
            &mut messages,
        )
    };
    match number {
        0 => Ok(Summary { track, blocks, messages }),
        _ => Err(Refusal { number, place }),
    }
}

/// Writes a recording's normal form, the shortest bytes with the same reading, to the front of `room`, and gives its
/// length. The bytes behind it stay as they are; with a refusal every byte does.
///
/// Room that is too short is refused by number 12, with the length that is needed as the place. Room of the
/// recording's length is always enough.
///
/// ```
/// let mut room = *b"....";
/// assert_eq!(cobbrundle::normalise_into(b"007\n", &mut room), Ok(2));
/// assert_eq!(room, *b"7\n..");
///
/// let refusal = cobbrundle::normalise_into(b"007\n", &mut room[..1]).unwrap_err();
/// assert_eq!((refusal.number, refusal.place), (12, 2));
/// ```
pub fn normalise_into(recording: &[u8], room: &mut [u8]) -> Result<usize, Refusal> {
    let (mut place, mut written) = (0, 0);
    // SAFETY: the function reads the bytes lent and writes the room and the two numbers, which lie apart; it has no
    // other demand.
    let number = unsafe {
        cobbrundle_normalise(
            recording.as_ptr(),
            recording.len(),
            room.as_mut_ptr(),
            room.len(),
            &mut place,
            &mut written,
        )
    };
    match number {
        0 => Ok(written),
        _ => Err(Refusal { number, place }),
    }
}

/// A recording's normal form, the shortest bytes with the same reading; or the first refusal that the recording meets.
///
/// ```
/// assert_eq!(cobbrundle::normalise(b"-0\n")?, b"0\n");
/// # Ok::<(), cobbrundle::Refusal>(())
/// ```
pub fn normalise(recording: &[u8]) -> Result<Vec<u8>, Refusal> {
    // A normal form is never longer than what it was made of, so this is never refused by number 12.
    let mut room = vec![0; recording.len()];
    let written = normalise_into(recording, &mut room)?;
    room.truncate(written);
    Ok(room)
}
