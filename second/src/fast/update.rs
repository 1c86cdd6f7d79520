//! Updates: most of a recording's bytes.
//!
//! The fields sent are spread to their places in a `Wire`, the rest is taken
//! from the baseline. A field that was sent needlessly shows as one that does
//! not differ from the baseline.

use super::output::{Output, ROOM};
use super::scene::{Wire, EPOCH};
use super::{good, Bad, Pass, MAX_ENTITY};

/// The mask as two indices: bits 6 and 10 to 13, and the axes' bits.
///
/// Index of the first group: model, colormap, skin, effects, frame from bit 0.
/// Index of the second: x, y, z, angle 1, angle 0, angle 2 from bit 0.
#[inline(always)]
pub const fn groups(low: u8, high: u8) -> (usize, usize) {
    let first = (high >> 2 & 15) | (low >> 6 & 1) << 4;
    let second = (low >> 1 & 15) | (high & 3) << 4;
    (first as usize, second as usize)
}

/// A field: its first byte in a `Wire`, its bytes, its bit in the group's index.
pub type Field = (usize, usize, usize);

pub const FIRST: [Field; 5] = [(0, 1, 0), (1, 1, 4), (2, 1, 1), (3, 1, 2), (4, 1, 3)];
pub const SECOND: [Field; 6] =
    [(5, 2, 0), (7, 1, 4), (8, 2, 1), (10, 1, 3), (11, 2, 2), (13, 1, 5)];

/// Updates one after the other: where they end, how many they are, and whether
/// what stands there is an update that is not good.
pub struct Run {
    pub place: usize,
    pub count: usize,
    pub bad: bool,
}

impl<O: Output> Pass<'_, O> {
    /// Reads the updates that stand at `at`.
    #[inline(always)]
    pub(super) fn updates<const SHUFFLE: bool>(
        &mut self,
        block: usize,
        at: usize,
        end: usize,
    ) -> Run {
        let mut run = Run { place: at, count: 0, bad: false };
        #[cfg(target_arch = "x86_64")]
        if SHUFFLE {
            // SAFETY: `SHUFFLE` is set only where SSSE3 was found.
            run = unsafe { self.updates_by_shuffle(block, at, end) };
        }
        while !run.bad && run.place < end && self.input[run.place] >= 128 {
            match self.update_by_field(block, run.place, end) {
                Ok(next) => run.place = next,
                Err(Bad) => run.bad = true,
            }
            run.count += usize::from(!run.bad);
        }
        run
    }

    /// The same a field at a time, for other processors and the last bytes.
    #[inline(never)]
    fn update_by_field(&mut self, block: usize, at: usize, end: usize) -> Result<usize, Bad> {
        let mut rest = self.input[at..end].iter().copied();
        let mut take = || rest.next().ok_or(Bad);
        let low = take()? & 0x7F;
        let high = if low & 1 != 0 { take()? } else { 0 };
        let entity_low = take()?;
        let entity_high = if high & 0x40 != 0 { take()? } else { 0 };
        let entity = u16::from_le_bytes([entity_low, entity_high]);
        good(high & 0x80 == 0 && entity <= MAX_ENTITY, ())?;
        let mut record = self.scene.baselines[entity as usize];
        let (first, second) = groups(low, high);
        for (index, fields) in [(first, &FIRST[..]), (second, &SECOND[..])] {
            for &(lane, width, bit) in fields {
                if index >> bit & 1 != 0 {
                    for byte in &mut record.0[lane..lane + width] {
                        *byte = take()?;
                    }
                }
            }
        }
        let next = end - rest.len();
        record.0[14] = low >> 5 & 1;
        record.0[EPOCH] = self.scene.epoch;
        let before = std::mem::replace(&mut self.scene.records[entity as usize], record);
        self.scene.present += u32::from(before.0[EPOCH] < self.scene.epoch);
        if O::WRITES {
            self.rewrite(block, at, next, entity);
        }
        Ok(next)
    }

    /// Puts the normal form in place of the update just read, unless it is it.
    fn rewrite(&mut self, block: usize, at: usize, next: usize, entity: u16) {
        let base = &self.scene.baselines[entity as usize];
        let record = &self.scene.records[entity as usize];
        let (normal, length) = encode(base, record, entity);
        // Whatever is sent needlessly takes a byte or more, so the same length
        // means the same bytes.
        if length != next - at {
            self.output.replace(block, at, next, &normal, length);
        }
    }
}

/// Writes what comes before the fields: number, high byte if there is any bit in
/// it, entity. How many bytes it is.
#[inline(always)]
pub fn write_head(out: &mut [u8], bit5: u8, entity: u16, first: u8, second: u8) -> usize {
    let wide = u8::from(entity > 255);
    let high = (first & 15) << 2 | second >> 4 | wide << 6;
    let has_high = u8::from(high != 0);
    let low = first >> 4 << 6 | (second & 15) << 1 | bit5 << 5 | has_high;
    let at = usize::from(has_high);
    out[0] = 0x80 | low;
    out[1] = high;
    out[1 + at] = entity as u8;
    out[2 + at] = (entity >> 8) as u8;
    2 + at + usize::from(wide)
}

/// The normal form of a record: its bytes and how many they are.
fn encode(base: &Wire, record: &Wire, entity: u16) -> ([u8; ROOM], usize) {
    let mut fields = [0; 16];
    let mut length = 0;
    let (mut first, mut second) = (0u8, 0u8);
    for (index, table) in [(&mut first, &FIRST[..]), (&mut second, &SECOND[..])] {
        for &(lane, width, bit) in table {
            let bytes = &record.0[lane..lane + width];
            if bytes != &base.0[lane..lane + width] {
                fields[length..length + width].copy_from_slice(bytes);
                length += width;
                *index |= 1 << bit;
            }
        }
    }
    let mut out = [0; ROOM];
    let at = write_head(&mut out, record.0[14], entity, first, second);
    out[at..at + 16].copy_from_slice(&fields);
    (out, at + length)
}
