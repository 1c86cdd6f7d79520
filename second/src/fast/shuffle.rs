//! Updates taken apart, and put together, by shuffles of their bytes.

use super::output::{Output, ROOM};
use super::scene::{Wire, EPOCH};
use super::update::{groups, write_head, Field, Run, FIRST, SECOND};
use super::{Pass, MAX_ENTITY};
use std::arch::x86_64::*;

/// What to do for one value of a group's index.
#[repr(C, align(64))]
#[derive(Clone, Copy)]
struct Group {
    /// For each byte of a `Wire` the byte sent for it, or 80 if none is.
    spread: Wire,
    /// For each byte sent the byte of a `Wire`, then 80.
    gather: Wire,
    /// A bit for each field sent, at the first of its bytes.
    sent: u16,
    /// How many bytes are sent.
    length: u8,
}

/// The first of the two bytes of x, y and z.
const PAIRS: u32 = 1 << 5 | 1 << 8 | 1 << 11;

const fn group(index: usize, fields: &[Field]) -> Group {
    let mut group =
        Group { spread: Wire([0x80; 16]), gather: Wire([0x80; 16]), sent: 0, length: 0 };
    let mut i = 0;
    while i < fields.len() {
        let (at, width, bit) = fields[i];
        if index >> bit & 1 == 1 {
            group.sent |= 1 << at;
            let mut byte = 0;
            while byte < width {
                group.spread.0[at + byte] = group.length;
                group.gather.0[group.length as usize] = (at + byte) as u8;
                group.length += 1;
                byte += 1;
            }
        }
        i += 1;
    }
    group
}

const fn first_groups() -> [Group; 32] {
    let mut groups = [group(0, &FIRST); 32];
    let mut index = 0;
    while index < 32 {
        groups[index] = group(index, &FIRST);
        index += 1;
    }
    groups
}

const fn second_groups() -> [Group; 64] {
    let mut groups = [group(0, &SECOND); 64];
    let mut index = 0;
    while index < 64 {
        groups[index] = group(index, &SECOND);
        index += 1;
    }
    groups
}

static FIRST_GROUPS: [Group; 32] = first_groups();
static SECOND_GROUPS: [Group; 64] = second_groups();

/// What an update's first two bytes, number and high byte or entity, say of the
/// rest. The next message waits for the length, so all of it is one load.
#[derive(Clone, Copy)]
struct Shape(u32);

impl Shape {
    const fn new(low: u8, second: u8) -> Shape {
        let has_high = low & 1 == 1;
        let high = if has_high { second } else { 0 };
        let (first, axes) = groups(low, high);
        let wide = (high >> 6 & 1) as u32;
        let fields = 2 + has_high as u32 + wide;
        let length =
            fields + group(first, &FIRST).length as u32 + group(axes, &SECOND).length as u32;
        Shape(
            length
                | (fields - 2) << 8
                | (1 - wide) << 11
                | (first as u32) << 12
                | (axes as u32) << 17
                | wide << 23
                | ((has_high && high == 0) as u32) << 24
                | ((high >> 7) as u32) << 31,
        )
    }

    /// The length of the whole message.
    #[inline(always)]
    fn length(self) -> usize {
        (self.0 & 31) as usize
    }

    /// Where the fields begin, after an entity of one or two bytes.
    #[inline(always)]
    fn fields(self) -> usize {
        2 + (self.0 >> 8 & 3) as usize
    }

    /// The entity, in the byte or the two bytes before the fields.
    #[inline(always)]
    fn entity(self, window: &[u8; WINDOW]) -> usize {
        let fields = self.fields();
        let word = u16::from_le_bytes([window[fields - 2], window[fields - 1]]);
        usize::from(word) >> (self.0 >> 8 & 8)
    }

    #[inline(always)]
    fn first(self) -> &'static Group {
        &FIRST_GROUPS[(self.0 >> 12 & 31) as usize]
    }

    #[inline(always)]
    fn axes(self) -> &'static Group {
        &SECOND_GROUPS[(self.0 >> 17 & 63) as usize]
    }

    /// Not 0 if the high byte or the width of the entity is needless.
    #[inline(always)]
    fn needless_head(self, entity: usize) -> u32 {
        (self.0 >> 23 & 1 ^ u32::from(entity > 255)) | self.0 & 1 << 24
    }

    #[inline(always)]
    fn reserved(self) -> bool {
        self.0 >> 31 != 0
    }
}

static SHAPES: [[Shape; 256]; 128] = shapes();

const fn shapes() -> [[Shape; 256]; 128] {
    let mut shapes = [[Shape(0); 256]; 128];
    let mut low = 0;
    while low < 128 {
        let mut second = 0;
        while second < 256 {
            shapes[low][second] = Shape::new(low as u8, second as u8);
            second += 1;
        }
        low += 1;
    }
    shapes
}

/// So many bytes from the number on may be loaded for an update.
const WINDOW: usize = 32;

/// The record that an update sends in full or in part, with what it leaves out
/// from the baseline; bytes 14 and 15 are the baseline's, 0.
#[target_feature(enable = "ssse3")]
#[inline]
fn fill(window: &[u8; WINDOW], shape: Shape, base: __m128i) -> __m128i {
    let (first, axes) = (shape.first(), shape.axes());
    let (spread_first, spread_axes) = (first.spread.load(), axes.spread.load());
    let fields = shape.fields();
    let at_axes = fields + usize::from(first.length & 7);
    let sent = _mm_or_si128(
        _mm_shuffle_epi8(load(window, fields), spread_first),
        _mm_shuffle_epi8(load(window, at_axes), spread_axes),
    );
    // A byte is left out where both groups say 80.
    let left_out = _mm_and_si128(spread_first, spread_axes);
    let left_out = _mm_cmpgt_epi8(_mm_setzero_si128(), left_out);
    _mm_or_si128(sent, _mm_and_si128(left_out, base))
}

#[inline(always)]
fn load(window: &[u8; WINDOW], at: usize) -> __m128i {
    let piece: &[u8; 16] = window[at..].first_chunk().expect("the window is long enough");
    // SAFETY: SSE2 is part of x86_64, and the load takes the 16 bytes lent.
    unsafe { _mm_loadu_si128(piece.as_ptr().cast()) }
}

/// The fields sent that do not differ from the baseline: a bit for each, at the
/// first of its bytes.
#[inline(always)]
fn needless(shape: Shape, record: __m128i, base: __m128i) -> u32 {
    // SAFETY: SSE2 is part of x86_64.
    let equal = unsafe { _mm_movemask_epi8(_mm_cmpeq_epi8(record, base)) } as u32;
    let equal_fields = equal & (equal >> 1 | !PAIRS);
    equal_fields & u32::from(shape.first().sent | shape.axes().sent)
}

/// The bits of a group's index for fields given by the first of their bytes.
const fn bits<const N: usize>(fields: &[Field], from: usize) -> [u8; N] {
    let mut bits = [0; N];
    let mut marks = 0;
    while marks < N {
        let mut i = 0;
        while i < fields.len() {
            let (at, _, bit) = fields[i];
            bits[marks] |= ((marks >> (at - from) & 1) << bit) as u8;
            i += 1;
        }
        marks += 1;
    }
    bits
}

static FIRST_BITS: [u8; 32] = bits(&FIRST, 0);
static SECOND_BITS: [u8; 512] = bits(&SECOND, 5);

impl<O: Output> Pass<'_, O> {
    /// Spreads both groups with one shuffle each. Stops before the last bytes of
    /// the input.
    #[target_feature(enable = "ssse3")]
    #[inline]
    pub(super) fn updates_by_shuffle(&mut self, block: usize, at: usize, end: usize) -> Run {
        let input = self.input;
        let stop = end.min((input.len() + 1).saturating_sub(WINDOW));
        let epoch = self.scene.epoch;
        let mut run = Run { place: at, count: 0, bad: false };
        let mut newly_present = 0;
        while run.place < stop {
            let at = run.place;
            // SAFETY: `at` is below `stop`, so the window is inside the input.
            let window: &[u8; WINDOW] = unsafe { &*input.as_ptr().add(at).cast() };
            if window[0] < 128 {
                break;
            }
            let shape = SHAPES[(window[0] & 0x7F) as usize][window[1] as usize];
            let next = at + shape.length();
            let entity = shape.entity(window);
            // A byte past the block's end may have been taken for a mask; then
            // `next` is past the end too.
            if shape.reserved() || entity > MAX_ENTITY as usize || next > end {
                run.bad = true;
                break;
            }
            let base = self.scene.baselines[entity].load();
            let record = fill(window, shape, base);
            let last = i32::from(window[0] >> 5 & 1) | i32::from(epoch) << 8;
            let stored = &mut self.scene.records[entity];
            newly_present += u32::from(stored.0[EPOCH] < epoch);
            stored.store(_mm_insert_epi16::<7>(record, last));
            if O::WRITES {
                let needless = needless(shape, record, base);
                if needless | shape.needless_head(entity) != 0 {
                    self.rewrite_by_shuffle(block, at, next, entity as u16, needless);
                }
            }
            run.place = next;
            run.count += 1;
        }
        self.scene.present += newly_present;
        run
    }

    /// Puts the normal form in place of the update just read: that without the
    /// needless fields, which have a bit at the first of their bytes.
    #[target_feature(enable = "ssse3")]
    #[inline(never)]
    fn rewrite_by_shuffle(
        &mut self,
        block: usize,
        at: usize,
        next: usize,
        entity: u16,
        needless: u32,
    ) {
        let low = self.input[at] & 0x7F;
        let high = if low & 1 != 0 { self.input[at + 1] } else { 0 };
        let (first, second) = groups(low, high);
        let first = first & !usize::from(FIRST_BITS[needless as usize & 31]);
        let second = second & !usize::from(SECOND_BITS[(needless >> 5) as usize & 511]);
        let mut out = [0; ROOM + 16];
        let record = self.scene.records[entity as usize].load();
        let fields = write_head(&mut out, low >> 5 & 1, entity, first as u8, second as u8);
        let (first, second) = (&FIRST_GROUPS[first], &SECOND_GROUPS[second]);
        let axes = fields + usize::from(first.length);
        let mut put = |at: usize, gather: &Wire| {
            let mut sent = Wire::default();
            sent.store(_mm_shuffle_epi8(record, gather.load()));
            out[at..at + 16].copy_from_slice(&sent.0);
        };
        put(fields, &first.gather);
        put(axes, &second.gather);
        let out = out.first_chunk().expect("it is longer");
        self.output.replace(block, at, next, out, axes + usize::from(second.length));
    }
}
