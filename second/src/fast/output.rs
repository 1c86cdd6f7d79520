//! What the pass hands on: nothing, the number of present marks, or the normal form.

/// Room beyond the normal form, which is never longer than the input: enough for
/// what is asked for ahead, so that the output is never moved.
pub const SLACK: usize = SHORT + 2 * ROOM;
/// The messages that may not be normal are no longer than this.
pub const ROOM: usize = 32;
/// So much unchanged input is left to stand before it is copied; small enough
/// to be in the nearest caches still.
const STANDING: usize = 16 * 1024;
/// Pieces up to this length are copied in strides.
const SHORT: usize = 512;
const STRIDE: usize = ROOM;

pub trait Output {
    /// Whether messages must be compared with their normal form at all.
    const WRITES: bool;
    /// The normal form of the message `at..next` of the block at `block` is the
    /// first `length` bytes of `normal`.
    fn replace(&mut self, block: usize, at: usize, next: usize, normal: &[u8; ROOM], length: usize);
    /// The block at `block` ends at `end`, with so many present marks.
    fn end_block(&mut self, block: usize, end: usize, present: u16);
    fn refuse_block(&mut self, block: usize);
    fn finish(&mut self);
}

/// Reading alone.
pub struct Discard;

impl Output for Discard {
    const WRITES: bool = false;
    fn replace(&mut self, _: usize, _: usize, _: usize, _: &[u8; ROOM], _: usize) {}
    fn end_block(&mut self, _: usize, _: usize, _: u16) {}
    fn refuse_block(&mut self, _: usize) {}
    fn finish(&mut self) {}
}

/// The place of each block, and the number of present marks behind it.
pub struct Overlay(pub Vec<(usize, u16)>);

impl Output for Overlay {
    const WRITES: bool = false;
    fn replace(&mut self, _: usize, _: usize, _: usize, _: &[u8; ROOM], _: usize) {}
    fn end_block(&mut self, block: usize, _: usize, present: u16) {
        self.0.push((block, present));
    }
    fn refuse_block(&mut self, _: usize) {}
    fn finish(&mut self) {}
}

/// Most messages are normal already. Input that is stays where it stands,
/// across messages and blocks, until something before or after it changes.
pub struct Normal<'a> {
    input: &'a [u8],
    out: &'a mut Vec<u8>,
    /// The first byte of the input that is not copied yet.
    standing: usize,
    /// Where the block's head is in `out`, once a message of it was replaced.
    head: Option<usize>,
    /// How much shorter the block's messages are so far.
    saved: usize,
}

impl<'a> Normal<'a> {
    pub fn new(input: &'a [u8], start: usize, out: &'a mut Vec<u8>) -> Normal<'a> {
        Normal { input, out, standing: start, head: None, saved: 0 }
    }

    /// Copies the input that stands before `at`.
    #[inline(always)]
    fn copy_to(&mut self, at: usize) {
        let mut from = self.standing;
        self.standing = at;
        // Short pieces are not worth a call: whole strides are copied while
        // the next stride may be overwritten and is inside the input.
        if at - from <= SHORT && at + STRIDE <= self.input.len() {
            self.out.reserve(SHORT + STRIDE);
            while from < at {
                let stride = self.input[from..].first_chunk().expect("inside the input");
                self.push(stride, STRIDE.min(at - from));
                from += STRIDE;
            }
        } else {
            self.out.extend_from_slice(&self.input[from..at]);
        }
    }

    /// Appends the first `length` bytes, by copying all of them.
    #[inline(always)]
    fn push(&mut self, bytes: &[u8; ROOM], length: usize) {
        self.out.reserve(ROOM);
        let end = self.out.len();
        assert!(length <= ROOM);
        // SAFETY: there is room for all of the bytes, and the first `length` of
        // them are written.
        unsafe {
            self.out.as_mut_ptr().add(end).cast::<[u8; ROOM]>().write(*bytes);
            self.out.set_len(end + length);
        }
    }
}

impl Output for Normal<'_> {
    const WRITES: bool = true;

    #[inline(never)]
    fn replace(
        &mut self,
        block: usize,
        at: usize,
        next: usize,
        normal: &[u8; ROOM],
        length: usize,
    ) {
        if self.head.is_none() {
            self.head = Some(self.out.len() + block - self.standing);
        }
        self.copy_to(at);
        self.push(normal, length);
        self.saved += next - at - length;
        self.standing = next;
    }

    #[inline(always)]
    fn end_block(&mut self, block: usize, end: usize, _: u16) {
        if let Some(head) = self.head.take() {
            let size = (end - block - super::BLOCK_HEAD - self.saved) as u32;
            self.out[head..head + 4].copy_from_slice(&size.to_le_bytes());
            self.saved = 0;
        }
        if end - self.standing >= STANDING {
            self.copy_to(end);
        }
    }

    fn refuse_block(&mut self, block: usize) {
        match self.head {
            Some(head) => self.out.truncate(head),
            None => self.copy_to(block),
        }
    }

    fn finish(&mut self) {
        self.copy_to(self.input.len());
    }
}
