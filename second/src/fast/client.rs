//! Clientdata: once a block in a game.

use super::output::{Output, ROOM};
use super::scene::Client;
use super::{good, Bad, Pass};

/// The mask bits of the first eight fields in the order of the wire.
const FIRST_BITS: [u16; 8] = [0, 1, 2, 5, 3, 6, 4, 7];
const FIRST_DEFAULTS: [u8; 8] = [22, 0, 0, 0, 0, 0, 0, 0];
/// The mask bits of weapon frame, armour, weapon model.
const EXTRA_BITS: [u16; 3] = [12, 13, 14];
const RESERVED: u16 = 1 << 8 | 1 << 15;
const ITEMS: u16 = 1 << 9;
/// Ground and water.
const FLAGS: u16 = 1 << 10 | 1 << 11;
/// Number and mask, items, and the last eight bytes.
const ALWAYS: usize = 3 + 4 + 8;
/// More bytes than any clientdata has.
const WINDOW: usize = 32;

impl<O: Output> Pass<'_, O> {
    #[inline(always)]
    pub(super) fn client_data(
        &mut self,
        block: usize,
        at: usize,
        end: usize,
    ) -> Result<usize, Bad> {
        let &[_, low, high] = self.fixed(at, end)?;
        let mask = u16::from_le_bytes([low, high]);
        let sent = (mask & 0x70FF).count_ones() as usize;
        let next = at + ALWAYS + sent;
        good(mask & RESERVED == 0 && next <= end, ())?;
        let mut client = Client {
            first: FIRST_DEFAULTS,
            ground: mask & 1 << 10 != 0,
            water: mask & 1 << 11 != 0,
            ..Client::default()
        };
        let mut short = [0; WINDOW];
        let window = self.window(at, &mut short);
        let items = take_sent(window, 3, mask, &FIRST_BITS, &mut client.first);
        client.items = bytes(window, items);
        let last = take_sent(window, items + 4, mask, &EXTRA_BITS, &mut client.extra);
        client.last = bytes(window, last);
        if O::WRITES {
            let normal = normal_mask(&client, mask);
            if normal != mask {
                self.rewrite_client(block, at, next, &client, normal);
            }
        }
        self.set_client(client);
        Ok(next)
    }

    /// The window that begins at `at`; past the end of the input it is zeros.
    #[inline(always)]
    fn window<'a>(&'a self, at: usize, short: &'a mut [u8; WINDOW]) -> &'a [u8; WINDOW] {
        let rest = &self.input[at..];
        match rest.first_chunk() {
            Some(window) => window,
            None => {
                short[..rest.len()].copy_from_slice(rest);
                short
            }
        }
    }

    fn rewrite_client(&mut self, block: usize, at: usize, next: usize, client: &Client, mask: u16) {
        let mut out = [0; ROOM];
        out[0] = 15;
        out[1..3].copy_from_slice(&mask.to_le_bytes());
        let mut length = 3;
        length += put_sent(&mut out[length..], mask, &FIRST_BITS, &client.first);
        out[length..length + 4].copy_from_slice(&client.items);
        length += 4;
        length += put_sent(&mut out[length..], mask, &EXTRA_BITS, &client.extra);
        out[length..length + 8].copy_from_slice(&client.last);
        self.output.replace(block, at, next, &out, length + 8);
    }

    #[inline(always)]
    fn set_client(&mut self, client: Client) {
        let [frame, armour, model] = client.extra;
        let [health_low, health_high, ammo, a, b, c, d, weapon] = client.last;
        let stats = &mut self.scene.stats;
        stats[0] = i16::from_le_bytes([health_low, health_high]).into();
        for (stat, byte) in [model, ammo, armour, frame, a, b, c, d, weapon].into_iter().enumerate()
        {
            stats[2 + stat] = byte.into();
        }
        self.scene.client = client;
    }
}

/// Takes the fields sent, which begin at `at`; where they end. Without a branch
/// for each: which fields are sent changes too often to be foreseen.
#[inline(always)]
fn take_sent(
    window: &[u8; WINDOW],
    mut at: usize,
    mask: u16,
    bits: &[u16],
    fields: &mut [u8],
) -> usize {
    for (field, bit) in fields.iter_mut().zip(bits) {
        let sent = mask >> bit & 1;
        let byte = window[at % WINDOW];
        *field = if sent != 0 { byte } else { *field };
        at += usize::from(sent);
    }
    at
}

#[inline(always)]
fn bytes<const N: usize>(window: &[u8; WINDOW], at: usize) -> [u8; N] {
    *window[at % WINDOW..].first_chunk().expect("a clientdata ends inside the window")
}

/// Puts the fields that the mask sends into `bytes`; how many bytes they are.
fn put_sent(bytes: &mut [u8], mask: u16, bits: &[u16], fields: &[u8]) -> usize {
    let mut at = 0;
    for (field, bit) in fields.iter().zip(bits) {
        if mask >> bit & 1 != 0 {
            bytes[at] = *field;
            at += 1;
        }
    }
    at
}

#[inline(always)]
fn normal_mask(client: &Client, mask: u16) -> u16 {
    let mut normal = ITEMS | mask & FLAGS;
    for (i, bit) in FIRST_BITS.into_iter().enumerate() {
        normal |= u16::from(client.first[i] != FIRST_DEFAULTS[i]) << bit;
    }
    for (i, bit) in EXTRA_BITS.into_iter().enumerate() {
        normal |= u16::from(client.extra[i] != 0) << bit;
    }
    normal
}
