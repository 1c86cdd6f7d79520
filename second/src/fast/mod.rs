//! The fast reader and normaliser: one pass over the input, the scene changed
//! in place, no memory taken for a message.
//!
//! It shares no reading code with the plain reader, so that each can catch the
//! other. A message is looked at as a whole first: is it whole, do its rules
//! hold. Only when it is not good does `cold` ask field by field what comes
//! first.

mod client;
mod cold;
mod output;
mod scene;
#[cfg(target_arch = "x86_64")]
mod shuffle;
mod strings;
mod update;

use crate::message::Refusal;
use crate::scene::MAX_ENTITY;
use output::{Discard, Normal, Output, Overlay};
use scene::FastScene;

const BLOCK_HEAD: usize = 16;
const MAX_SIZE: usize = 8000;
/// The least float bits that are no time: infinity. Sign bits are above it.
const TIME_END: u32 = 0x7F80_0000;

/// What an accepted recording counts up to.
#[derive(Clone, Copy, Debug, PartialEq, Eq)]
pub struct Summary {
    pub track: i32,
    pub blocks: usize,
    pub messages: usize,
}

/// Reads a recording; the scene that it leads to, if it is accepted.
pub fn read(input: &[u8]) -> Result<(Summary, crate::scene::Scene), Refusal> {
    let mut scene = FastScene::boxed();
    let summary = read_in_place(input, &mut scene)?;
    Ok((summary, scene.to_scene()))
}

/// Reads a recording without handing out its scene: what `bench` times.
pub fn summarise(input: &[u8]) -> Result<Summary, Refusal> {
    read_in_place(input, &mut FastScene::boxed())
}

fn read_in_place(input: &[u8], scene: &mut FastScene) -> Result<Summary, Refusal> {
    let (track, start) = track_line(input)?;
    let (blocks, messages) = run(input, start, scene, &mut Discard)?;
    Ok(Summary { track, blocks, messages })
}

/// Appends the normal form to `out`; on a refusal that of the track line and
/// of the whole blocks before the refused one.
pub fn normal(input: &[u8], out: &mut Vec<u8>) -> Result<Summary, Refusal> {
    let (track, start) = track_line(input)?;
    out.reserve(input.len() + output::SLACK);
    out.extend_from_slice(format!("{track}\n").as_bytes());
    let mut scene = FastScene::boxed();
    let mut output = Normal::new(input, start, out);
    let (blocks, messages) = run(input, start, &mut scene, &mut output)?;
    Ok(Summary { track, blocks, messages })
}

/// The place of each whole block and the number of present marks behind it, and
/// the refusal that is met behind them.
pub fn overlay(input: &[u8]) -> (Vec<(usize, u16)>, Option<Refusal>) {
    let mut output = Overlay(Vec::new());
    let answer = track_line(input)
        .and_then(|(_, start)| run(input, start, &mut FastScene::boxed(), &mut output));
    (output.0, answer.err())
}

fn track_line(input: &[u8]) -> Result<(i32, usize), Refusal> {
    let (sign, digits) = match input {
        [b'-', rest @ ..] => (1, rest),
        _ => (0, input),
    };
    let count = digits.iter().take(3).take_while(|byte| byte.is_ascii_digit()).count();
    let place = sign + count;
    if count == 0 || input.get(place) != Some(&b'\n') {
        return Err(Refusal { number: 1, place });
    }
    let number = digits[..count].iter().fold(0, |n, &digit| n * 10 + i32::from(digit & 15));
    Ok((if sign == 1 { -number } else { number }, place + 1))
}

/// Picks the code for this processor.
fn run<O: Output>(
    input: &[u8],
    start: usize,
    scene: &mut FastScene,
    output: &mut O,
) -> Result<(usize, usize), Refusal> {
    #[cfg(target_arch = "x86_64")]
    if std::is_x86_feature_detected!("ssse3") && std::is_x86_feature_detected!("popcnt") {
        // SAFETY: the two features were just found.
        return unsafe { run_ssse3(input, start, scene, output) };
    }
    Pass { input, scene, output }.run::<false>(start)
}

/// The same with updates taken apart by shuffles.
#[cfg(target_arch = "x86_64")]
#[target_feature(enable = "ssse3,popcnt")]
fn run_ssse3<O: Output>(
    input: &[u8],
    start: usize,
    scene: &mut FastScene,
    output: &mut O,
) -> Result<(usize, usize), Refusal> {
    Pass { input, scene, output }.run::<true>(start)
}

/// The code without shuffles, for the tests to hold it against the other.
#[doc(hidden)]
pub fn normal_without_shuffles(input: &[u8], out: &mut Vec<u8>) -> Result<Summary, Refusal> {
    let (track, start) = track_line(input)?;
    out.extend_from_slice(format!("{track}\n").as_bytes());
    let mut scene = FastScene::boxed();
    let mut output = Normal::new(input, start, out);
    let pass = Pass { input, scene: &mut scene, output: &mut output };
    let (blocks, messages) = { pass }.run::<false>(start)?;
    Ok(Summary { track, blocks, messages })
}

/// The code without shuffles, for a benchmark of code for any x86-64 processor.
#[doc(hidden)]
pub fn summarise_without_shuffles(input: &[u8]) -> Result<Summary, Refusal> {
    let (track, start) = track_line(input)?;
    let mut scene = FastScene::boxed();
    let pass = Pass { input, scene: &mut scene, output: &mut Discard };
    let (blocks, messages) = { pass }.run::<false>(start)?;
    Ok(Summary { track, blocks, messages })
}

/// The code without shuffles, for the tests to hold it against the other.
#[doc(hidden)]
pub fn overlay_without_shuffles(input: &[u8]) -> (Vec<(usize, u16)>, Option<Refusal>) {
    let mut output = Overlay(Vec::new());
    let answer = track_line(input).and_then(|(_, start)| {
        let scene = &mut FastScene::boxed();
        Pass { input, scene, output: &mut output }.run::<false>(start)
    });
    (output.0, answer.err())
}

struct Pass<'a, O> {
    input: &'a [u8],
    scene: &'a mut FastScene,
    output: &'a mut O,
}

/// A message that is not good: `cold` finds out why.
struct Bad;

impl<O: Output> Pass<'_, O> {
    /// Reads the blocks from `at` to the end; how many blocks and messages.
    #[inline(always)]
    fn run<const SHUFFLE: bool>(&mut self, mut at: usize) -> Result<(usize, usize), Refusal> {
        let (mut blocks, mut messages) = (0, 0);
        while at < self.input.len() {
            match self.block::<SHUFFLE>(at) {
                Ok((end, count)) => {
                    self.output.end_block(at, end, self.scene.present as u16);
                    at = end;
                    blocks += 1;
                    messages += count;
                }
                Err(refusal) => {
                    self.output.refuse_block(at);
                    return Err(refusal);
                }
            }
        }
        self.output.finish();
        Ok((blocks, messages))
    }

    /// One block: where it ends, and how many messages it has.
    #[inline(always)]
    fn block<const SHUFFLE: bool>(&mut self, at: usize) -> Result<(usize, usize), Refusal> {
        let end = self.block_end(at).map_err(|number| Refusal { number, place: at })?;
        let mut place = at + BLOCK_HEAD;
        let mut count = 0;
        while place < end {
            if self.input[place] >= 128 {
                let run = self.updates::<SHUFFLE>(at, place, end);
                place = run.place;
                count += run.count;
                if !run.bad {
                    continue;
                }
            } else if let Ok(next) = self.message(at, place, end) {
                place = next;
                count += 1;
                continue;
            }
            return Err(cold::refusal(self.input, place, end, self.scene));
        }
        Ok((end, count))
    }

    #[inline(always)]
    fn block_end(&self, at: usize) -> Result<usize, u8> {
        if self.scene.ended {
            return Err(11);
        }
        let left = &self.input[at..];
        let Some(head) = left.first_chunk::<BLOCK_HEAD>() else { return Err(2) };
        let word = |i: usize| u32::from_le_bytes([head[i], head[i + 1], head[i + 2], head[i + 3]]);
        let size = word(0) as usize;
        if size > MAX_SIZE {
            return Err(3);
        }
        if size > left.len() - BLOCK_HEAD {
            return Err(2);
        }
        let no_number = |bits: u32| bits & TIME_END == TIME_END;
        if no_number(word(4)) | no_number(word(8)) | no_number(word(12)) {
            return Err(4);
        }
        Ok(at + BLOCK_HEAD + size)
    }

    /// One message of the block at `block`, not an update: the place after it.
    #[inline(never)]
    fn message(&mut self, block: usize, at: usize, end: usize) -> Result<usize, Bad> {
        match self.input[at] {
            1 | 30 | 33 => Ok(at + 1),
            2 => self.disconnect(at, end),
            3 => self.stat(at, end),
            4 => self.fixed::<5>(at, end).and_then(|m| good(m[1..] == [15, 0, 0, 0], at + 5)),
            5 => self.view(at, end),
            6 => self.sound(block, at, end),
            7 => self.time(at, end),
            8 | 9 | 26 | 31 | 34 => strings::after(self.input, at + 1, end),
            10 => self.fixed::<4>(at, end).map(|_| at + 4),
            11 => self.server_info(at, end),
            12 => {
                self.fixed::<2>(at, end).and_then(|m| good(m[1] < 64, at + 2))?;
                strings::after(self.input, at + 2, end)
            }
            13 => {
                self.player::<2>(at, end)?;
                strings::after(self.input, at + 2, end)
            }
            14 => self.frags(at, end),
            15 => self.client_data(block, at, end),
            16 => self.fixed::<3>(at, end).and_then(|m| good(sound_entity(m[1], m[2]), at + 3)),
            17 => self.colours(at, end),
            18 => self.fixed::<12>(at, end).map(|_| at + 12),
            19 => self.fixed::<9>(at, end).map(|_| at + 9),
            20 => self.static_entity(at, end),
            22 => self.baseline(at, end),
            23 => self.temporary(at, end),
            24 => self.pause(at, end),
            25 => self.fixed::<2>(at, end).map(|_| at + 2),
            27 => self.count(14, at),
            28 => self.count(13, at),
            29 => self.fixed::<10>(at, end).map(|_| at + 10),
            32 => self.fixed::<3>(at, end).map(|_| at + 3),
            _ => Err(Bad),
        }
    }

    /// The `N` bytes of a message whose length is known, if they are all there.
    #[inline(always)]
    fn fixed<const N: usize>(&self, at: usize, end: usize) -> Result<&[u8; N], Bad> {
        self.input[at..end].first_chunk().ok_or(Bad)
    }

    /// A message whose byte 1 is a player.
    #[inline(always)]
    fn player<const N: usize>(&self, at: usize, end: usize) -> Result<&[u8; N], Bad> {
        let message = self.fixed::<N>(at, end)?;
        good(message[1] < self.scene.limit, message)
    }

    /// A byte after a disconnect is refused, so the block must end here.
    fn disconnect(&mut self, at: usize, end: usize) -> Result<usize, Bad> {
        self.scene.ended = true;
        good(at + 1 == end, end)
    }

    fn stat(&mut self, at: usize, end: usize) -> Result<usize, Bad> {
        let &[_, index, a, b, c, d] = self.fixed(at, end)?;
        let stat = self.scene.stats.get_mut(index as usize).ok_or(Bad)?;
        *stat = i32::from_le_bytes([a, b, c, d]);
        Ok(at + 6)
    }

    fn count(&mut self, stat: usize, at: usize) -> Result<usize, Bad> {
        self.scene.stats[stat] = self.scene.stats[stat].wrapping_add(1);
        Ok(at + 1)
    }

    fn view(&mut self, at: usize, end: usize) -> Result<usize, Bad> {
        let &[_, low, high] = self.fixed(at, end)?;
        let entity = u16::from_le_bytes([low, high]);
        good(entity <= MAX_ENTITY, ())?;
        self.scene.view = entity;
        Ok(at + 3)
    }

    #[inline(always)]
    fn time(&mut self, at: usize, end: usize) -> Result<usize, Bad> {
        let &[_, a, b, c, d] = self.fixed(at, end)?;
        let bits = u32::from_le_bytes([a, b, c, d]);
        good(bits < TIME_END && bits >= self.scene.time, ())?;
        self.scene.set_time(bits);
        Ok(at + 5)
    }

    fn sound(&mut self, block: usize, at: usize, end: usize) -> Result<usize, Bad> {
        let mask = self.fixed::<2>(at, end)?[1];
        good(mask < 4, ())?;
        let sent = usize::from(mask & 1) + usize::from(mask >> 1);
        let next = at + 11 + sent;
        good(next <= end, ())?;
        let message = &self.input[at..next];
        good(sound_entity(message[2 + sent], message[3 + sent]), ())?;
        if O::WRITES && mask != 0 {
            self.rewrite_sound(block, at, next);
        }
        Ok(next)
    }

    /// Leaves volume 255 and attenuation 64 out of a sound, if it sends them.
    fn rewrite_sound(&mut self, block: usize, at: usize, next: usize) {
        let message = &self.input[at..next];
        let mask = message[1];
        let mut normal = [0; output::ROOM];
        let mut length = 2;
        for (bit, default) in [(0, 255), (1, 64)] {
            let sent = mask >> bit & 1;
            // The volume comes first; the attenuation is the last byte sent.
            let value = message[2 + usize::from(sent & mask & bit)];
            let keep = sent & u8::from(value != default);
            normal[length] = value;
            length += usize::from(keep);
            normal[1] |= keep << bit;
        }
        if normal[1] != mask {
            let rest = &message[message.len() - 9..];
            normal[0] = 6;
            normal[length..length + 9].copy_from_slice(rest);
            self.output.replace(block, at, next, &normal, length + 9);
        }
    }

    fn server_info(&mut self, at: usize, end: usize) -> Result<usize, Bad> {
        let &[_, a, b, c, d, limit, _game] = self.fixed(at, end)?;
        good([a, b, c, d] == [15, 0, 0, 0] && matches!(limit, 1..=16), ())?;
        let models = strings::after(self.input, at + 7, end)?;
        let sounds = strings::after_names(self.input, models, end)?;
        let next = strings::after_names(self.input, sounds, end)?;
        *self.scene = FastScene::start();
        self.scene.limit = limit;
        Ok(next)
    }

    fn frags(&mut self, at: usize, end: usize) -> Result<usize, Bad> {
        let &[_, player, low, high] = self.player(at, end)?;
        self.scene.players[player as usize].frags = i16::from_le_bytes([low, high]);
        Ok(at + 4)
    }

    fn colours(&mut self, at: usize, end: usize) -> Result<usize, Bad> {
        let &[_, player, colours] = self.player(at, end)?;
        self.scene.players[player as usize].colours = colours;
        Ok(at + 3)
    }

    fn static_entity(&mut self, at: usize, end: usize) -> Result<usize, Bad> {
        self.fixed::<14>(at, end)?;
        good(self.scene.statics < 128, ())?;
        self.scene.statics += 1;
        Ok(at + 14)
    }

    fn baseline(&mut self, at: usize, end: usize) -> Result<usize, Bad> {
        let message: &[u8; 16] = self.fixed(at, end)?;
        let entity = u16::from_le_bytes([message[1], message[2]]);
        good(entity <= MAX_ENTITY, ())?;
        let mut wire = scene::Wire::default();
        wire.0[..4].copy_from_slice(&message[3..7]);
        wire.0[5..14].copy_from_slice(&message[7..]);
        self.scene.baselines[entity as usize] = wire;
        Ok(at + 16)
    }

    fn temporary(&mut self, at: usize, end: usize) -> Result<usize, Bad> {
        match self.fixed::<2>(at, end)?[1] {
            0..=4 | 7 | 8 | 10 | 11 => self.fixed::<8>(at, end).map(|_| at + 8),
            12 => self.fixed::<10>(at, end).map(|_| at + 10),
            5 | 6 | 9 | 13 => {
                let message = self.fixed::<16>(at, end)?;
                let entity = u16::from_le_bytes([message[2], message[3]]);
                good(entity <= MAX_ENTITY, at + 16)
            }
            _ => Err(Bad),
        }
    }

    fn pause(&mut self, at: usize, end: usize) -> Result<usize, Bad> {
        self.scene.pause = self.fixed::<2>(at, end)?[1];
        Ok(at + 2)
    }
}

#[inline(always)]
fn good<T>(holds: bool, value: T) -> Result<T, Bad> {
    if holds {
        Ok(value)
    } else {
        Err(Bad)
    }
}

/// Whether the entity of sound's and stopsound's word is one.
#[inline(always)]
fn sound_entity(low: u8, high: u8) -> bool {
    u16::from_le_bytes([low, high]) >> 3 <= MAX_ENTITY
}
