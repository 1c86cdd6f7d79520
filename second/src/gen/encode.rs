//! One reading, written in the normal form or with things sent needlessly.

use super::rng::Rng;
use crate::message::FilledIn;
use crate::read::Reading;
use crate::scene::Scene;
use crate::write::*;

/// The normal form of a reading.
pub fn normal(reading: &Reading) -> Vec<u8> {
    let track = format!("{}\n", reading.track).into_bytes();
    write_blocks(track, reading, normal_message)
}

/// A longer way to send the same reading: leading zeros, fields that do not
/// differ, high mask bytes and wide entities that are not needed, no bit 9.
pub fn wasteful(reading: &Reading, rng: &mut Rng) -> Vec<u8> {
    let track = wasteful_track(reading.track, rng).into_bytes();
    let percent = rng.pick(&[10, 50, 90]);
    write_blocks(track, reading, |scene, message| wasteful_message(scene, message, rng, percent))
}

/// A message with so many of a hundred things sent that need not be.
pub fn wasteful_message(
    scene: &Scene,
    message: &FilledIn,
    rng: &mut Rng,
    percent: usize,
) -> Vec<u8> {
    let extra = extra(rng, percent);
    let keep = if rng.chance(percent) { !(1 << 9) } else { !0 };
    encode(&with_masks(
        message,
        |sound| least_sound_mask(sound) | extra as u8 & 0b11,
        |client| (least_client_mask(client) | extra & 0x70FF) & keep,
        |update| {
            let mask = least_update_mask(scene, update) | extra & 0x7F5F;
            mask | u16::from(mask & 0xFF00 != 0)
        },
    ))
}

/// Bits to send that need not be.
fn extra(rng: &mut Rng, percent: usize) -> u16 {
    (0..16).fold(0, |mask, bit| mask | u16::from(rng.chance(percent)) << bit)
}

fn wasteful_track(track: i32, rng: &mut Rng) -> String {
    let minus = track < 0 || (track == 0 && rng.chance(50));
    let width = 1 + rng.below(3);
    format!("{}{:0width$}\n", if minus { "-" } else { "" }, track.abs())
}

fn write_blocks(
    mut out: Vec<u8>,
    reading: &Reading,
    mut write: impl FnMut(&Scene, &FilledIn) -> Vec<u8>,
) -> Vec<u8> {
    let mut scene = Scene::start();
    for (angles, messages) in &reading.blocks {
        let mut body = Vec::new();
        for message in messages {
            body.extend(write(&scene, message));
            scene.apply(message);
        }
        write_block(&mut out, *angles, &body);
    }
    out
}
