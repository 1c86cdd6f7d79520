//! Shared by the test files: bytes from hex, blocks, and one-message reads.
#![allow(dead_code)]

use second::message::{FilledIn, Refusal};
use second::read::{read_message, read_recording, Step};
use second::scene::Scene;
use second::write::normal_message;

/// Bytes written as in document 01: two hex digits each, blanks between.
pub fn hex(text: &str) -> Vec<u8> {
    text.split_whitespace()
        .map(|byte| u8::from_str_radix(byte, 16).expect("two hex digits"))
        .collect()
}

/// The last of some messages, read in the scene that those before it lead to.
pub struct Last {
    pub before: Scene,
    pub after: Scene,
    pub step: Step,
}

impl Last {
    pub fn filled(&self) -> &FilledIn {
        &self.step.filled
    }

    pub fn normal(&self) -> Vec<u8> {
        normal_message(&self.before, &self.step.filled)
    }
}

/// Reads messages from a scene; all must be accepted.
pub fn read_from(scene: &Scene, bytes: &[u8]) -> Last {
    let mut last = None;
    let mut scene = scene.clone();
    let mut at = 0;
    while let Some(step) = read_message(&scene, bytes, at).expect("accepted") {
        let before = scene.clone();
        scene.apply(&step.filled);
        at = step.next;
        last = Some(Last { before, after: scene.clone(), step });
    }
    last.expect("at least one message")
}

pub fn scene_after(bytes: &[u8]) -> Scene {
    read_from(&Scene::start(), bytes).after
}

/// The number that the first message of some bytes is refused with.
pub fn refused(scene: &Scene, bytes: &[u8]) -> u8 {
    let refusal = read_message(scene, bytes, 0).expect_err("refused");
    assert_eq!(refusal.place, 0, "a message's refusal stands at the message");
    refusal.number
}

/// A block with angles of zero.
pub fn block(body: &[u8]) -> Vec<u8> {
    let mut out = (body.len() as u32).to_le_bytes().to_vec();
    out.extend([0; 12]);
    out.extend(body);
    out
}

/// A recording of track 0 with one block for each body.
pub fn recording(bodies: &[&[u8]]) -> Vec<u8> {
    let mut out = b"0\n".to_vec();
    bodies.iter().for_each(|body| out.extend(block(body)));
    out
}

/// The refusal of a whole recording as number and place.
pub fn refusal_of(bytes: &[u8]) -> Option<(u8, usize)> {
    let refusal: Option<Refusal> = read_recording(bytes).refusal;
    refusal.map(|r| (r.number, r.place))
}

/// A serverinfo for so many players, with empty lists.
pub fn server_info(limit: u8) -> Vec<u8> {
    vec![11, 15, 0, 0, 0, limit, 0, b'm', 0, 0, 0]
}

/// A text of so many bytes and its closing zero.
pub fn text(len: usize) -> Vec<u8> {
    let mut out = vec![b'a'; len];
    out.push(0);
    out
}

pub fn join(parts: &[&[u8]]) -> Vec<u8> {
    parts.concat()
}
