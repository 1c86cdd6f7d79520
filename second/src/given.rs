//! A scene changed by hand, and a message asked for in it.

use crate::read::{read_message, read_recording};
use crate::scene::Scene;
use crate::text::scene_lines;
use std::str::FromStr;

/// The longest message that can be asked for, in bytes.
pub const MOST_ASKED: usize = 8192;
const TIME_DIGITS: usize = 8;

/// What is asked: a message of some bytes at a place, in a scene.
struct Question {
    scene: Scene,
    bytes: Vec<u8>,
    at: usize,
}

/// Changes the scene that a recording's good blocks lead to word by word, then asks
/// for a message in it. `Err` is the first word that is none.
pub fn answer<W: AsRef<str>>(recording: &[u8], words: &[W]) -> Result<String, String> {
    let scene = read_recording(recording).scene;
    let mut question = Question { scene, bytes: Vec::new(), at: 0 };
    for word in words.iter().map(W::as_ref) {
        question.take(word).ok_or(word)?;
    }
    Ok(question.answer())
}

/// The line on standard error about the first word that is none.
pub fn wrong_word(word: &str) -> String {
    format!("wrong word {word}\n")
}

impl Question {
    /// Does what a word says; `None` if it is no word.
    fn take(&mut self, word: &str) -> Option<()> {
        let (name, value) = word.split_once('=')?;
        let scene = &mut self.scene;
        match name {
            "statics" => scene.statics = number(value)?,
            "limit" => scene.limit = number(value)?,
            "pause" => scene.pause = number(value)?,
            "view" => scene.view = number(value)?,
            "present" => scene.present_count = number(value)?,
            "time" => scene.time = time(value)?,
            "ended" => scene.ended = yes_or_no(value)?,
            "mark" => {
                let (entity, mark) = value.split_once(':')?;
                *scene.present.get_mut(number::<usize>(entity)?)? = yes_or_no(mark)?;
            }
            "ask" => self.bytes = hex(value)?,
            "at" => self.at = usize::try_from(number::<u32>(value)?).ok()?,
            _ => return None,
        }
        Some(())
    }

    fn answer(mut self) -> String {
        match read_message(&self.scene, &self.bytes, self.at) {
            Err(refusal) => format!("{refusal}\n"),
            Ok(None) => "end\n".into(),
            Ok(Some(step)) => {
                self.scene.apply(&step.filled);
                format!("next {}\n{}", step.next, scene_lines(&self.scene))
            }
        }
    }
}

/// A number of decimal digits alone, zeros in front or not.
fn number<T: FromStr>(text: &str) -> Option<T> {
    // `parse` would take a sign.
    if !text.bytes().all(|byte| byte.is_ascii_digit()) {
        return None;
    }
    text.parse().ok()
}

fn yes_or_no(text: &str) -> Option<bool> {
    match text {
        "0" => Some(false),
        "1" => Some(true),
        _ => None,
    }
}

fn time(text: &str) -> Option<Option<u32>> {
    if text == "none" {
        return Some(None);
    }
    if text.len() != TIME_DIGITS || !text.bytes().all(|byte| byte.is_ascii_hexdigit()) {
        return None;
    }
    u32::from_str_radix(text, 16).ok().map(Some)
}

fn hex(text: &str) -> Option<Vec<u8>> {
    let digit = |byte: &u8| char::from(*byte).to_digit(16);
    let byte = |pair: &[u8]| {
        let [high, low] = pair else { return None };
        Some((digit(high)? << 4 | digit(low)?) as u8)
    };
    let bytes: Vec<u8> = text.as_bytes().chunks(2).map(byte).collect::<Option<_>>()?;
    (bytes.len() <= MOST_ASKED).then_some(bytes)
}
