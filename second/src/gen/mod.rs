//! Seeded test inputs: each seed and index names one input, the same always.
//!
//! First come the boundary cases, the same for every seed, each with the answer
//! that document 01 gives. Then well-formed recordings, wasteful encodings and
//! damage take turns.

pub mod boundary;
pub mod damage;
pub mod encode;
mod present;
pub mod reading;
pub mod rng;
pub mod words;

use crate::message::Refusal;
use crate::scene::MAX_ENTITY;
use rng::Rng;
use std::sync::OnceLock;

/// Entities at the ends of one byte, of nine bits, of the range and of the range
/// before request 2026-02; that of the marked cases; and what the last one is if it
/// is cut to nine bits.
pub const EDGES: [u16; 10] = [0, 5, MAX_ENTITY & 0x1FF, 255, 256, 448, 449, 511, 512, MAX_ENTITY];

/// What is known of an input's answer without reading it.
#[derive(Clone, Copy, Debug, PartialEq, Eq)]
pub enum Expect {
    Accepted,
    Refused(Refusal),
    Unknown,
}

#[derive(Clone, Debug)]
pub struct Input {
    pub name: String,
    pub bytes: Vec<u8>,
    pub expect: Expect,
    /// The number of present marks behind each whole block, where it is known.
    pub present: Option<Vec<u16>>,
}

fn boundaries() -> &'static [Input] {
    static CASES: OnceLock<Vec<Input>> = OnceLock::new();
    CASES.get_or_init(boundary::cases)
}

/// How many inputs are boundary cases.
pub fn boundary_count() -> usize {
    boundaries().len()
}

/// The `index`-th input of a seed.
pub fn generate(seed: u64, index: usize) -> Input {
    if let Some(case) = boundaries().get(index) {
        return case.clone();
    }
    let mut rng = Rng::new(seed, index as u64);
    let kind = index % 8;
    let (name, bytes, expect) = match kind {
        0 => ("normal", normal(&mut rng), Expect::Accepted),
        1 | 2 => ("wasteful", wasteful(&mut rng), Expect::Accepted),
        3 => ("cut", damage::cut(&mut rng), Expect::Unknown),
        4 => ("changed bytes", damage::change(&mut rng), Expect::Unknown),
        5 => ("splice", damage::splice(&mut rng), Expect::Unknown),
        6 => ("bad sizes", damage::sizes(&mut rng), Expect::Unknown),
        _ => ("damaged message", damage::message(&mut rng), Expect::Unknown),
    };
    Input { name: format!("{name} {seed}/{index}"), bytes, expect, present: None }
}

fn normal(rng: &mut Rng) -> Vec<u8> {
    encode::normal(&reading::reading(rng))
}

fn wasteful(rng: &mut Rng) -> Vec<u8> {
    let reading = reading::reading(rng);
    encode::wasteful(&reading, rng)
}
