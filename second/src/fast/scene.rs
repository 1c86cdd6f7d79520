//! The scene laid out for reading in place.

use crate::scene as plain;
#[cfg(target_arch = "x86_64")]
use std::arch::x86_64::*;

/// An entity's fields in the order of the wire: model, frame, colormap, skin,
/// effects, then x, angle 0, y, angle 1, z, angle 2. Byte 14 is bit 5 of a
/// record; byte `EPOCH` of a record is the epoch it was set in.
#[derive(Clone, Copy, Default)]
#[repr(C, align(16))]
pub struct Wire(pub [u8; 16]);

/// Where a record has the epoch it was set in.
pub const EPOCH: usize = 15;

/// Where the wire has one axis after the other.
const AXES: [usize; 3] = [5, 8, 11];

#[cfg(target_arch = "x86_64")]
impl Wire {
    #[inline(always)]
    pub fn load(&self) -> __m128i {
        // SAFETY: SSE2 is part of x86_64, and a `Wire` is 16 aligned bytes.
        unsafe { _mm_load_si128(self.0.as_ptr().cast()) }
    }

    #[inline(always)]
    pub fn store(&mut self, bytes: __m128i) {
        // SAFETY: as above.
        unsafe { _mm_store_si128(self.0.as_mut_ptr().cast(), bytes) }
    }
}

impl Wire {
    fn origin(&self) -> [i16; 3] {
        AXES.map(|at| i16::from_le_bytes([self.0[at], self.0[at + 1]]))
    }

    fn angles(&self) -> [i8; 3] {
        AXES.map(|at| self.0[at + 2] as i8)
    }
}

/// Clientdata's fields as a message that sends all of them has them.
#[derive(Clone, Copy, Default)]
pub struct Client {
    /// View height, pitch, then punch and velocity for each axis.
    pub first: [u8; 8],
    pub items: [u8; 4],
    /// Weapon frame, armour, weapon model.
    pub extra: [u8; 3],
    /// Health, ammo, four counts, weapon.
    pub last: [u8; 8],
    pub ground: bool,
    pub water: bool,
}

#[derive(Clone)]
pub struct FastScene {
    pub baselines: [Wire; plain::ENTITIES],
    pub records: [Wire; plain::ENTITIES],
    pub stats: [i32; 32],
    pub client: Client,
    pub players: [plain::Player; 16],
    /// A record is present if it was set in this epoch; never 0, so that a
    /// record never set is not present.
    pub epoch: u8,
    /// How many records were set in this epoch. No record is of a later one, so an
    /// update adds to it where the record before was of an earlier one.
    pub present: u32,
    pub limit: u8,
    pub statics: u8,
    pub pause: u8,
    pub view: u16,
    pub ended: bool,
    pub has_time: bool,
    /// The time's bits; 0, the least there is, while there is none.
    pub time: u32,
}

impl FastScene {
    pub fn start() -> FastScene {
        FastScene {
            baselines: [Wire::default(); plain::ENTITIES],
            records: [Wire::default(); plain::ENTITIES],
            stats: [0; 32],
            client: Client::default(),
            players: [plain::Player::default(); 16],
            epoch: 1,
            present: 0,
            limit: 0,
            statics: 0,
            pause: 0,
            view: 0,
            ended: false,
            has_time: false,
            time: 0,
        }
    }

    pub fn boxed() -> Box<FastScene> {
        Box::new(FastScene::start())
    }

    /// Sets the time and clears all marks.
    #[inline(always)]
    pub fn set_time(&mut self, bits: u32) {
        self.time = bits;
        self.has_time = true;
        self.present = 0;
        self.epoch = self.epoch.wrapping_add(1);
        if self.epoch == 0 {
            self.restart_epochs();
        }
    }

    #[cold]
    fn restart_epochs(&mut self) {
        self.records.iter_mut().for_each(|record| record.0[EPOCH] = 0);
        self.epoch = 1;
    }

    /// The same scene as the plain reader has it.
    pub fn to_scene(&self) -> plain::Scene {
        plain::Scene {
            baselines: self.baselines.map(|wire| baseline(&wire)),
            records: self.records.map(|wire| record(&wire)),
            present: self.records.map(|wire| wire.0[EPOCH] == self.epoch),
            present_count: self.present as u16,
            stats: self.stats,
            client: self.client.to_plain(),
            view: self.view,
            pause: self.pause,
            statics: self.statics,
            limit: self.limit,
            time: self.has_time.then_some(self.time),
            ended: self.ended,
            players: self.players,
        }
    }
}

fn baseline(wire: &Wire) -> plain::Baseline {
    let [model, frame, colormap, skin, ..] = wire.0;
    let (origin, angles) = (wire.origin(), wire.angles());
    plain::Baseline { model, frame, colormap, skin, origin, angles }
}

fn record(wire: &Wire) -> plain::Record {
    let [model, frame, colormap, skin, effects, ..] = wire.0;
    let (origin, angles) = (wire.origin(), wire.angles());
    let bit5 = wire.0[14] != 0;
    plain::Record { model, frame, colormap, skin, effects, origin, angles, bit5 }
}

impl Client {
    fn to_plain(self) -> plain::ClientData {
        let first = self.first.map(|byte| byte as i8);
        let [weapon_frame, armour, weapon_model] = self.extra;
        let [health_low, health_high, ammo, a, b, c, d, weapon] = self.last;
        plain::ClientData {
            view_height: first[0],
            pitch: first[1],
            punch: [first[2], first[4], first[6]],
            velocity: [first[3], first[5], first[7]],
            items: i32::from_le_bytes(self.items),
            ground: self.ground,
            water: self.water,
            weapon_frame,
            armour,
            weapon_model,
            health: i16::from_le_bytes([health_low, health_high]),
            ammo,
            counts: [a, b, c, d],
            weapon,
        }
    }
}
