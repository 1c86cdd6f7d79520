//! The scene: what all messages before a place lead to.

use crate::message::{FilledIn, Message, Update};

pub const ENTITIES: usize = 600;
pub const MAX_ENTITY: u16 = ENTITIES as u16 - 1;
pub const STATS: usize = 32;
pub const PLAYERS: usize = 16;
pub const STATICS: u8 = 128;
pub const STYLES: u8 = 64;
pub const PROTOCOL: i32 = 15;

/// Stats that other messages than 3 change.
const STAT_SECRETS: usize = 13;
const STAT_KILLS: usize = 14;

/// What a baseline or static message says of an entity.
#[derive(Clone, Copy, Debug, Default, PartialEq, Eq)]
pub struct Baseline {
    pub model: u8,
    pub frame: u8,
    pub colormap: u8,
    pub skin: u8,
    pub origin: [i16; 3],
    pub angles: [i8; 3],
}

/// An entity's latest record: a baseline's fields, the effects and bit 5.
#[derive(Clone, Copy, Debug, Default, PartialEq, Eq)]
pub struct Record {
    pub model: u8,
    pub frame: u8,
    pub colormap: u8,
    pub skin: u8,
    pub effects: u8,
    pub origin: [i16; 3],
    pub angles: [i8; 3],
    pub bit5: bool,
}

/// The filled-in fields of message 15; all 0 at the start, view height too.
#[derive(Clone, Copy, Debug, Default, PartialEq, Eq)]
pub struct ClientData {
    pub view_height: i8,
    pub pitch: i8,
    pub punch: [i8; 3],
    pub velocity: [i8; 3],
    pub items: i32,
    pub ground: bool,
    pub water: bool,
    pub weapon_frame: u8,
    pub armour: u8,
    pub weapon_model: u8,
    pub health: i16,
    pub ammo: u8,
    pub counts: [u8; 4],
    pub weapon: u8,
}

#[derive(Clone, Copy, Debug, Default, PartialEq, Eq)]
pub struct Player {
    pub frags: i16,
    pub colours: u8,
}

#[derive(Clone, Debug, PartialEq, Eq)]
pub struct Scene {
    pub baselines: [Baseline; ENTITIES],
    pub records: [Record; ENTITIES],
    pub present: [bool; ENTITIES],
    /// How many of `present` are set, kept as they change.
    pub present_count: u16,
    pub stats: [i32; STATS],
    pub client: ClientData,
    pub view: u16,
    pub pause: u8,
    pub statics: u8,
    pub limit: u8,
    /// The bits of the latest time since serverinfo, if there is one.
    pub time: Option<u32>,
    pub ended: bool,
    pub players: [Player; PLAYERS],
}

impl Default for Scene {
    fn default() -> Self {
        Scene {
            baselines: [Baseline::default(); ENTITIES],
            records: [Record::default(); ENTITIES],
            present: [false; ENTITIES],
            present_count: 0,
            stats: [0; STATS],
            client: ClientData::default(),
            view: 0,
            pause: 0,
            statics: 0,
            limit: 0,
            time: None,
            ended: false,
            players: [Player::default(); PLAYERS],
        }
    }
}

/// The rule of message 7 for the bits alone: sign clear, exponent below 255.
pub fn time_bits_allowed(bits: u32) -> bool {
    bits >> 31 == 0 && (bits >> 23) & 0xFF < 255
}

impl Scene {
    /// The scene at the start of a recording.
    pub fn start() -> Scene {
        Scene::default()
    }

    /// Refusal 14 is given where this is not so.
    pub fn in_ranges(&self) -> bool {
        self.view <= MAX_ENTITY
            && self.statics <= STATICS
            && self.limit <= PLAYERS as u8
            && self.time.is_none_or(time_bits_allowed)
            && self.present_count == self.set_marks()
    }

    /// The present marks that are set, counted one by one.
    fn set_marks(&self) -> u16 {
        let mut count = 0;
        for mark in self.present {
            if mark {
                count += 1;
            }
        }
        count
    }

    /// The rule of message 7 in this scene: compared as bits, never as floats.
    pub fn time_allowed(&self, bits: u32) -> bool {
        time_bits_allowed(bits) && self.time.is_none_or(|before| bits >= before)
    }

    /// Brings the scene to what it is after an accepted message.
    pub fn apply(&mut self, message: &FilledIn) {
        match message {
            Message::Disconnect => self.ended = true,
            Message::Stat { index, value } => self.stats[*index as usize] = *value,
            Message::View { entity } => self.view = *entity,
            Message::Time { bits } => {
                self.time = Some(*bits);
                self.present = [false; ENTITIES];
                self.present_count = 0;
            }
            Message::ServerInfo(info) => {
                *self = Scene::start();
                self.limit = info.limit;
            }
            Message::Frags { player, frags } => self.players[*player as usize].frags = *frags,
            Message::ClientData(client) => self.apply_client(client),
            Message::Colours { player, colours } => {
                self.players[*player as usize].colours = *colours
            }
            Message::Static(_) => self.statics += 1,
            Message::Baseline { entity, baseline } => self.baselines[*entity as usize] = *baseline,
            Message::Pause { pause } => self.pause = *pause,
            Message::Killed => self.count(STAT_KILLS),
            Message::Secret => self.count(STAT_SECRETS),
            Message::Update(update) => self.update(update),
            _ => {}
        }
    }

    fn update(&mut self, update: &Update) {
        let entity = update.entity as usize;
        if !self.present[entity] {
            self.present_count += 1;
        }
        self.present[entity] = true;
        self.records[entity] = update.record;
    }

    fn count(&mut self, stat: usize) {
        self.stats[stat] = self.stats[stat].wrapping_add(1);
    }

    fn apply_client(&mut self, client: &ClientData) {
        self.client = *client;
        self.stats[0] = client.health.into();
        self.stats[2] = client.weapon_model.into();
        self.stats[3] = client.ammo.into();
        self.stats[4] = client.armour.into();
        self.stats[5] = client.weapon_frame.into();
        for (stat, count) in self.stats[6..10].iter_mut().zip(client.counts) {
            *stat = count.into();
        }
        self.stats[10] = client.weapon.into();
    }
}

impl From<Baseline> for Record {
    /// What an update that sends nothing reads to: effects 0, bit 5 no.
    fn from(b: Baseline) -> Record {
        Record {
            model: b.model,
            frame: b.frame,
            colormap: b.colormap,
            skin: b.skin,
            effects: 0,
            origin: b.origin,
            angles: b.angles,
            bit5: false,
        }
    }
}
