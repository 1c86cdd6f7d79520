//! Big made recordings with the mix of messages that real ones have: each block
//! a time, a clientdata, the updates of what is in sight, and now and then
//! something else.

use crate::gen::rng::Rng;
use crate::message::*;
use crate::scene::*;
use crate::write::{encode, least_client_mask, least_update_mask, with_masks, write_block};

/// The made recordings by name.
pub const NAMES: [&str; 6] = ["typical", "tiny", "medium", "large", "chat", "strings"];

/// Blocks of one level before the next serverinfo.
const LEVEL: usize = 4000;
/// One update in so many sends a field that it need not.
const NEEDLESS: usize = 15;

#[derive(Clone, Copy)]
struct Mix {
    /// Updates in a block, more or less.
    updates: usize,
    /// Events (sounds, particles, ..) in a hundred blocks.
    events: usize,
    /// Strings in a hundred blocks, and their lengths.
    strings: usize,
    lengths: (usize, usize),
}

fn mix_of(name: &str) -> Option<Mix> {
    let usual = Mix { updates: 23, events: 90, strings: 12, lengths: (5, 40) };
    Some(match name {
        "typical" => usual,
        "tiny" => Mix { updates: 4, events: 30, ..usual },
        "medium" => Mix { updates: 43, events: 150, ..usual },
        "large" => Mix { updates: 132, events: 400, ..usual },
        "chat" => Mix { updates: 5, strings: 350, lengths: (15, 70), ..usual },
        "strings" => Mix { updates: 5, strings: 100, lengths: (200, 2046), ..usual },
        _ => return None,
    })
}

/// A made recording of about so many bytes; `None` if there is no such name.
pub fn make(name: &str, bytes: usize) -> Option<Vec<u8>> {
    let mix = mix_of(name)?;
    let mut maker = Maker { rng: Rng::new(77, mix.updates as u64), mix, world: Vec::new() };
    let mut out = b"-1\n".to_vec();
    let mut scene = Scene::start();
    for number in 0.. {
        if out.len() >= bytes {
            break;
        }
        let body = match number % LEVEL {
            0 => maker.level(&mut scene),
            turn => maker.block(&mut scene, turn),
        };
        let angles = [maker.angle(), maker.angle(), 0];
        write_block(&mut out, angles, &body);
    }
    write_block(&mut out, [0; 3], &[2]);
    Some(out)
}

/// Something that moves: its number, the fields it always sends, where it is.
struct Thing {
    entity: u16,
    mask: u16,
    record: Record,
}

struct Maker {
    rng: Rng,
    mix: Mix,
    world: Vec<Thing>,
}

impl Maker {
    fn angle(&mut self) -> u32 {
        (self.rng.below(3600) as f32 / 10.0).to_bits()
    }

    fn put(&mut self, out: &mut Vec<u8>, scene: &mut Scene, message: FilledIn) {
        let needless = match self.rng.below(NEEDLESS) {
            0 => self.rng.pick(&[1 << 4, 1 << 6, 1 << 8 | 1, 1 << 9 | 1, 1 << 3]),
            _ => 0,
        };
        let encodable = with_masks(
            &message,
            |_| self.rng.pick(&[0, 0, 1, 2, 3]),
            |client| least_client_mask(client) | needless & 0x20,
            |update| least_update_mask(scene, update) | needless,
        );
        out.extend(encode(&encodable));
        scene.apply(&message);
    }

    /// Serverinfo, the baselines of a level, statics and light styles.
    fn level(&mut self, scene: &mut Scene) -> Vec<u8> {
        let mut out = Vec::new();
        let names = |kind: &str, count: usize| -> Vec<u8> {
            let all = (0..count).map(|i| format!("{kind}/thing{i}.{kind}\0"));
            [all.collect::<String>().into_bytes(), vec![0]].concat()
        };
        let names = [names("progs", 60), names("sound", 70)].concat();
        let map = b"the Slipgate Complex".to_vec();
        let info = ServerInfo { protocol: PROTOCOL, limit: 4, game: 1, map, names };
        self.put(&mut out, scene, Message::ServerInfo(info));
        self.world.clear();
        for number in 0..(self.mix.updates * 2 + 20).min(200) {
            let entity = if number < 180 { number } else { 100 + number } as u16;
            let baseline = self.baseline();
            self.world.push(self.thing(entity, &baseline));
            self.put(&mut out, scene, Message::Baseline { entity, baseline });
        }
        for style in 0..12 {
            let text = b"mmnmmommommnonmmonqnmmo".to_vec();
            self.put(&mut out, scene, Message::Style { style, text });
        }
        self.put(&mut out, scene, Message::Signon { signon: 1 });
        out
    }

    fn baseline(&mut self) -> Baseline {
        let rng = &mut self.rng;
        let mut place = || rng.below(16_000) as i16 - 8000;
        let origin = [place(), place(), place()];
        let model = 1 + rng.below(60) as u8;
        Baseline { model, origin, angles: [0, rng.byte() as i8, 0], ..Baseline::default() }
    }

    /// The masks that came most in real recordings.
    fn thing(&self, entity: u16, baseline: &Baseline) -> Thing {
        let masks = [0x5E, 0x76, 0x15F, 0x08, 0x1E, 0x7E, 0x5E, 0x231F, 0x145F, 0x21F, 0x45F];
        let mask = masks[(entity as usize * 7 + entity as usize / 5) % masks.len()];
        Thing { entity, mask, record: Record::from(*baseline) }
    }

    fn block(&mut self, scene: &mut Scene, turn: usize) -> Vec<u8> {
        let mut out = Vec::new();
        let time = Message::Time { bits: (1.0 + turn as f32 * 0.05).to_bits() };
        self.put(&mut out, scene, time);
        let client = self.client(turn);
        self.put(&mut out, scene, Message::ClientData(client));
        let sight = self.mix.updates * 3 / 4 + self.rng.below(self.mix.updates / 2 + 1);
        // What is in sight changes slowly and comes in the order of numbers.
        let first = turn / 40 % self.world.len();
        for i in 0..sight {
            let moved = self.moved((first + i) % self.world.len());
            self.put(&mut out, scene, Message::Update(moved));
        }
        for _ in 0..self.times(self.mix.events) {
            let event = self.event();
            self.put(&mut out, scene, event);
        }
        for _ in 0..self.times(self.mix.strings) {
            let string = self.string();
            self.put(&mut out, scene, string);
        }
        out
    }

    /// How often something happens that happens so many times in 100 blocks.
    fn times(&mut self, in_hundred: usize) -> usize {
        in_hundred / 100 + usize::from(self.rng.chance(in_hundred % 100))
    }

    fn moved(&mut self, index: usize) -> Update {
        let rng = &mut self.rng;
        let thing = &mut self.world[index];
        let record = &mut thing.record;
        let sends = |bit: u16| thing.mask & (1 << bit) != 0;
        for (axis, (place, angle)) in [(1, 8), (2, 4), (3, 9)].into_iter().enumerate() {
            if sends(place) {
                record.origin[axis] = record.origin[axis].wrapping_add(rng.below(60) as i16 - 30);
            }
            if sends(angle) {
                record.angles[axis] = record.angles[axis].wrapping_add(rng.below(5) as i8 - 2);
            }
        }
        if sends(6) {
            record.frame = record.frame.wrapping_add(1) % 100;
        }
        if sends(10) {
            record.model = 61;
        }
        record.skin = if sends(12) { 1 } else { 0 };
        record.effects = if sends(13) { 8 } else { 0 };
        record.bit5 = sends(5);
        Update { entity: thing.entity, record: thing.record }
    }

    fn client(&mut self, turn: usize) -> ClientData {
        let rng = &mut self.rng;
        let walks = turn % 90 >= 30;
        let mut speed = || if walks { rng.below(40) as i8 - 20 } else { 0 };
        ClientData {
            view_height: 22,
            velocity: [speed(), speed(), 0],
            items: 431_231,
            ground: turn % 100 >= 20,
            weapon_frame: if turn % 40 < 10 { (turn % 6) as u8 } else { 0 },
            armour: if turn % 1000 < 500 { 102 } else { 0 },
            weapon_model: 8,
            health: 39,
            ammo: (turn % 100) as u8,
            counts: [100, 200, 96, 150],
            weapon: 16,
            ..ClientData::default()
        }
    }

    fn event(&mut self) -> FilledIn {
        let rng = &mut self.rng;
        let mut place = || rng.below(16_000) as i16 - 8000;
        let origin = [place(), place(), place()];
        match rng.below(10) {
            0..=3 => Message::Sound(Sound {
                volume: rng.pick(&[255, 255, 180]),
                attenuation: rng.pick(&[64, 64, 0, 128]),
                channel: rng.below(5) as u8,
                entity: rng.below(60) as u16,
                sound: 1 + rng.below(70) as u8,
                origin,
            }),
            4..=6 => {
                Message::Temporary(Temporary::Point { kind: rng.pick(&[0, 2, 3, 11]), origin })
            }
            7 => Message::Temporary(Temporary::Line {
                kind: 6,
                entity: 1,
                start: origin,
                end: origin,
            }),
            8 => Message::Particle(Particle { origin, velocity: [1, 2, 3], count: 20, colour: 73 }),
            _ => Message::Damage { save: 3, take: 9, origin },
        }
    }

    fn string(&mut self) -> FilledIn {
        let (shortest, longest) = self.mix.lengths;
        let len = shortest + self.rng.below(longest - shortest + 1);
        let text: Vec<u8> = (0..len).map(|_| 32 + self.rng.byte() % 95).collect();
        match self.rng.below(6) {
            0 => Message::StuffText { text },
            1 => Message::CenterPrint { text },
            2 => Message::Name { player: 1, text },
            _ => Message::Print { text },
        }
    }
}
