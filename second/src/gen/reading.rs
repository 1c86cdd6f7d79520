//! Random readings that document 01 accepts.

use super::rng::Rng;
use super::EDGES;
use crate::message::*;
use crate::read::Reading;
use crate::scene::*;

/// The longest way to send any message but serverinfo and those with strings.
const LONGEST: usize = 32;
const BLOCK: usize = 8000;

pub fn reading(rng: &mut Rng) -> Reading {
    let mut scene = Scene::start();
    let count = rng.pick(&[0, 1, 1, 2, 3, 4, 6]);
    let mut blocks: Vec<([u32; 3], Vec<FilledIn>)> = Vec::new();
    for number in 0..count {
        let messages = if number == 0 && rng.chance(80) { opening(rng) } else { Vec::new() };
        messages.iter().for_each(|message| scene.apply(message));
        blocks.push((angles(rng), block(rng, &mut scene, messages)));
    }
    if let (Some((_, last)), true) = (blocks.last_mut(), rng.chance(50)) {
        last.push(Message::Disconnect);
    }
    Reading { track: track(rng), blocks }
}

fn track(rng: &mut Rng) -> i32 {
    let number = rng.pick(&[0, 1, 7, 9, 10, 99, 100, 999]);
    if rng.chance(50) {
        -number
    } else {
        number
    }
}

/// Angles of every allowed kind: minus zero, subnormal, largest.
fn angles(rng: &mut Rng) -> [u32; 3] {
    [0; 3].map(|_| match rng.below(6) {
        0 => 0,
        1 => 0x8000_0000,
        2 => 0x7F7F_FFFF,
        3 => 0x8000_0001,
        _ => (rng.word() as u32) & 0xBFFF_FFFF,
    })
}

/// How a recording begins: serverinfo and some baselines.
fn opening(rng: &mut Rng) -> Vec<FilledIn> {
    let mut messages = vec![server_info(rng)];
    for _ in 0..rng.below(12) {
        messages.push(Message::Baseline { entity: entity(rng), baseline: baseline(rng) });
    }
    messages
}

fn block(rng: &mut Rng, scene: &mut Scene, mut messages: Vec<FilledIn>) -> Vec<FilledIn> {
    let mut size: usize = messages.iter().map(longest).sum();
    for _ in 0..rng.pick(&[0, 1, 5, 20, 60]) {
        let message = message(rng, scene);
        size += longest(&message);
        if size > BLOCK - LONGEST {
            break;
        }
        scene.apply(&message);
        messages.push(message);
    }
    messages
}

/// No way to send this message is longer.
fn longest(message: &FilledIn) -> usize {
    LONGEST
        + match message {
            Message::Print { text }
            | Message::StuffText { text }
            | Message::CenterPrint { text }
            | Message::Finale { text }
            | Message::CutScene { text }
            | Message::Style { text, .. }
            | Message::Name { text, .. } => text.len(),
            Message::ServerInfo(info) => info.map.len() + info.names.len(),
            _ => 0,
        }
}

/// A message that the scene allows.
pub fn message(rng: &mut Rng, scene: &Scene) -> FilledIn {
    if rng.chance(35) {
        return update(rng, scene);
    }
    // A kind that the scene does not allow gives way to another.
    loop {
        if let Some(message) = other(rng, scene) {
            return message;
        }
    }
}

fn other(rng: &mut Rng, scene: &Scene) -> Option<FilledIn> {
    Some(match rng.below(34) {
        0 | 1 => Message::Nop,
        2 => Message::Stat { index: rng.below(STATS) as u8, value: long(rng) },
        3 => Message::Version { protocol: PROTOCOL },
        4 => Message::View { entity: entity(rng) },
        5 | 6 => Message::Sound(sound(rng)),
        7 => Message::Time { bits: time(rng, scene)? },
        8 => Message::Print { text: text(rng) },
        9 => Message::StuffText { text: text(rng) },
        10 => Message::SetAngle { angles: signed_bytes(rng) },
        11 if rng.chance(20) => server_info(rng),
        12 => Message::Style { style: rng.below(STYLES.into()) as u8, text: text(rng) },
        13 => Message::Name { player: player(rng, scene)?, text: text(rng) },
        14 => Message::Frags { player: player(rng, scene)?, frags: short(rng) },
        15 | 31 => Message::ClientData(client_data(rng)),
        16 => Message::StopSound { channel: rng.below(8) as u8, entity: entity(rng) },
        17 => Message::Colours { player: player(rng, scene)?, colours: rng.byte() },
        18 => Message::Particle(particle(rng)),
        19 => Message::Damage { save: rng.byte(), take: rng.byte(), origin: shorts(rng) },
        20 if scene.statics < STATICS => Message::Static(baseline(rng)),
        21 | 22 => Message::Baseline { entity: entity(rng), baseline: baseline(rng) },
        23 => Message::Temporary(temporary(rng)),
        24 => Message::Pause { pause: rng.byte() },
        25 => Message::Signon { signon: rng.byte() },
        26 => Message::CenterPrint { text: text(rng) },
        27 => Message::Killed,
        28 => Message::Secret,
        29 => Message::StaticSound(static_sound(rng)),
        30 => rng.pick_message(),
        32 => Message::CdTrack { from: rng.byte(), to: rng.byte() },
        33 => Message::Finale { text: text(rng) },
        _ => return None,
    })
}

impl Rng {
    fn pick_message(&mut self) -> FilledIn {
        match self.below(3) {
            0 => Message::Intermission,
            1 => Message::SellScreen,
            _ => Message::CutScene { text: text(self) },
        }
    }
}

/// A few entities come often, so that baselines and updates meet.
pub fn entity(rng: &mut Rng) -> u16 {
    if rng.chance(80) {
        rng.pick(&EDGES)
    } else {
        rng.below(ENTITIES) as u16
    }
}

fn player(rng: &mut Rng, scene: &Scene) -> Option<u8> {
    (scene.limit > 0).then(|| rng.below(scene.limit.into()) as u8)
}

fn small(rng: &mut Rng) -> u8 {
    match rng.below(4) {
        0 => 0,
        1 => 1,
        2 => 255,
        _ => rng.byte(),
    }
}

fn short(rng: &mut Rng) -> i16 {
    match rng.below(4) {
        0 => 0,
        1 => rng.pick(&[1, -1, i16::MIN, i16::MAX, 256, -256]),
        _ => rng.word() as i16,
    }
}

fn long(rng: &mut Rng) -> i32 {
    match rng.below(3) {
        0 => rng.pick(&[0, -1, i32::MIN, i32::MAX]),
        _ => rng.word() as i32,
    }
}

fn shorts(rng: &mut Rng) -> [i16; 3] {
    [short(rng), short(rng), short(rng)]
}

fn signed_bytes(rng: &mut Rng) -> [i8; 3] {
    [small(rng) as i8, small(rng) as i8, small(rng) as i8]
}

/// Strings of all lengths that matter to a reader of many bytes at once.
pub fn text(rng: &mut Rng) -> Vec<u8> {
    let len = match rng.below(20) {
        0..=3 => 0,
        4..=6 => rng.pick(&[7, 8, 9, 15, 16, 17, 31, 32, 33]),
        7 => rng.pick(&[2030, 2045, 2046]),
        8 => rng.below(300),
        _ => rng.below(40),
    };
    (0..len).map(|_| if rng.chance(90) { 32 + rng.byte() % 95 } else { letter(rng) }).collect()
}

/// Any byte that a string may hold.
fn letter(rng: &mut Rng) -> u8 {
    rng.pick(&[1, 2, 10, 13, 0x7F, 0x80, 0x81, 0xFE])
}

fn names(rng: &mut Rng) -> Vec<u8> {
    let count = rng.pick(&[0, 1, 2, 10, 10, 254, 255]);
    let mut out = Vec::new();
    for _ in 0..count {
        let len = 1 + rng.below(if count > 100 { 4 } else { 30 });
        out.extend((0..len).map(|_| b'a' + rng.byte() % 26));
        out.push(0);
    }
    out.push(0);
    out
}

fn server_info(rng: &mut Rng) -> FilledIn {
    let names = [names(rng), names(rng)].concat();
    let limit = rng.pick(&[1, 2, 4, 15, 16]);
    let map = (0..rng.below(20)).map(|_| letter(rng)).collect();
    Message::ServerInfo(ServerInfo { protocol: PROTOCOL, limit, game: rng.byte(), map, names })
}

fn sound(rng: &mut Rng) -> Sound {
    Sound {
        volume: if rng.chance(50) { 255 } else { small(rng) },
        attenuation: if rng.chance(50) { 64 } else { small(rng) },
        channel: rng.below(8) as u8,
        entity: entity(rng),
        sound: rng.byte(),
        origin: shorts(rng),
    }
}

/// A time that the scene allows: equal, a little later, much later, any first.
fn time(rng: &mut Rng, scene: &Scene) -> Option<u32> {
    let before = scene.time.unwrap_or(0);
    let bits = match rng.below(8) {
        0 => before,
        1 => before + 1,
        2 if rng.chance(5) => 0x7F7F_FFFF,
        3 if scene.time.is_none() => 0x3F80_0000,
        _ => before + rng.below(0x10_0000) as u32,
    };
    scene.time_allowed(bits).then_some(bits)
}

fn client_data(rng: &mut Rng) -> ClientData {
    ClientData {
        view_height: if rng.chance(50) { 22 } else { small(rng) as i8 },
        pitch: small(rng) as i8,
        punch: signed_bytes(rng),
        velocity: signed_bytes(rng),
        items: long(rng),
        ground: rng.chance(50),
        water: rng.chance(50),
        weapon_frame: small(rng),
        armour: small(rng),
        weapon_model: small(rng),
        health: short(rng),
        ammo: rng.byte(),
        counts: [rng.byte(), rng.byte(), rng.byte(), rng.byte()],
        weapon: rng.byte(),
    }
}

fn particle(rng: &mut Rng) -> Particle {
    Particle {
        origin: shorts(rng),
        velocity: signed_bytes(rng),
        count: rng.byte(),
        colour: rng.byte(),
    }
}

fn static_sound(rng: &mut Rng) -> StaticSound {
    StaticSound {
        origin: shorts(rng),
        sound: rng.byte(),
        volume: rng.byte(),
        attenuation: rng.byte(),
    }
}

fn baseline(rng: &mut Rng) -> Baseline {
    Baseline {
        model: small(rng),
        frame: small(rng),
        colormap: small(rng),
        skin: small(rng),
        origin: shorts(rng),
        angles: signed_bytes(rng),
    }
}

fn temporary(rng: &mut Rng) -> Temporary {
    match rng.below(14) as u8 {
        kind @ (5 | 6 | 9 | 13) => {
            Temporary::Line { kind, entity: entity(rng), start: shorts(rng), end: shorts(rng) }
        }
        12 => Temporary::Explosion2 {
            origin: shorts(rng),
            first_colour: rng.byte(),
            colour_count: rng.byte(),
        },
        kind => Temporary::Point { kind, origin: shorts(rng) },
    }
}

/// Each field is the baseline's or not.
fn update(rng: &mut Rng, scene: &Scene) -> FilledIn {
    let entity = entity(rng);
    let mut record = Record::from(scene.baselines[entity as usize]);
    let percent = rng.pick(&[10, 50, 90]);
    for field in [&mut record.model, &mut record.frame, &mut record.colormap, &mut record.skin] {
        if rng.chance(percent) {
            *field = small(rng);
        }
    }
    if rng.chance(percent) {
        record.effects = small(rng);
    }
    for axis in 0..3 {
        if rng.chance(percent) {
            // One byte of the two differs, or both.
            let other = short(rng);
            record.origin[axis] ^= rng.pick(&[1, 0x100, 0x101, other]);
        }
        if rng.chance(percent) {
            record.angles[axis] = small(rng) as i8;
        }
    }
    record.bit5 = rng.chance(30);
    Message::Update(Update { entity, record })
}
