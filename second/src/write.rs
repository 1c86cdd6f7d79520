//! Writing: a message back from its fields as sent, and the normal form.

use crate::message::*;
use crate::read::{read_message, read_recording, Attempt, NO_SCENE};
use crate::scene::*;

/// A message ready to be encoded: masks as sent, strings as bytes.
pub type Encodable = Message<Vec<u8>, SentSound, SentClientData, SentUpdate>;

/// Writes a message from its fields as sent; its strings stand in `text`.
pub fn write_message(scene: &Scene, sent: &AsSent, text: &[u8]) -> Result<Vec<u8>, Refusal> {
    let refuse = |number| Refusal { number, place: 0 };
    if !scene.in_ranges() {
        return Err(NO_SCENE);
    }
    if scene.ended {
        return Err(refuse(11));
    }
    let wanted = with_bytes(sent, text).ok_or(refuse(13))?;
    let bytes = encode(&wanted);
    // 13 by its own words: some bytes must read to this very record.
    match read_message(scene, &bytes, 0) {
        Ok(Some(step)) if with_bytes(&step.sent, &bytes) == Some(wanted) => Ok(bytes),
        _ => Err(refuse(13)),
    }
}

/// Copies an output into lent room; room past it keeps its bytes.
pub fn write_to_room(output: &[u8], room: &mut [u8]) -> Result<usize, Refusal> {
    let short = Refusal { number: 12, place: output.len() };
    room.get_mut(..output.len()).ok_or(short)?.copy_from_slice(output);
    Ok(output.len())
}

/// A message as sent with the bytes of its strings in place of their places.
pub fn with_bytes(sent: &AsSent, text: &[u8]) -> Option<Encodable> {
    sent.map(|place| place.of(text).map(<[u8]>::to_vec), |s| *s, |c| *c, |u| *u)
}

/// The normal form of a recording, or of its whole blocks before a refusal.
pub fn normal(bytes: &[u8]) -> (Vec<u8>, Option<Refusal>) {
    let attempt = read_recording(bytes);
    (normal_of(&attempt), attempt.refusal)
}

/// The normal form of what was read.
pub fn normal_of(attempt: &Attempt) -> Vec<u8> {
    let mut out = Vec::new();
    let mut scene = Scene::start();
    if let Some(track) = attempt.track {
        out.extend_from_slice(format!("{track}\n").as_bytes());
    }
    for block in &attempt.blocks {
        let mut body = Vec::new();
        for step in &block.messages {
            body.extend(normal_message(&scene, &step.filled));
            scene.apply(&step.filled);
        }
        write_block(&mut out, block.angles, &body);
    }
    out
}

/// Appends a block: size, angles' bits, messages.
pub fn write_block(out: &mut Vec<u8>, angles: [u32; 3], body: &[u8]) {
    out.extend_from_slice(&(body.len() as u32).to_le_bytes());
    for bits in angles {
        out.extend_from_slice(&bits.to_le_bytes());
    }
    out.extend_from_slice(body);
}

/// The normal form of a filled-in message in the scene it was filled in.
pub fn normal_message(scene: &Scene, filled: &FilledIn) -> Vec<u8> {
    encode(&with_masks(filled, least_sound_mask, least_client_mask, |update| {
        least_update_mask(scene, update)
    }))
}

/// A filled-in message sent with the masks that the three functions choose.
pub fn with_masks(
    filled: &FilledIn,
    sound: impl FnOnce(&Sound) -> u8,
    client: impl FnOnce(&ClientData) -> u16,
    update: impl FnOnce(&Update) -> u16,
) -> Encodable {
    filled
        .map(
            |text| Some(text.clone()),
            |s| send_sound(sound(s), s),
            |c| SentClientData { mask: client(c), fields: *c },
            |u| SentUpdate { mask: update(u), entity: u.entity, fields: u.record },
        )
        .expect("texts are copied")
}

pub fn least_sound_mask(sound: &Sound) -> u8 {
    u8::from(sound.volume != 255) | u8::from(sound.attenuation != 64) << 1
}

pub fn least_client_mask(client: &ClientData) -> u16 {
    let mut mask = 1 << 9;
    let mut set = |bit: usize, on: bool| mask |= u16::from(on) << bit;
    set(0, client.view_height != 22);
    set(1, client.pitch != 0);
    for axis in 0..3 {
        set(2 + axis, client.punch[axis] != 0);
        set(5 + axis, client.velocity[axis] != 0);
    }
    set(10, client.ground);
    set(11, client.water);
    set(12, client.weapon_frame != 0);
    set(13, client.armour != 0);
    set(14, client.weapon_model != 0);
    mask
}

pub fn least_update_mask(scene: &Scene, update: &Update) -> u16 {
    let base = &scene.baselines[update.entity as usize];
    let record = &update.record;
    let mut mask = 0;
    let mut set = |bit: usize, on: bool| mask |= u16::from(on) << bit;
    set(5, record.bit5);
    set(6, record.frame != base.frame);
    set(10, record.model != base.model);
    set(11, record.colormap != base.colormap);
    set(12, record.skin != base.skin);
    set(13, record.effects != 0);
    set(14, update.entity > 255);
    for (axis, (place, angle)) in [(1, 8), (2, 4), (3, 9)].into_iter().enumerate() {
        set(place, record.origin[axis] != base.origin[axis]);
        set(angle, record.angles[axis] != base.angles[axis]);
    }
    mask | u16::from(mask & 0xFF00 != 0)
}

fn send_sound(mask: u8, sound: &Sound) -> SentSound {
    let Sound { volume, attenuation, channel, entity, sound, origin } = *sound;
    SentSound { mask, volume, attenuation, channel, entity, sound, origin }
}

/// The bytes of a message. Fields whose mask bit is clear are left out.
pub fn encode(message: &Encodable) -> Vec<u8> {
    let mut out = Out(Vec::new());
    match message {
        Message::Nop => out.b(1),
        Message::Disconnect => out.b(2),
        Message::Stat { index, value } => out.b(3).b(*index).l(*value),
        Message::Version { protocol } => out.b(4).l(*protocol),
        Message::View { entity } => out.b(5).s(*entity as i16),
        Message::Sound(sound) => out.sound(sound),
        Message::Time { bits } => out.b(7).l(*bits as i32),
        Message::Print { text } => out.b(8).t(text),
        Message::StuffText { text } => out.b(9).t(text),
        Message::SetAngle { angles } => out.b(10).ccc(angles),
        Message::ServerInfo(info) => out.server_info(info),
        Message::Style { style, text } => out.b(12).b(*style).t(text),
        Message::Name { player, text } => out.b(13).b(*player).t(text),
        Message::Frags { player, frags } => out.b(14).b(*player).s(*frags),
        Message::ClientData(client) => out.client_data(client),
        Message::StopSound { channel, entity } => out.b(16).channel_and_entity(*channel, *entity),
        Message::Colours { player, colours } => out.b(17).b(*player).b(*colours),
        Message::Particle(particle) => out.particle(particle),
        Message::Damage { save, take, origin } => out.b(19).b(*save).b(*take).v(origin),
        Message::Static(baseline) => out.b(20).baseline(baseline),
        Message::Baseline { entity, baseline } => out.b(22).s(*entity as i16).baseline(baseline),
        Message::Temporary(temporary) => out.b(23).temporary(temporary),
        Message::Pause { pause } => out.b(24).b(*pause),
        Message::Signon { signon } => out.b(25).b(*signon),
        Message::CenterPrint { text } => out.b(26).t(text),
        Message::Killed => out.b(27),
        Message::Secret => out.b(28),
        Message::StaticSound(s) => out.b(29).v(&s.origin).b(s.sound).b(s.volume).b(s.attenuation),
        Message::Intermission => out.b(30),
        Message::Finale { text } => out.b(31).t(text),
        Message::CdTrack { from, to } => out.b(32).b(*from).b(*to),
        Message::SellScreen => out.b(33),
        Message::CutScene { text } => out.b(34).t(text),
        Message::Update(update) => out.update(update),
    };
    out.0
}

struct Out(Vec<u8>);

impl Out {
    fn bytes(&mut self, bytes: &[u8]) -> &mut Self {
        self.0.extend_from_slice(bytes);
        self
    }

    fn b(&mut self, value: u8) -> &mut Self {
        self.bytes(&[value])
    }

    fn c(&mut self, value: i8) -> &mut Self {
        self.bytes(&value.to_le_bytes())
    }

    fn s(&mut self, value: i16) -> &mut Self {
        self.bytes(&value.to_le_bytes())
    }

    fn l(&mut self, value: i32) -> &mut Self {
        self.bytes(&value.to_le_bytes())
    }

    fn t(&mut self, text: &[u8]) -> &mut Self {
        self.bytes(text).b(0)
    }

    fn v(&mut self, vector: &[i16; 3]) -> &mut Self {
        self.s(vector[0]).s(vector[1]).s(vector[2])
    }

    fn ccc(&mut self, values: &[i8; 3]) -> &mut Self {
        self.c(values[0]).c(values[1]).c(values[2])
    }

    fn b_if(&mut self, sent: bool, value: u8) -> &mut Self {
        self.bytes(if sent { std::slice::from_ref(&value) } else { &[] })
    }

    fn c_if(&mut self, sent: bool, value: i8) -> &mut Self {
        self.b_if(sent, value as u8)
    }

    fn channel_and_entity(&mut self, channel: u8, entity: u16) -> &mut Self {
        self.s((entity << 3 | u16::from(channel)) as i16)
    }

    fn sound(&mut self, sound: &SentSound) -> &mut Self {
        self.b(6).b(sound.mask);
        self.b_if(sound.mask & 1 != 0, sound.volume);
        self.b_if(sound.mask & 2 != 0, sound.attenuation);
        self.channel_and_entity(sound.channel, sound.entity);
        self.b(sound.sound).v(&sound.origin)
    }

    fn server_info(&mut self, info: &ServerInfo<Vec<u8>>) -> &mut Self {
        self.b(11).l(info.protocol).b(info.limit).b(info.game).t(&info.map).bytes(&info.names)
    }

    fn client_data(&mut self, client: &SentClientData) -> &mut Self {
        let SentClientData { mask, fields } = client;
        let bit = |n: usize| mask & (1 << n) != 0;
        self.b(15).s(*mask as i16);
        self.c_if(bit(0), fields.view_height).c_if(bit(1), fields.pitch);
        for axis in 0..3 {
            self.c_if(bit(2 + axis), fields.punch[axis]);
            self.c_if(bit(5 + axis), fields.velocity[axis]);
        }
        self.l(fields.items);
        self.b_if(bit(12), fields.weapon_frame);
        self.b_if(bit(13), fields.armour);
        self.b_if(bit(14), fields.weapon_model);
        self.s(fields.health).b(fields.ammo).bytes(&fields.counts).b(fields.weapon)
    }

    fn particle(&mut self, particle: &Particle) -> &mut Self {
        self.b(18).v(&particle.origin).ccc(&particle.velocity);
        self.b(particle.count).b(particle.colour)
    }

    fn baseline(&mut self, base: &Baseline) -> &mut Self {
        self.b(base.model).b(base.frame).b(base.colormap).b(base.skin);
        for axis in 0..3 {
            self.s(base.origin[axis]).c(base.angles[axis]);
        }
        self
    }

    fn temporary(&mut self, temporary: &Temporary) -> &mut Self {
        match temporary {
            Temporary::Point { kind, origin } => self.b(*kind).v(origin),
            Temporary::Line { kind, entity, start, end } => {
                self.b(*kind).s(*entity as i16).v(start).v(end)
            }
            Temporary::Explosion2 { origin, first_colour, colour_count } => {
                self.b(12).v(origin).b(*first_colour).b(*colour_count)
            }
        }
    }

    fn update(&mut self, update: &SentUpdate) -> &mut Self {
        let SentUpdate { mask, entity, fields } = update;
        let bit = |n: u8| mask & (1 << n) != 0;
        let [low, high] = mask.to_le_bytes();
        self.b(0x80 | low).b_if(bit(0), high);
        self.b(*entity as u8).b_if(bit(14), (entity >> 8) as u8);
        self.b_if(bit(10), fields.model).b_if(bit(6), fields.frame);
        self.b_if(bit(11), fields.colormap).b_if(bit(12), fields.skin);
        self.b_if(bit(13), fields.effects);
        for (axis, (place, angle)) in [(1, 8), (2, 4), (3, 9)].into_iter().enumerate() {
            if bit(place) {
                self.s(fields.origin[axis]);
            }
            self.c_if(bit(angle), fields.angles[axis]);
        }
        self
    }
}
