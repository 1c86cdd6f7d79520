//! Text forms: the scene (the form all programs share), and message lines.

use crate::message::*;
use crate::read::{Attempt, Step};
use crate::scene::*;
use std::fmt::Write;

/// The scene after a recording as text, or its refusal as one line.
pub fn scene_text(attempt: &Attempt) -> String {
    match attempt.refusal {
        Some(refusal) => format!("{refusal}\n"),
        None => accepted_text(
            attempt.track.unwrap_or_default(),
            attempt.blocks.len(),
            attempt.messages(),
            &attempt.scene,
        ),
    }
}

/// The text of an accepted recording.
pub fn accepted_text(track: i32, blocks: usize, messages: usize, scene: &Scene) -> String {
    let head = format!("accepted\ntrack {track}\nblocks {blocks}\nmessages {messages}\n");
    head + &scene_lines(scene)
}

/// The text of a scene alone: from the line `ended` on.
pub fn scene_lines(scene: &Scene) -> String {
    let time = scene.time.map_or("none".into(), |bits| format!("{bits:08x}"));
    let stats: Vec<String> = scene.stats.iter().map(i32::to_string).collect();
    let lines = [
        format!("ended {}", u8::from(scene.ended)),
        format!("time {time}"),
        format!("limit {}", scene.limit),
        format!("view {}", scene.view),
        format!("pause {}", scene.pause),
        format!("statics {}", scene.statics),
        format!("present {}", scene.present_count),
        format!("stats {}", stats.join(" ")),
        format!("clientdata {}", client_fields(&scene.client)),
    ];
    let mut out = lines.join("\n") + "\n";
    for (number, line) in scene.players.iter().enumerate() {
        let _ = writeln!(out, "player {number} frags={} colours={}", line.frags, line.colours);
    }
    entity_lines(&mut out, scene);
    out
}

fn entity_lines(out: &mut String, scene: &Scene) {
    for (number, baseline) in scene.baselines.iter().enumerate() {
        if *baseline != Baseline::default() {
            let _ = writeln!(out, "baseline {number} {}", baseline_fields(baseline));
        }
    }
    for (number, record) in scene.records.iter().enumerate() {
        let present = scene.present[number];
        if present || *record != Record::default() {
            let fields = record_fields(record);
            let _ = writeln!(out, "record {number} present={} {fields}", u8::from(present));
        }
    }
}

fn client_fields(c: &ClientData) -> String {
    let mut out = format!("view_height={} pitch={}", c.view_height, c.pitch);
    for axis in 0..3 {
        let (punch, velocity) = (c.punch[axis], c.velocity[axis]);
        let _ = write!(out, " punch{axis}={punch} velocity{axis}={velocity}");
    }
    let (ground, water) = (u8::from(c.ground), u8::from(c.water));
    let _ = write!(out, " items={} ground={ground} water={water}", c.items);
    let _ = write!(out, " weapon_frame={} armour={}", c.weapon_frame, c.armour);
    let _ = write!(out, " weapon_model={} health={}", c.weapon_model, c.health);
    let _ = write!(out, " ammo={}", c.ammo);
    for (i, count) in c.counts.iter().enumerate() {
        let _ = write!(out, " count{i}={count}");
    }
    let _ = write!(out, " weapon={}", c.weapon);
    out
}

fn axes(origin: &[i16; 3], angles: &[i8; 3]) -> String {
    format!(
        "x={} angle0={} y={} angle1={} z={} angle2={}",
        origin[0], angles[0], origin[1], angles[1], origin[2], angles[2]
    )
}

pub fn baseline_fields(b: &Baseline) -> String {
    let axes = axes(&b.origin, &b.angles);
    format!("model={} frame={} colormap={} skin={} {axes}", b.model, b.frame, b.colormap, b.skin)
}

pub fn record_fields(r: &Record) -> String {
    let head = format!("model={} frame={} colormap={}", r.model, r.frame, r.colormap);
    let axes = axes(&r.origin, &r.angles);
    format!("{head} skin={} effects={} {axes} bit5={}", r.skin, r.effects, u8::from(r.bit5))
}

/// A part of a message that prints its own fields.
pub trait Fields {
    fn fields(&self) -> String;
}

/// A string as sent: where its bytes stand, and how many.
impl Fields for Place {
    fn fields(&self) -> String {
        format!("{}+{}", self.at, self.len)
    }
}

/// A string's bytes: what is not plain ASCII, a quote or a backslash as `\xHH`.
impl Fields for Vec<u8> {
    fn fields(&self) -> String {
        let mut out = String::from("\"");
        for &byte in self {
            match byte {
                b'"' | b'\\' | 0..=0x1F | 0x7F..=0xFF => {
                    let _ = write!(out, "\\x{byte:02x}");
                }
                _ => out.push(byte as char),
            }
        }
        out + "\""
    }
}

impl Fields for SentSound {
    fn fields(&self) -> String {
        let head = format!("mask={:02x} volume={}", self.mask, self.volume);
        let tail = sound_tail(self.channel, self.entity, self.sound, &self.origin);
        format!("{head} attenuation={} {tail}", self.attenuation)
    }
}

impl Fields for Sound {
    fn fields(&self) -> String {
        let tail = sound_tail(self.channel, self.entity, self.sound, &self.origin);
        format!("volume={} attenuation={} {tail}", self.volume, self.attenuation)
    }
}

fn sound_tail(channel: u8, entity: u16, sound: u8, origin: &[i16; 3]) -> String {
    format!("channel={channel} entity={entity} sound={sound} {}", vector("", origin))
}

fn vector(prefix: &str, v: &[i16; 3]) -> String {
    format!("{prefix}x={} {prefix}y={} {prefix}z={}", v[0], v[1], v[2])
}

impl Fields for SentClientData {
    fn fields(&self) -> String {
        format!("mask={:04x} {}", self.mask, client_fields(&self.fields))
    }
}

impl Fields for ClientData {
    fn fields(&self) -> String {
        client_fields(self)
    }
}

impl Fields for SentUpdate {
    fn fields(&self) -> String {
        let fields = record_fields(&self.fields);
        format!("mask={:04x} entity={} {fields}", self.mask, self.entity)
    }
}

impl Fields for Update {
    fn fields(&self) -> String {
        format!("entity={} {}", self.entity, record_fields(&self.record))
    }
}

impl Fields for Temporary {
    fn fields(&self) -> String {
        match self {
            Temporary::Point { kind, origin } => format!("type={kind} {}", vector("", origin)),
            Temporary::Line { kind, entity, start, end } => {
                let (start, end) = (vector("start_", start), vector("end_", end));
                format!("type={kind} entity={entity} {start} {end}")
            }
            Temporary::Explosion2 { origin, first_colour, colour_count } => {
                let origin = vector("", origin);
                format!("type=12 {origin} first_colour={first_colour} colour_count={colour_count}")
            }
        }
    }
}

impl<T: Fields, S: Fields, C: Fields, U: Fields> Fields for Message<T, S, C, U> {
    fn fields(&self) -> String {
        match self {
            Message::Nop | Message::Disconnect | Message::Killed | Message::Secret => String::new(),
            Message::Intermission | Message::SellScreen => String::new(),
            Message::Stat { index, value } => format!("stat={index} value={value}"),
            Message::Version { protocol } => format!("protocol={protocol}"),
            Message::View { entity } => format!("entity={entity}"),
            Message::Sound(sound) => sound.fields(),
            Message::Time { bits } => format!("time={bits:08x}"),
            Message::Print { text }
            | Message::StuffText { text }
            | Message::CenterPrint { text }
            | Message::Finale { text }
            | Message::CutScene { text } => format!("text={}", text.fields()),
            Message::SetAngle { angles: [a, b, c] } => {
                format!("angle0={a} angle1={b} angle2={c}")
            }
            Message::ServerInfo(info) => info.fields(),
            Message::Style { style, text } => format!("style={style} text={}", text.fields()),
            Message::Name { player, text } => format!("player={player} text={}", text.fields()),
            Message::Frags { player, frags } => format!("player={player} frags={frags}"),
            Message::ClientData(client) => client.fields(),
            Message::StopSound { channel, entity } => format!("channel={channel} entity={entity}"),
            Message::Colours { player, colours } => format!("player={player} colours={colours}"),
            Message::Particle(particle) => particle.fields(),
            Message::Damage { save, take, origin } => {
                format!("save={save} take={take} {}", vector("", origin))
            }
            Message::Static(baseline) => baseline_fields(baseline),
            Message::Baseline { entity, baseline } => {
                format!("entity={entity} {}", baseline_fields(baseline))
            }
            Message::Temporary(temporary) => temporary.fields(),
            Message::Pause { pause } => format!("pause={pause}"),
            Message::Signon { signon } => format!("signon={signon}"),
            Message::StaticSound(sound) => sound.fields(),
            Message::CdTrack { from, to } => format!("from={from} to={to}"),
            Message::Update(update) => update.fields(),
        }
    }
}

impl<T: Fields> Fields for ServerInfo<T> {
    fn fields(&self) -> String {
        let head = format!("protocol={} limit={} game={}", self.protocol, self.limit, self.game);
        format!("{head} map={} names={}", self.map.fields(), self.names.fields())
    }
}

impl Fields for Particle {
    fn fields(&self) -> String {
        let [a, b, c] = self.velocity;
        let velocity = format!("velocity0={a} velocity1={b} velocity2={c}");
        let origin = vector("", &self.origin);
        format!("{origin} {velocity} count={} colour={}", self.count, self.colour)
    }
}

impl Fields for StaticSound {
    fn fields(&self) -> String {
        let origin = vector("", &self.origin);
        let StaticSound { sound, volume, attenuation, .. } = self;
        format!("{origin} sound={sound} volume={volume} attenuation={attenuation}")
    }
}

/// A line a block, its place and the number of present marks behind it; then how
/// the recording ends.
pub fn overlay_text(counts: &[(usize, u16)], refusal: Option<Refusal>) -> String {
    let line = |(place, count): &(usize, u16)| format!("block {place} present {count}\n");
    let end = refusal.map_or("accepted".into(), |refusal| refusal.to_string());
    counts.iter().map(line).collect::<String>() + &end + "\n"
}

/// One line a message: place, number, fields as sent, ` | `, fields filled in.
pub fn message_line(step: &Step) -> String {
    let (sent, filled) = (step.sent.fields(), step.filled.fields());
    if sent.is_empty() {
        return format!("{} {} |", step.place, step.number);
    }
    format!("{} {} {sent} | {filled}", step.place, step.number)
}

/// All that was read: the track, each whole block with its messages, and the
/// refusal if there is one.
pub fn messages_text(attempt: &Attempt) -> String {
    let mut out = String::new();
    if let Some(track) = attempt.track {
        let _ = writeln!(out, "track {track}");
    }
    for block in &attempt.blocks {
        let [a, b, c] = block.angles;
        let _ = writeln!(out, "block {} angles {a:08x} {b:08x} {c:08x}", block.place);
        for step in &block.messages {
            let _ = writeln!(out, "{}", message_line(step));
        }
    }
    if let Some(refusal) = attempt.refusal {
        let _ = writeln!(out, "{refusal}");
    }
    out
}
