//! Messages, as sent and filled in.
//!
//! The two forms share one enum. They differ in four things only: how a text
//! is held (a place in a lent text, or its bytes), and in sound, clientdata
//! and update, which are sent with a mask and fields left out.

use crate::scene::{Baseline, ClientData, Record};

/// A refusal's number and place (document 01, "Refusal numbers").
#[derive(Clone, Copy, Debug, PartialEq, Eq)]
pub struct Refusal {
    pub number: u8,
    pub place: usize,
}

impl std::fmt::Display for Refusal {
    fn fmt(&self, f: &mut std::fmt::Formatter<'_>) -> std::fmt::Result {
        write!(f, "refused {} at {}", self.number, self.place)
    }
}

/// A string's bytes in a lent text, without the closing zero. Serverinfo's two
/// lists are one place that includes all their zeros.
#[derive(Clone, Copy, Debug, Default, PartialEq, Eq)]
pub struct Place {
    pub at: usize,
    pub len: usize,
}

impl Place {
    /// The bytes of this place, if the text reaches that far.
    pub fn of<'a>(&self, text: &'a [u8]) -> Option<&'a [u8]> {
        text.get(self.at..self.at.checked_add(self.len)?)
    }
}

#[derive(Clone, Debug, PartialEq, Eq)]
pub struct ServerInfo<T> {
    pub protocol: i32,
    pub limit: u8,
    pub game: u8,
    pub map: T,
    /// The model names, an empty one, the sound names, an empty one.
    pub names: T,
}

#[derive(Clone, Copy, Debug, PartialEq, Eq)]
pub struct SentSound {
    pub mask: u8,
    pub volume: u8,
    pub attenuation: u8,
    pub channel: u8,
    pub entity: u16,
    pub sound: u8,
    pub origin: [i16; 3],
}

#[derive(Clone, Copy, Debug, PartialEq, Eq)]
pub struct Sound {
    pub volume: u8,
    pub attenuation: u8,
    pub channel: u8,
    pub entity: u16,
    pub sound: u8,
    pub origin: [i16; 3],
}

/// Clientdata as sent. `fields.ground` and `fields.water` repeat bits 10 and 11
/// of the mask, where they are sent.
#[derive(Clone, Copy, Debug, PartialEq, Eq)]
pub struct SentClientData {
    pub mask: u16,
    pub fields: ClientData,
}

/// An update as sent; `fields.bit5` repeats bit 5 of the mask.
#[derive(Clone, Copy, Debug, PartialEq, Eq)]
pub struct SentUpdate {
    pub mask: u16,
    pub entity: u16,
    pub fields: Record,
}

#[derive(Clone, Copy, Debug, PartialEq, Eq)]
pub struct Update {
    pub entity: u16,
    pub record: Record,
}

/// A temporary entity is a kind of its own inside message 23. `Explosion2` is
/// always of type 12.
#[derive(Clone, Copy, Debug, PartialEq, Eq)]
pub enum Temporary {
    Point { kind: u8, origin: [i16; 3] },
    Line { kind: u8, entity: u16, start: [i16; 3], end: [i16; 3] },
    Explosion2 { origin: [i16; 3], first_colour: u8, colour_count: u8 },
}

#[derive(Clone, Copy, Debug, PartialEq, Eq)]
pub struct Particle {
    pub origin: [i16; 3],
    pub velocity: [i8; 3],
    pub count: u8,
    pub colour: u8,
}

#[derive(Clone, Copy, Debug, PartialEq, Eq)]
pub struct StaticSound {
    pub origin: [i16; 3],
    pub sound: u8,
    pub volume: u8,
    pub attenuation: u8,
}

/// One message; `T` text, `S` sound, `C` clientdata, `U` update.
#[derive(Clone, Debug, PartialEq, Eq)]
pub enum Message<T, S, C, U> {
    Nop,
    Disconnect,
    Stat { index: u8, value: i32 },
    Version { protocol: i32 },
    View { entity: u16 },
    Sound(S),
    Time { bits: u32 },
    Print { text: T },
    StuffText { text: T },
    SetAngle { angles: [i8; 3] },
    ServerInfo(ServerInfo<T>),
    Style { style: u8, text: T },
    Name { player: u8, text: T },
    Frags { player: u8, frags: i16 },
    ClientData(C),
    StopSound { channel: u8, entity: u16 },
    Colours { player: u8, colours: u8 },
    Particle(Particle),
    Damage { save: u8, take: u8, origin: [i16; 3] },
    Static(Baseline),
    Baseline { entity: u16, baseline: Baseline },
    Temporary(Temporary),
    Pause { pause: u8 },
    Signon { signon: u8 },
    CenterPrint { text: T },
    Killed,
    Secret,
    StaticSound(StaticSound),
    Intermission,
    Finale { text: T },
    CdTrack { from: u8, to: u8 },
    SellScreen,
    CutScene { text: T },
    Update(U),
}

pub type AsSent = Message<Place, SentSound, SentClientData, SentUpdate>;
pub type FilledIn = Message<Vec<u8>, Sound, ClientData, Update>;

impl<T, S, C, U> Message<T, S, C, U> {
    /// The same message with its text, sound, clientdata and update changed.
    /// `None` where a text cannot be changed.
    pub fn map<T2, S2, C2, U2>(
        &self,
        text: impl Fn(&T) -> Option<T2>,
        sound: impl FnOnce(&S) -> S2,
        client: impl FnOnce(&C) -> C2,
        update: impl FnOnce(&U) -> U2,
    ) -> Option<Message<T2, S2, C2, U2>> {
        use Message as M;
        Some(match self {
            M::Print { text: t } => M::Print { text: text(t)? },
            M::StuffText { text: t } => M::StuffText { text: text(t)? },
            M::CenterPrint { text: t } => M::CenterPrint { text: text(t)? },
            M::Finale { text: t } => M::Finale { text: text(t)? },
            M::CutScene { text: t } => M::CutScene { text: text(t)? },
            M::Style { style, text: t } => M::Style { style: *style, text: text(t)? },
            M::Name { player, text: t } => M::Name { player: *player, text: text(t)? },
            M::ServerInfo(info) => M::ServerInfo(ServerInfo {
                protocol: info.protocol,
                limit: info.limit,
                game: info.game,
                map: text(&info.map)?,
                names: text(&info.names)?,
            }),
            M::Sound(s) => M::Sound(sound(s)),
            M::ClientData(c) => M::ClientData(client(c)),
            M::Update(u) => M::Update(update(u)),
            other => other.plain()?,
        })
    }

    /// The messages that hold none of the four changing parts.
    fn plain<T2, S2, C2, U2>(&self) -> Option<Message<T2, S2, C2, U2>> {
        use Message as M;
        Some(match *self {
            M::Nop => M::Nop,
            M::Disconnect => M::Disconnect,
            M::Stat { index, value } => M::Stat { index, value },
            M::Version { protocol } => M::Version { protocol },
            M::View { entity } => M::View { entity },
            M::Time { bits } => M::Time { bits },
            M::SetAngle { angles } => M::SetAngle { angles },
            M::Frags { player, frags } => M::Frags { player, frags },
            M::StopSound { channel, entity } => M::StopSound { channel, entity },
            M::Colours { player, colours } => M::Colours { player, colours },
            M::Particle(particle) => M::Particle(particle),
            M::Damage { save, take, origin } => M::Damage { save, take, origin },
            M::Static(baseline) => M::Static(baseline),
            M::Baseline { entity, baseline } => M::Baseline { entity, baseline },
            M::Temporary(temporary) => M::Temporary(temporary),
            M::Pause { pause } => M::Pause { pause },
            M::Signon { signon } => M::Signon { signon },
            M::Killed => M::Killed,
            M::Secret => M::Secret,
            M::StaticSound(sound) => M::StaticSound(sound),
            M::Intermission => M::Intermission,
            M::CdTrack { from, to } => M::CdTrack { from, to },
            M::SellScreen => M::SellScreen,
            _ => return None,
        })
    }
}
