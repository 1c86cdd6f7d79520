//! The plain reader: the reference. It follows document 01 word by word, takes
//! memory as it likes, and never looks at how fast it is.

use crate::message::*;
use crate::scene::*;

pub const BLOCK_HEAD: usize = 16;
pub const BLOCK_SIZE: u32 = 8000;
/// A zero must be among the first so many bytes of a string.
pub const STRING_BYTES: usize = 2047;
/// Names in each of serverinfo's lists.
pub const NAMES: usize = 255;

/// What a scene outside its ranges gets, whatever is asked of it and wherever.
pub const NO_SCENE: Refusal = Refusal { number: 14, place: 0 };

/// A message read at a place.
#[derive(Clone, Debug, PartialEq, Eq)]
pub struct Step {
    pub place: usize,
    pub next: usize,
    pub number: u8,
    pub sent: AsSent,
    pub filled: FilledIn,
}

#[derive(Clone, Debug, PartialEq, Eq)]
pub struct Block {
    pub place: usize,
    pub next: usize,
    pub angles: [u32; 3],
    pub messages: Vec<Step>,
}

/// What was read before the first refusal, or all of it.
#[derive(Clone, Debug, PartialEq, Eq)]
pub struct Attempt {
    pub track: Option<i32>,
    pub blocks: Vec<Block>,
    /// The scene after `blocks`.
    pub scene: Scene,
    pub refusal: Option<Refusal>,
}

/// The reading of document 01: what two recordings must share to be the same.
#[derive(Clone, Debug, PartialEq, Eq)]
pub struct Reading {
    pub track: i32,
    pub blocks: Vec<([u32; 3], Vec<FilledIn>)>,
}

impl Attempt {
    pub fn messages(&self) -> usize {
        self.blocks.iter().map(|block| block.messages.len()).sum()
    }

    /// The reading, if the recording is accepted.
    pub fn reading(&self) -> Result<Reading, Refusal> {
        if let Some(refusal) = self.refusal {
            return Err(refusal);
        }
        let filled = |block: &Block| block.messages.iter().map(|m| m.filled.clone()).collect();
        Ok(Reading {
            track: self.track.unwrap_or_default(),
            blocks: self.blocks.iter().map(|block| (block.angles, filled(block))).collect(),
        })
    }

    /// Each message of the blocks read, with the scene after it.
    pub fn scenes(&self) -> impl Iterator<Item = (&Step, Scene)> {
        let mut scene = Scene::start();
        self.blocks.iter().flat_map(|block| &block.messages).map(move |step| {
            scene.apply(&step.filled);
            (step, scene.clone())
        })
    }

    /// The place of each block read, and the number of present marks behind it.
    pub fn present_counts(&self) -> Vec<(usize, u16)> {
        let mut scene = Scene::start();
        let behind = |block: &Block| {
            block.messages.iter().for_each(|step| scene.apply(&step.filled));
            (block.place, scene.present_count)
        };
        self.blocks.iter().map(behind).collect()
    }
}

/// Reads a whole recording from the scene at the start.
pub fn read_recording(bytes: &[u8]) -> Attempt {
    let mut attempt =
        Attempt { track: None, blocks: Vec::new(), scene: Scene::start(), refusal: None };
    attempt.refusal = read_into(bytes, &mut attempt).err();
    attempt
}

fn read_into(bytes: &[u8], attempt: &mut Attempt) -> Result<(), Refusal> {
    let (track, mut at) = read_track(bytes)?;
    attempt.track = Some(track);
    while let Some((block, scene)) = read_block(&attempt.scene, bytes, at)? {
        at = block.next;
        attempt.blocks.push(block);
        attempt.scene = scene;
    }
    Ok(())
}

/// Reads the track line: the number, and the place after its line feed.
pub fn read_track(bytes: &[u8]) -> Result<(i32, usize), Refusal> {
    let minus = bytes.first() == Some(&b'-');
    let first = usize::from(minus);
    let mut at = first;
    let mut number = 0;
    while at < first + 3 && bytes.get(at).is_some_and(u8::is_ascii_digit) {
        number = number * 10 + i32::from(bytes[at] - b'0');
        at += 1;
    }
    if at == first || bytes.get(at) != Some(&b'\n') {
        return Err(Refusal { number: 1, place: at });
    }
    Ok((if minus { -number } else { number }, at + 1))
}

/// Reads the block at a place; `None` exactly at the end.
pub fn read_block(
    scene: &Scene,
    bytes: &[u8],
    at: usize,
) -> Result<Option<(Block, Scene)>, Refusal> {
    let refuse = |number| Err(Refusal { number, place: at });
    if !scene.in_ranges() {
        return Err(NO_SCENE);
    }
    if at == bytes.len() {
        return Ok(None);
    }
    if at > bytes.len() {
        return refuse(5);
    }
    if scene.ended {
        return refuse(11);
    }
    if bytes.len() - at < BLOCK_HEAD {
        return refuse(2);
    }
    let word = |i: usize| u32::from_le_bytes(bytes[at + i..at + i + 4].try_into().unwrap());
    let size = word(0);
    if size > BLOCK_SIZE {
        return refuse(3);
    }
    let body = at + BLOCK_HEAD;
    let end = body + size as usize;
    if end > bytes.len() {
        return refuse(2);
    }
    let angles = [word(4), word(8), word(12)];
    if angles.iter().any(|bits| (bits >> 23) & 0xFF == 255) {
        return refuse(4);
    }
    let (messages, scene) = read_messages(scene, bytes, body, end)?;
    Ok(Some((Block { place: at, next: end, angles, messages }, scene)))
}

fn read_messages(
    scene: &Scene,
    bytes: &[u8],
    mut at: usize,
    end: usize,
) -> Result<(Vec<Step>, Scene), Refusal> {
    let mut scene = scene.clone();
    let mut messages = Vec::new();
    while let Some(step) = read_message(&scene, &bytes[..end], at)? {
        scene.apply(&step.filled);
        at = step.next;
        messages.push(step);
    }
    Ok((messages, scene))
}

/// Reads the message at a place of bytes that end where the block ends; `None`
/// exactly at the end. Places count from the first byte lent.
pub fn read_message(scene: &Scene, bytes: &[u8], at: usize) -> Result<Option<Step>, Refusal> {
    if !scene.in_ranges() {
        return Err(NO_SCENE);
    }
    if at == bytes.len() {
        return Ok(None);
    }
    let refuse = |number| Refusal { number, place: at };
    if at > bytes.len() {
        return Err(refuse(5));
    }
    if scene.ended {
        return Err(refuse(11));
    }
    let mut cursor = Cursor { bytes, at: at + 1, scene };
    let number = bytes[at];
    let sent = cursor.message(number).map_err(refuse)?;
    let filled = fill(scene, &sent, bytes);
    Ok(Some(Step { place: at, next: cursor.at, number, sent, filled }))
}

/// A field's value, or the number of the refusal it meets.
type Field<T> = Result<T, u8>;

const SHORT: u8 = 5;
const UNKNOWN: u8 = 6;
const STRING: u8 = 7;
const RESERVED: u8 = 8;
const RANGE: u8 = 9;
const TIME: u8 = 10;

fn check(holds: bool, number: u8) -> Field<()> {
    if holds {
        Ok(())
    } else {
        Err(number)
    }
}

struct Cursor<'a> {
    bytes: &'a [u8],
    at: usize,
    scene: &'a Scene,
}

/// The fields of document 01, "Messages by number".
impl Cursor<'_> {
    fn take<const N: usize>(&mut self) -> Field<[u8; N]> {
        let field = self.bytes.get(self.at..self.at + N).ok_or(SHORT)?;
        self.at += N;
        Ok(field.try_into().unwrap())
    }

    fn b(&mut self) -> Field<u8> {
        Ok(self.take::<1>()?[0])
    }

    fn c(&mut self) -> Field<i8> {
        Ok(i8::from_le_bytes(self.take()?))
    }

    fn s(&mut self) -> Field<i16> {
        Ok(i16::from_le_bytes(self.take()?))
    }

    fn l(&mut self) -> Field<i32> {
        Ok(i32::from_le_bytes(self.take()?))
    }

    fn v(&mut self) -> Field<[i16; 3]> {
        Ok([self.s()?, self.s()?, self.s()?])
    }

    fn ccc(&mut self) -> Field<[i8; 3]> {
        Ok([self.c()?, self.c()?, self.c()?])
    }

    fn entity(&mut self) -> Field<u16> {
        let number = self.s()?;
        check((0..=MAX_ENTITY as i16).contains(&number), RANGE)?;
        Ok(number as u16)
    }

    fn player(&mut self) -> Field<u8> {
        let number = self.b()?;
        check(number < self.scene.limit, RANGE)?;
        Ok(number)
    }

    fn below(&mut self, limit: u8) -> Field<u8> {
        let number = self.b()?;
        check(number < limit, RANGE)?;
        Ok(number)
    }

    fn protocol(&mut self) -> Field<i32> {
        let number = self.l()?;
        check(number == PROTOCOL, RANGE)?;
        Ok(number)
    }

    fn if_sent<T: Default>(
        &mut self,
        sent: bool,
        field: impl FnOnce(&mut Self) -> Field<T>,
    ) -> Field<T> {
        if sent {
            field(self)
        } else {
            Ok(T::default())
        }
    }

    /// A string, byte by byte: its place without the closing zero.
    fn t(&mut self) -> Field<Place> {
        let at = self.at;
        for len in 0..STRING_BYTES {
            match self.b()? {
                0 => return Ok(Place { at, len }),
                0xFF => return Err(STRING),
                _ => {}
            }
        }
        Err(STRING)
    }
}

/// The messages of document 01.
impl Cursor<'_> {
    fn message(&mut self, number: u8) -> Field<AsSent> {
        Ok(match number {
            1 => Message::Nop,
            2 => Message::Disconnect,
            3 => Message::Stat { index: self.below(STATS as u8)?, value: self.l()? },
            4 => Message::Version { protocol: self.protocol()? },
            5 => Message::View { entity: self.entity()? },
            6 => Message::Sound(self.sound()?),
            7 => Message::Time { bits: self.time()? },
            8 => Message::Print { text: self.t()? },
            9 => Message::StuffText { text: self.t()? },
            10 => Message::SetAngle { angles: self.ccc()? },
            11 => Message::ServerInfo(self.server_info()?),
            12 => Message::Style { style: self.below(STYLES)?, text: self.t()? },
            13 => Message::Name { player: self.player()?, text: self.t()? },
            14 => Message::Frags { player: self.player()?, frags: self.s()? },
            15 => Message::ClientData(self.client_data()?),
            16 => self.stop_sound()?,
            17 => Message::Colours { player: self.player()?, colours: self.b()? },
            18 => Message::Particle(self.particle()?),
            19 => Message::Damage { save: self.b()?, take: self.b()?, origin: self.v()? },
            20 => Message::Static(self.static_entity()?),
            22 => Message::Baseline { entity: self.entity()?, baseline: self.baseline()? },
            23 => Message::Temporary(self.temporary()?),
            24 => Message::Pause { pause: self.b()? },
            25 => Message::Signon { signon: self.b()? },
            26 => Message::CenterPrint { text: self.t()? },
            27 => Message::Killed,
            28 => Message::Secret,
            29 => Message::StaticSound(self.static_sound()?),
            30 => Message::Intermission,
            31 => Message::Finale { text: self.t()? },
            32 => Message::CdTrack { from: self.b()?, to: self.b()? },
            33 => Message::SellScreen,
            34 => Message::CutScene { text: self.t()? },
            128..=255 => Message::Update(self.update(number)?),
            0 | 21 | 35..=127 => return Err(UNKNOWN),
        })
    }

    /// The word that sound and stopsound split: channel, entity.
    fn channel_and_entity(&mut self) -> Field<(u8, u16)> {
        let word = self.s()? as u16;
        let entity = word >> 3;
        check(entity <= MAX_ENTITY, RANGE)?;
        Ok(((word & 7) as u8, entity))
    }

    fn sound(&mut self) -> Field<SentSound> {
        let mask = self.b()?;
        check(mask & 0b1111_1100 == 0, RESERVED)?;
        let volume = self.if_sent(mask & 1 != 0, Self::b)?;
        let attenuation = self.if_sent(mask & 2 != 0, Self::b)?;
        let (channel, entity) = self.channel_and_entity()?;
        let (sound, origin) = (self.b()?, self.v()?);
        Ok(SentSound { mask, volume, attenuation, channel, entity, sound, origin })
    }

    fn stop_sound(&mut self) -> Field<AsSent> {
        let (channel, entity) = self.channel_and_entity()?;
        Ok(Message::StopSound { channel, entity })
    }

    fn time(&mut self) -> Field<u32> {
        let bits = u32::from_le_bytes(self.take()?);
        check(self.scene.time_allowed(bits), TIME)?;
        Ok(bits)
    }

    fn server_info(&mut self) -> Field<ServerInfo<Place>> {
        let protocol = self.protocol()?;
        let limit = self.b()?;
        check((1..=PLAYERS as u8).contains(&limit), RANGE)?;
        let (game, map) = (self.b()?, self.t()?);
        let at = self.at;
        self.names()?;
        self.names()?;
        let names = Place { at, len: self.at - at };
        Ok(ServerInfo { protocol, limit, game, map, names })
    }

    /// One list of names up to an empty one. A 256th name is read whole first.
    fn names(&mut self) -> Field<()> {
        for count in 0.. {
            if self.t()?.len == 0 {
                break;
            }
            check(count < NAMES, RANGE)?;
        }
        Ok(())
    }

    fn client_data(&mut self) -> Field<SentClientData> {
        let mask = self.s()? as u16;
        check(mask & (1 << 8 | 1 << 15) == 0, RESERVED)?;
        let bit = |n: usize| mask & (1 << n) != 0;
        let mut fields = ClientData {
            view_height: self.if_sent(bit(0), Self::c)?,
            pitch: self.if_sent(bit(1), Self::c)?,
            ..ClientData::default()
        };
        for axis in 0..3 {
            fields.punch[axis] = self.if_sent(bit(2 + axis), Self::c)?;
            fields.velocity[axis] = self.if_sent(bit(5 + axis), Self::c)?;
        }
        fields.items = self.l()?;
        fields.ground = bit(10);
        fields.water = bit(11);
        fields.weapon_frame = self.if_sent(bit(12), Self::b)?;
        fields.armour = self.if_sent(bit(13), Self::b)?;
        fields.weapon_model = self.if_sent(bit(14), Self::b)?;
        fields.health = self.s()?;
        fields.ammo = self.b()?;
        fields.counts = self.take()?;
        fields.weapon = self.b()?;
        Ok(SentClientData { mask, fields })
    }

    fn particle(&mut self) -> Field<Particle> {
        Ok(Particle {
            origin: self.v()?,
            velocity: self.ccc()?,
            count: self.b()?,
            colour: self.b()?,
        })
    }

    fn static_entity(&mut self) -> Field<Baseline> {
        check(self.scene.statics < STATICS, RANGE)?;
        self.baseline()
    }

    fn baseline(&mut self) -> Field<Baseline> {
        let [model, frame, colormap, skin] = self.take()?;
        let mut baseline = Baseline { model, frame, colormap, skin, ..Baseline::default() };
        for axis in 0..3 {
            baseline.origin[axis] = self.s()?;
            baseline.angles[axis] = self.c()?;
        }
        Ok(baseline)
    }

    fn temporary(&mut self) -> Field<Temporary> {
        let kind = self.b()?;
        match kind {
            0..=4 | 7 | 8 | 10 | 11 => Ok(Temporary::Point { kind, origin: self.v()? }),
            5 | 6 | 9 | 13 => {
                let (entity, start, end) = (self.entity()?, self.v()?, self.v()?);
                Ok(Temporary::Line { kind, entity, start, end })
            }
            12 => {
                let (origin, first_colour, colour_count) = (self.v()?, self.b()?, self.b()?);
                Ok(Temporary::Explosion2 { origin, first_colour, colour_count })
            }
            14.. => Err(RANGE),
        }
    }

    fn static_sound(&mut self) -> Field<StaticSound> {
        Ok(StaticSound {
            origin: self.v()?,
            sound: self.b()?,
            volume: self.b()?,
            attenuation: self.b()?,
        })
    }

    fn update(&mut self, number: u8) -> Field<SentUpdate> {
        let low = number & 0x7F;
        let high = self.if_sent(low & 1 != 0, Self::b)?;
        check(high & 0x80 == 0, RESERVED)?;
        let mask = u16::from_le_bytes([low, high]);
        let bit = |n: u8| mask & (1 << n) != 0;
        let entity = if bit(14) { self.entity()? } else { self.b()?.into() };
        let model = self.if_sent(bit(10), Self::b)?;
        let frame = self.if_sent(bit(6), Self::b)?;
        let colormap = self.if_sent(bit(11), Self::b)?;
        let skin = self.if_sent(bit(12), Self::b)?;
        let effects = self.if_sent(bit(13), Self::b)?;
        let (mut origin, mut angles) = ([0; 3], [0; 3]);
        for (axis, (place, angle)) in [(1, 8), (2, 4), (3, 9)].into_iter().enumerate() {
            origin[axis] = self.if_sent(bit(place), Self::s)?;
            angles[axis] = self.if_sent(bit(angle), Self::c)?;
        }
        let bit5 = bit(5);
        let fields = Record { model, frame, colormap, skin, effects, origin, angles, bit5 };
        Ok(SentUpdate { mask, entity, fields })
    }
}

/// Fills in what a message read in this scene left out.
fn fill(scene: &Scene, sent: &AsSent, bytes: &[u8]) -> FilledIn {
    sent.map(
        |place| place.of(bytes).map(<[u8]>::to_vec),
        fill_sound,
        fill_client_data,
        |update| fill_update(scene, update),
    )
    .expect("a message just read has its strings in the bytes read")
}

fn fill_sound(sent: &SentSound) -> Sound {
    Sound {
        volume: if sent.mask & 1 != 0 { sent.volume } else { 255 },
        attenuation: if sent.mask & 2 != 0 { sent.attenuation } else { 64 },
        channel: sent.channel,
        entity: sent.entity,
        sound: sent.sound,
        origin: sent.origin,
    }
}

/// Of clientdata's defaults only the view height's is not 0.
fn fill_client_data(sent: &SentClientData) -> ClientData {
    let view_height = if sent.mask & 1 != 0 { sent.fields.view_height } else { 22 };
    ClientData { view_height, ..sent.fields }
}

/// What is not sent comes from the baseline, never from the record before.
fn fill_update(scene: &Scene, sent: &SentUpdate) -> Update {
    let base = Record::from(scene.baselines[sent.entity as usize]);
    let bit = |n: u8| sent.mask & (1 << n) != 0;
    let b = |n: u8, sent: u8, base: u8| if bit(n) { sent } else { base };
    let s = |n: u8, sent: i16, base: i16| if bit(n) { sent } else { base };
    let c = |n: u8, sent: i8, base: i8| if bit(n) { sent } else { base };
    let f = &sent.fields;
    let record = Record {
        model: b(10, f.model, base.model),
        frame: b(6, f.frame, base.frame),
        colormap: b(11, f.colormap, base.colormap),
        skin: b(12, f.skin, base.skin),
        effects: b(13, f.effects, base.effects),
        origin: [
            s(1, f.origin[0], base.origin[0]),
            s(2, f.origin[1], base.origin[1]),
            s(3, f.origin[2], base.origin[2]),
        ],
        angles: [
            c(8, f.angles[0], base.angles[0]),
            c(4, f.angles[1], base.angles[1]),
            c(9, f.angles[2], base.angles[2]),
        ],
        bit5: f.bit5,
    };
    Update { entity: sent.entity, record }
}
