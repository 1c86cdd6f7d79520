//! Cases, a line each: what single calls answer, in the form of the proved
//! program that reads the same lines (`crates/run_cases/src/main.rt` has the letters).

use crate::message::*;
use crate::read::{read_block, read_message, read_track, Block, Step, NO_SCENE};
use crate::scene::{Player, Scene, ENTITIES, PLAYERS};
use crate::text::{baseline_fields, record_fields, Fields};
use crate::write::{normal_message, write_block, write_message, write_to_room};
use std::fmt::Write;

/// Player lines that can be lent: one more than a scene has.
const LINES: usize = PLAYERS + 1;
/// What room holds before it is lent.
const EMPTY: u8 = 0xEE;

/// The lines as they are, each with its answer behind it.
pub fn answers(script: &str) -> String {
    let mut state =
        State { scene: Scene::start(), lines: [Player::default(); LINES], out: String::new() };
    for line in script.lines() {
        let _ = writeln!(state.out, "{line}");
        let letter = line.chars().next().unwrap_or('#');
        match &hex(line.get(1..).unwrap_or_default())[..] {
            [place, place_low, len, len_low, packed @ ..] if letter.is_ascii_uppercase() => {
                let (place, len) = ([*place, *place_low], [*len, *len_low]);
                let (place, len) = (u16::from_be_bytes(place), u16::from_be_bytes(len));
                let bytes = unpacked(packed);
                state.ask(letter.to_ascii_lowercase(), place.into(), len.into(), &bytes);
            }
            [place, len, bytes @ ..] if letter.is_ascii_lowercase() => {
                state.ask(letter, usize::from(*place), usize::from(*len), bytes);
            }
            _ => {}
        }
    }
    state.out
}

/// Runs, one behind the other: a length (two bytes), how many bytes repeat, and these.
fn unpacked(packed: &[u8]) -> Vec<u8> {
    let [high, low, size, rest @ ..] = packed else { return Vec::new() };
    let (run, rest) = rest.split_at(usize::from(*size).min(rest.len()));
    let length = usize::from(u16::from_be_bytes([*high, *low]));
    run.iter().copied().cycle().take(length).chain(unpacked(rest)).collect()
}

/// Two digits are a byte; what is no digit is passed.
fn hex(text: &str) -> Vec<u8> {
    let digits: Vec<u8> = text
        .bytes()
        .filter(|b| b.is_ascii_digit() || (b'a'..=b'f').contains(b))
        .map(|b| (b as char).to_digit(16).expect("a digit") as u8)
        .collect();
    digits.chunks_exact(2).map(|pair| pair[0] * 16 + pair[1]).collect()
}

struct State {
    scene: Scene,
    lines: [Player; LINES],
    out: String,
}

impl State {
    fn ask(&mut self, letter: char, place: usize, len: usize, bytes: &[u8]) {
        match letter {
            's' => self.scene = self.all(bytes, &Scene::start()),
            'o' => self.scene.statics = 129,
            'c' => self.set_count(bytes),
            'm' => self.message(bytes, place, len),
            'n' => self.normal_message(bytes, place, len),
            'p' => self.write(bytes, place, len),
            'w' => self.walk(bytes),
            'k' => self.normal_block(bytes, place, len),
            'b' => self.normal_blocks(bytes, place, len),
            'a' => self.recording(bytes),
            'h' => self.track(bytes),
            'd' => self.block(bytes, place),
            'g' => self.blocks(bytes, place),
            'e' => self.entity(bytes),
            'r' => self.normal_recording(bytes, len),
            't' => self.normal_track(bytes, len),
            'i' => self.set_lines(bytes),
            'l' => self.lend(bytes, place, len),
            _ => {}
        }
    }

    fn say(&mut self, text: impl std::fmt::Display) {
        let _ = writeln!(self.out, "  {text}");
    }

    fn show(&mut self, scene: &Scene) {
        self.out.push_str(&scene_lines(scene));
    }

    /// All messages of some bytes; a refusal leaves the scene given, and no count.
    fn all(&mut self, bytes: &[u8], given: &Scene) -> Scene {
        let (mut scene, mut at, mut messages) = (given.clone(), 0, 0);
        let mut refusal = None;
        loop {
            match read_message(&scene, bytes, at) {
                Ok(None) => break,
                Ok(Some(step)) => {
                    scene.apply(&step.filled);
                    at = step.next;
                    messages += 1;
                }
                Err(refused) => {
                    (scene, messages, refusal) = (given.clone(), 0, Some(refused));
                    break;
                }
            }
        }
        let (number, place) = refusal.map_or((0, at), |r| (r.number, r.place));
        self.say(format!("all messages {messages} refusal {number} place {place}"));
        self.show(&scene);
        scene
    }

    fn message(&mut self, bytes: &[u8], at: usize, len: usize) {
        let answer = read_message(&self.scene, bytes, at);
        self.out.push_str(&answer_lines(&answer));
        match answer {
            Ok(Some(step)) => {
                let mut after = self.scene.clone();
                after.apply(&step.filled);
                self.put(&step.sent, bytes, len);
                self.scene = after;
            }
            _ => self.show(&self.scene.clone()),
        }
    }

    /// A stat or a print of two given numbers, a temporary entity of four, or a nop.
    fn write(&mut self, bytes: &[u8], kind: usize, len: usize) {
        let number = |i: usize| bytes.get(i).copied().unwrap_or_default();
        let sent = match kind {
            3 => Message::Stat { index: number(0), value: number(1).into() },
            8 => Message::Print { text: Place { at: number(0).into(), len: number(1).into() } },
            23 => Message::Temporary(temporary([0, 1, 2, 3].map(number))),
            _ => Message::Nop,
        };
        self.put(&sent, bytes, len);
    }

    fn put(&mut self, sent: &AsSent, text: &[u8], len: usize) {
        let mut room = vec![EMPTY; len];
        let written = write_message(&self.scene, sent, text)
            .and_then(|bytes| write_to_room(&bytes, &mut room).map(|_| bytes));
        if let Ok(bytes) = &written {
            let step = read_message(&self.scene, bytes, 0);
            self.scene.apply(&step.expect("written").expect("a message").filled);
        }
        self.in_room(written.map(|bytes| format!("written {}", bytes.len())), &room);
    }

    /// What was answered with the room, and the scene.
    fn in_room(&mut self, answer: Result<String, Refusal>, room: &[u8]) {
        self.room_line(answer, room);
        self.show(&self.scene.clone());
    }

    fn room_line(&mut self, answer: Result<String, Refusal>, room: &[u8]) {
        let mut line = answer.unwrap_or_else(|refusal| refusal.to_string()) + ": ";
        for byte in room {
            let _ = write!(line, "{byte:02x}");
        }
        self.say(line);
    }

    /// What was answered, and the scene.
    fn told(&mut self, answer: Result<String, Refusal>) {
        self.say(answer.unwrap_or_else(|refusal| refusal.to_string()));
        self.show(&self.scene.clone());
    }

    /// A whole recording; a refusal leaves the scene at the start.
    fn recording(&mut self, bytes: &[u8]) {
        let read = crate::read::read_recording(bytes);
        let answer = match (read.refusal, read.track) {
            (None, Some(track)) => {
                let (blocks, messages) = (read.blocks.len(), read.messages());
                self.scene = read.scene;
                Ok(format!("track {track} blocks {blocks} messages {messages}"))
            }
            (refusal, _) => {
                self.scene = Scene::start();
                Err(refusal.expect("no track line"))
            }
        };
        self.told(answer);
    }

    fn track(&mut self, bytes: &[u8]) {
        let answer = read_track(bytes).map(|(track, next)| format!("track {track} next {next}"));
        self.say(answer.unwrap_or_else(|refusal| refusal.to_string()));
    }

    fn block(&mut self, bytes: &[u8], at: usize) {
        let answer = read_block(&self.scene, bytes, at).map(|found| {
            let Some((block, after)) = found else { return "end".into() };
            self.scene = after;
            let [a, b, c] = block.angles;
            let start = block.messages.first().map_or(block.next, |step| step.place);
            let counts = format!("messages {} next {}", block.messages.len(), block.next);
            format!("angles {a:08x} {b:08x} {c:08x} start {start} {counts}")
        });
        self.told(answer);
    }

    /// As many blocks as can be read, and the refusal that is met behind them.
    fn blocks(&mut self, bytes: &[u8], place: usize) {
        if !self.scene.in_ranges() || place > bytes.len() {
            let refusal = read_block(&self.scene, bytes, place).expect_err("refused");
            return self.told(Err(refusal));
        }
        let (mut at, mut blocks, mut messages) = (place, 0, 0);
        let Refusal { number, place } = loop {
            match read_block(&self.scene, bytes, at) {
                Ok(None) => break Refusal { number: 0, place: at },
                Err(refusal) => break refusal,
                Ok(Some((block, after))) => {
                    at = block.next;
                    blocks += 1;
                    messages += block.messages.len();
                    self.scene = after;
                }
            }
        };
        let read = format!("blocks {blocks} messages {messages} next {at}");
        self.told(Ok(format!("{read} refusal {number} place {place}")));
    }

    /// The baseline and the record of an entity, by its number in two bytes.
    fn entity(&mut self, bytes: &[u8]) {
        let [low, high, ..] = bytes else { return };
        let i = usize::from(u16::from_le_bytes([*low, *high]));
        if i < ENTITIES {
            let (baseline, record) = (self.scene.baselines[i], self.scene.records[i]);
            self.say(format!("baseline {}", baseline_fields(&baseline)));
            let present = u8::from(self.scene.present[i]);
            self.say(format!("record present={present} {}", record_fields(&record)));
        }
    }

    /// The number of present marks, in two bytes, whatever the marks are.
    fn set_count(&mut self, bytes: &[u8]) {
        let [low, high, ..] = bytes else { return };
        self.scene.present_count = u16::from_le_bytes([*low, *high]);
    }

    fn normal_message(&mut self, bytes: &[u8], at: usize, len: usize) {
        let found = read_message(&self.scene, bytes, at).map(|step| {
            step.map(|step| {
                let mut after = self.scene.clone();
                after.apply(&step.filled);
                (normal_message(&self.scene, &step.filled), step.next, after)
            })
        });
        self.put_normal(found, len);
    }

    fn normal_block(&mut self, bytes: &[u8], at: usize, len: usize) {
        let found = read_block(&self.scene, bytes, at).map(|block| {
            block.map(|(block, after)| (normal_block(&self.scene, &block), block.next, after))
        });
        self.put_normal(found, len);
    }

    fn put_normal(&mut self, found: Result<Option<(Vec<u8>, usize, Scene)>, Refusal>, len: usize) {
        let mut room = vec![EMPTY; len];
        let answer = found.and_then(|found| match found {
            None => Ok("end".into()),
            Some((form, next, after)) => {
                write_to_room(&form, &mut room)?;
                self.scene = after;
                Ok(format!("written {} next {next}", form.len()))
            }
        });
        self.in_room(answer, &room);
    }

    /// Each block is a call of its own: what those before a refused one wrote stays.
    fn normal_blocks(&mut self, bytes: &[u8], place: usize, len: usize) {
        let mut room = vec![EMPTY; len];
        if !self.scene.in_ranges() || place > bytes.len() {
            let refusal = read_block(&self.scene, bytes, place).expect_err("refused");
            return self.in_room(Err(refusal), &room);
        }
        let (mut at, mut written, mut blocks, mut messages) = (place, 0, 0, 0);
        let refusal = loop {
            let (block, after) = match read_block(&self.scene, bytes, at) {
                Ok(None) => break Refusal { number: 0, place: at },
                Err(refusal) => break refusal,
                Ok(Some(found)) => found,
            };
            match write_to_room(&normal_block(&self.scene, &block), &mut room[written..]) {
                Err(refusal) => break refusal,
                Ok(count) => written += count,
            }
            (at, blocks, messages) = (block.next, blocks + 1, messages + block.messages.len());
            self.scene = after;
        };
        let Refusal { number, place } = refusal;
        let done = format!("written {written} blocks {blocks} messages {messages} next {at}");
        self.in_room(Ok(format!("{done} refusal {number} place {place}")), &room);
    }

    fn normal_recording(&mut self, bytes: &[u8], len: usize) {
        let mut room = vec![EMPTY; len];
        let (form, refusal) = crate::write::normal(bytes);
        let written = refusal.map_or(Ok(()), Err).and_then(|()| write_to_room(&form, &mut room));
        self.scene = match written {
            Ok(_) => crate::read::read_recording(bytes).scene,
            Err(_) => Scene::start(),
        };
        self.in_room(written.map(|count| format!("written {count}")), &room);
    }

    fn normal_track(&mut self, bytes: &[u8], len: usize) {
        let mut room = vec![EMPTY; len];
        let written = read_track(bytes).and_then(|(track, next)| {
            let count = write_to_room(format!("{track}\n").as_bytes(), &mut room)?;
            Ok(format!("written {count} next {next}"))
        });
        self.room_line(written, &room);
    }

    /// Three steps of a walker over a block, and then all of its messages.
    fn walk(&mut self, bytes: &[u8]) {
        let given = self.scene.clone();
        let mut at = 0;
        for _ in 0..3 {
            let answer = read_message(&self.scene, bytes, at);
            self.out.push_str(&answer_lines(&answer));
            if let Ok(Some(step)) = answer {
                self.scene.apply(&step.filled);
                at = step.next;
            }
            self.say(format!("walker at {at}"));
        }
        self.show(&self.scene.clone());
        self.all(bytes, &given);
    }

    fn set_lines(&mut self, bytes: &[u8]) {
        let byte = |i: usize| bytes.get(i).copied().unwrap_or_default();
        let line = Player { frags: i16::from_le_bytes([byte(0), byte(1)]), colours: byte(2) };
        self.lines = [line; LINES];
        self.show_lines();
    }

    fn show_lines(&mut self) {
        let lines: String =
            self.lines.iter().map(|l| format!(" {}/{}", l.frags, l.colours)).collect();
        self.say(format!("lines{lines}"));
    }

    /// The first lines lent twice: for a change, and for the message at a place.
    fn lend(&mut self, bytes: &[u8], at: usize, count: usize) {
        let [kind, player, low, high, text @ ..] = bytes else { return };
        if count > LINES {
            return;
        }
        let change = change_lines(&mut self.lines[..count], *kind, *player, [*low, *high]);
        self.say(change.map_or_else(|refusal| refusal.to_string(), |()| "changed".into()));
        let answer = self.message_lent(text, at, count);
        self.out.push_str(&answer_lines(&answer));
        let mut after = self.scene.clone();
        if let Ok(Some(step)) = answer {
            after.apply(&step.filled);
            after.players = self.scene.players;
        }
        self.show(&after);
        self.show_lines();
    }

    /// A message in the scene that has the lent lines, which it changes.
    fn message_lent(
        &mut self,
        bytes: &[u8],
        at: usize,
        count: usize,
    ) -> Result<Option<Step>, Refusal> {
        let lent: &mut [Player; PLAYERS] =
            (&mut self.lines[..count]).try_into().map_err(|_| NO_SCENE)?;
        let mut scene = Scene { players: *lent, ..self.scene.clone() };
        let answer = read_message(&scene, bytes, at)?;
        if let Some(step) = &answer {
            scene.apply(&step.filled);
            *lent = scene.players;
        }
        Ok(answer)
    }
}

/// A temporary entity by its type, its case and a line's entity; all else is zero.
fn temporary([kind, case, low, high]: [u8; 4]) -> Temporary {
    let origin = [0; 3];
    match case {
        0 => Temporary::Point { kind, origin },
        1 => {
            let entity = u16::from_le_bytes([low, high]);
            Temporary::Line { kind, entity, start: origin, end: origin }
        }
        _ => Temporary::Explosion2 { origin, first_colour: 0, colour_count: 0 },
    }
}

/// Nothing, a player's frags or colours, or all lines cleared.
fn change_lines(lines: &mut [Player], kind: u8, player: u8, value: [u8; 2]) -> Result<(), Refusal> {
    let refuse = |number| Refusal { number, place: 0 };
    if lines.len() != PLAYERS {
        return Err(refuse(14));
    }
    match kind {
        1 => {
            let line = lines.get_mut(usize::from(player)).ok_or(refuse(9))?;
            line.frags = i16::from_le_bytes(value);
        }
        2 => lines.get_mut(usize::from(player)).ok_or(refuse(9))?.colours = value[0],
        3 => lines.fill(Player::default()),
        _ => {}
    }
    Ok(())
}

fn normal_block(scene: &Scene, block: &Block) -> Vec<u8> {
    let mut scene = scene.clone();
    let mut body = Vec::new();
    for step in &block.messages {
        body.extend(normal_message(&scene, &step.filled));
        scene.apply(&step.filled);
    }
    let mut out = Vec::new();
    write_block(&mut out, block.angles, &body);
    out
}

fn answer_lines(answer: &Result<Option<Step>, Refusal>) -> String {
    match answer {
        Err(refusal) => format!("  {refusal}\n"),
        Ok(None) => "  end\n".into(),
        Ok(Some(step)) => {
            let sent = named(&step.sent);
            let filled = named(&step.filled);
            let masked = matches!(
                step.filled,
                Message::Sound(_) | Message::ClientData(_) | Message::Update(_)
            );
            let plain = if masked { "" } else { "plain " };
            format!("  found next {}\n  sent {sent}\n  filled {plain}{filled}\n", step.next)
        }
    }
}

/// A message's kind and its fields.
fn named<T: Fields, S: Fields, C: Fields, U: Fields>(message: &Message<T, S, C, U>) -> String {
    let name = match message {
        Message::Nop => "nop",
        Message::Disconnect => "disconnect",
        Message::Stat { .. } => "stat",
        Message::Version { .. } => "version",
        Message::View { .. } => "view",
        Message::Sound(_) => "sound",
        Message::Time { .. } => "time",
        Message::Print { .. } => "print",
        Message::StuffText { .. } => "stufftext",
        Message::SetAngle { .. } => "angles",
        Message::ServerInfo(_) => "serverinfo",
        Message::Style { .. } => "style",
        Message::Name { .. } => "name",
        Message::Frags { .. } => "frags",
        Message::ClientData(_) => "clientdata",
        Message::StopSound { .. } => "stopsound",
        Message::Colours { .. } => "colours",
        Message::Particle(_) => "particle",
        Message::Damage { .. } => "damage",
        Message::Static(_) => "static",
        Message::Baseline { .. } => "baseline",
        Message::Temporary(Temporary::Point { .. }) => "point",
        Message::Temporary(Temporary::Line { .. }) => "line",
        Message::Temporary(Temporary::Explosion2 { .. }) => "explosion2",
        Message::Pause { .. } => "pause",
        Message::Signon { .. } => "signon",
        Message::CenterPrint { .. } => "centerprint",
        Message::Killed => "killed",
        Message::Secret => "secret",
        Message::StaticSound(_) => "static_sound",
        Message::Intermission => "intermission",
        Message::Finale { .. } => "finale",
        Message::CdTrack { .. } => "track",
        Message::SellScreen => "sellscreen",
        Message::CutScene { .. } => "cutscene",
        Message::Update(_) => "update",
    };
    format!("{name} {}", message.fields()).trim_end().into()
}

/// The single values, then what is not as at the start of the stats, the players
/// and the marked records.
fn scene_lines(scene: &Scene) -> String {
    let Scene { ended, limit, view, pause, statics, present_count, .. } = scene;
    let time = scene.time.map_or("none".into(), |bits| format!("{bits:08x}"));
    let mut out = format!("  scene ended={} time={time}", u8::from(*ended));
    let _ = write!(out, " limit={limit} view={view}");
    let _ = write!(out, " pause={pause} statics={statics} present={present_count}");
    for (i, stat) in scene.stats.iter().enumerate().filter(|(_, stat)| **stat != 0) {
        let _ = write!(out, " stat {i}={stat}");
    }
    for (i, line) in scene.players.iter().enumerate() {
        if *line != Player::default() {
            let _ = write!(out, " player {i} {}/{}", line.frags, line.colours);
        }
    }
    for (i, record) in scene.records.iter().enumerate().filter(|(i, _)| scene.present[*i]) {
        let _ = write!(out, "\n  record {i} {}", record_fields(record));
    }
    out + "\n"
}
