//! The generated inputs have teeth: together they reach every message, every
//! mask bit, every refusal of a whole reading and every boundary of document 01.

use second::gen::words::{self, Question};
use second::message::*;
use second::read::{read_block, read_recording, Attempt, Step, BLOCK_HEAD};
use second::scene::{Baseline, Scene};
use second::{gen, given};
use std::cmp::Ordering;
use std::collections::{BTreeMap, BTreeSet};

type Facts = BTreeSet<String>;

fn note(facts: &mut Facts, fact: impl Into<String>) {
    facts.insert(fact.into());
}

fn bits(facts: &mut Facts, what: &str, mask: u16) {
    for bit in 0..16 {
        note(facts, format!("{what} bit {bit} {}", mask >> bit & 1));
    }
}

/// What an accepted message shows.
fn note_message(facts: &mut Facts, step: &Step, before: &Scene) {
    let number = step.number.min(128);
    note(facts, format!("message {number}"));
    match &step.sent {
        Message::Sound(sound) => {
            bits(facts, "sound", sound.mask.into());
            note(facts, format!("sound of entity {} channel {}", sound.entity, sound.channel));
        }
        Message::ClientData(client) => bits(facts, "clientdata", client.mask),
        Message::Update(update) => {
            bits(facts, "update", update.mask);
            let wide = update.mask >> 14 & 1;
            note(facts, format!("update of entity {} width {}", update.entity, 1 + wide));
        }
        Message::View { entity } => note(facts, format!("view of entity {entity}")),
        Message::Baseline { entity, .. } => note(facts, format!("baseline of entity {entity}")),
        Message::StopSound { channel, entity } => {
            note(facts, format!("stopsound of entity {entity} channel {channel}"))
        }
        Message::Stat { index, .. } => note(facts, format!("stat {index}")),
        Message::Style { style, .. } => note(facts, format!("style {style}")),
        Message::Frags { player, .. } | Message::Colours { player, .. } => {
            note(facts, format!("player {player} of {}", before.limit))
        }
        Message::Static(_) => note(facts, format!("static after {}", before.statics)),
        Message::Temporary(temporary) => note_temporary(facts, temporary),
        Message::Time { bits } => note_time(facts, *bits, before),
        Message::ServerInfo(info) => {
            note(facts, format!("limit {} after {}", info.limit, before.limit))
        }
        _ => {}
    }
    note_strings(facts, &step.filled, number);
}

fn note_temporary(facts: &mut Facts, temporary: &Temporary) {
    match temporary {
        Temporary::Point { kind, .. } => note(facts, format!("temporary {kind}")),
        Temporary::Line { kind, entity, .. } => {
            note(facts, format!("temporary {kind}"));
            note(facts, format!("line {kind} of entity {entity}"));
        }
        Temporary::Explosion2 { first_colour, colour_count, .. } => {
            note(facts, "temporary 12");
            note(facts, format!("explosion2 of colours {first_colour} {colour_count}"));
        }
    }
}

fn note_time(facts: &mut Facts, bits: u32, before: &Scene) {
    match before.time {
        None => note(facts, "first time"),
        Some(time) if time == bits => note(facts, "time equal"),
        Some(_) => note(facts, "time higher"),
    }
}

fn note_strings(facts: &mut Facts, message: &FilledIn, number: u8) {
    match message {
        Message::Print { text }
        | Message::StuffText { text }
        | Message::CenterPrint { text }
        | Message::Finale { text }
        | Message::CutScene { text }
        | Message::Style { text, .. }
        | Message::Name { text, .. } => {
            note(facts, format!("message {number} string of {}", text.len()))
        }
        Message::ServerInfo(info) => {
            note(facts, format!("map of {}", info.map.len()));
            let [models, sounds] = name_counts(&info.names);
            note(facts, format!("{models} models"));
            note(facts, format!("{sounds} sounds"));
        }
        _ => {}
    }
}

/// What an accepted message shows of the tables of entities. `cleared` are those
/// whose baseline a serverinfo took away.
fn note_tables(facts: &mut Facts, step: &Step, before: &Scene, cleared: &mut BTreeSet<u16>) {
    let has_baseline = |entity: &u16| before.baselines[usize::from(*entity)] != Baseline::default();
    match &step.filled {
        Message::Update(Update { entity, .. }) if has_baseline(entity) => {
            note(facts, format!("baseline of entity {entity} fills an update"))
        }
        Message::Update(Update { entity, .. }) if cleared.contains(entity) => {
            note(facts, format!("cleared baseline of entity {entity} fills an update"))
        }
        Message::Baseline { entity, .. } => {
            cleared.remove(entity);
        }
        Message::Time { .. } => {
            for entity in GOOD.into_iter().filter(|entity| before.present[usize::from(*entity)]) {
                note(facts, format!("mark of entity {entity} taken away by time"));
            }
        }
        Message::ServerInfo(_) => cleared.extend(GOOD.into_iter().filter(has_baseline)),
        _ => {}
    }
}

/// What an accepted message does to the number of present marks. `widths` are those
/// that each entity was updated in since it was marked.
fn note_count(facts: &mut Facts, step: &Step, [before, after]: [&Scene; 2], widths: &mut Widths) {
    let (count, number) = (before.present_count, step.number.min(128));
    note(facts, format!("present {}", after.present_count));
    match &step.sent {
        Message::Update(update) => {
            let width = 1 + (update.mask >> 14 & 1) as usize;
            let marked = before.present[usize::from(update.entity)];
            let others = widths.entry(update.entity).or_default();
            note(facts, format!("width {width} of an entity marked in {others:?}"));
            note(facts, format!("update of an entity, marked: {marked}"));
            others.insert(width);
        }
        Message::Time { .. } | Message::ServerInfo(_) => {
            note(facts, format!("message {number} clears {count} marks"));
            note(facts, format!("message {number} clears marks: {}", count > 0));
            widths.clear();
        }
        _ => note(facts, format!("message {number} leaves marks: {}", count > 0)),
    }
}

type Widths = BTreeMap<u16, BTreeSet<usize>>;

/// What a block that is refused in its messages had done to the number before.
fn note_undone(facts: &mut Facts, refusal: Refusal, bytes: &[u8], attempt: &Attempt) {
    let track_line = bytes.iter().position(|byte| *byte == b'\n').map_or(0, |at| at + 1);
    let block = attempt.blocks.last().map_or(track_line, |block| block.next);
    if refusal.number < 5 || refusal.place < block + BLOCK_HEAD {
        return;
    }
    let good = with_size(bytes, block, refusal.place);
    let Ok(Some((_, scene))) = read_block(&attempt.scene, &good, block) else { return };
    let undone = match scene.present_count.cmp(&attempt.scene.present_count) {
        Ordering::Equal => "none",
        Ordering::Greater => "more",
        Ordering::Less => "fewer",
    };
    note(facts, format!("refused {} behind {undone} marks in its block", refusal.number));
}

/// Whether no two are alike.
fn all_differ<T: PartialEq>(of: &[T]) -> bool {
    of.iter().enumerate().all(|(i, one)| !of[..i].contains(one))
}

/// The names in each of serverinfo's lists.
fn name_counts(names: &[u8]) -> [usize; 2] {
    let mut counts = [0, 0];
    let mut list = 0;
    for name in names.split(|byte| *byte == 0) {
        match name {
            [] if list == 1 => break,
            [] => list = 1,
            _ => counts[list] += 1,
        }
    }
    counts
}

/// What a refused recording shows.
fn note_refusal(facts: &mut Facts, refusal: Refusal, bytes: &[u8], attempt: &Attempt) {
    let Refusal { number, place } = refusal;
    note(facts, format!("refusal {number}"));
    let at = bytes.get(place..).unwrap_or_default();
    if let Some(fact) = refused_entity(number, at) {
        note(facts, fact);
    }
    match (number, at) {
        (2, _) if at.len() < 16 => note(facts, "block head short"),
        (2, _) => note(facts, "block body short"),
        (3, [0x41, 0x1F, 0, 0, ..]) => note(facts, "size 8001 refused"),
        (7, _) if is_2047_letters(at) => {
            note(facts, format!("message {} string of 2047 refused", at[0]))
        }
        (8, [what @ (6 | 15), mask, ..]) => note(facts, format!("message {what} mask {mask:x}")),
        (8, [128..=255, ..]) => note(facts, "update bit 15 refused"),
        (9, [3, 32, ..]) => note(facts, "stat 32 refused"),
        (9, [12, 64, ..]) => note(facts, "style 64 refused"),
        (9, [20, ..]) => note(facts, "129th static refused"),
        // A boundary case ends where its message is cut.
        (5 | 9, [23, kind, ..]) => {
            note(facts, format!("temporary {kind} of {} bytes refused {number}", at.len()))
        }
        (9, [11, 15, 0, 0, 0, limit, ..]) => note(facts, format!("limit {limit} refused")),
        (9, [13 | 14 | 17, player, ..]) => note_player(facts, *player, place, bytes),
        (10, [7, ..]) => note_refused_time(facts, at),
        (11, _) => note_after_end(facts, place, attempt),
        _ => {}
    }
}

/// What a refused message with an entity of two bytes shows: the entity, and where
/// it is cut.
fn refused_entity(number: u8, at: &[u8]) -> Option<String> {
    let (what, place) = match at {
        [5, ..] => ("view".into(), 1),
        [6, mask @ ..=3, ..] => ("sound".into(), 2 + mask.count_ones() as usize),
        [16, ..] => ("stopsound".into(), 1),
        [22, ..] => ("baseline".into(), 1),
        [23, kind, ..] if LINES.contains(kind) => (format!("line {kind}"), 2),
        [128..=255, high, ..] if at[0] & 1 == 1 && high & 0xC0 == 0x40 => ("update".into(), 2),
        _ => return None,
    };
    let [low, high, rest @ ..] = at.get(place..)? else {
        return (at.len() == place + 1)
            .then(|| format!("{what} of half an entity refused {number}"));
    };
    let word = u16::from_le_bytes([*low, *high]);
    let entity = match at[0] {
        6 | 16 => format!("{} channel {}", word >> 3, word & 7),
        _ => word.to_string(),
    };
    let cut = if rest.is_empty() { ", cut behind it" } else { "" };
    Some(format!("{what} of entity {entity} refused {number}{cut}"))
}

/// Whether a message's first string has 2,047 letters and then its zero.
fn is_2047_letters(message: &[u8]) -> bool {
    let start = match message[0] {
        11 => 7,
        12 | 13 => 2,
        _ => 1,
    };
    let letters = message[start..].iter().take_while(|byte| !matches!(byte, 0 | 0xFF)).count();
    letters == 2047 && message.get(start + 2047) == Some(&0)
}

/// A player refused: beside which limit. The scene before is read again.
fn note_player(facts: &mut Facts, player: u8, place: usize, bytes: &[u8]) {
    let attempt = read_recording(bytes);
    let block = attempt.blocks.last().map_or(2, |block| block.next);
    let scene = read_block(&attempt.scene, &with_size(bytes, block, place), block);
    if let Ok(Some((_, scene))) = scene {
        note(facts, format!("player {player} of {} refused", scene.limit));
    }
}

/// The recording up to `place`, its last block ending there.
fn with_size(bytes: &[u8], block: usize, place: usize) -> Vec<u8> {
    let mut cut = bytes[..place].to_vec();
    let size = (place - block - 16) as u32;
    cut[block..block + 4].copy_from_slice(&size.to_le_bytes());
    cut
}

fn note_refused_time(facts: &mut Facts, at: &[u8]) {
    let bits = u32::from_le_bytes(at[1..5].try_into().unwrap());
    let kind = match bits {
        0x8000_0000 => "minus zero",
        0x7F80_0000 => "infinite",
        0x7F80_0001..=0x7FFF_FFFF => "NaN",
        0x8000_0001.. => "below zero",
        _ => "lower",
    };
    note(facts, format!("time {kind} refused"));
}

fn note_after_end(facts: &mut Facts, place: usize, attempt: &Attempt) {
    let at_block = attempt.blocks.last().is_some_and(|block| block.next == place);
    note(facts, if at_block { "byte after an ended block" } else { "byte after a disconnect" });
}

fn note_input(facts: &mut Facts, bytes: &[u8]) {
    let attempt = read_recording(bytes);
    for block in &attempt.blocks {
        note(facts, format!("size {}", block.next - block.place - 16));
    }
    let mut scene = Scene::start();
    let (mut infos, mut cleared, mut widths) = (0, BTreeSet::new(), Widths::new());
    for step in attempt.blocks.iter().flat_map(|block| &block.messages) {
        note_message(facts, step, &scene);
        note_tables(facts, step, &scene, &mut cleared);
        let before = scene.clone();
        scene.apply(&step.filled);
        note_count(facts, step, [&before, &scene], &mut widths);
        infos += usize::from(step.number == 11);
    }
    match attempt.refusal {
        Some(refusal) => {
            note_refusal(facts, refusal, bytes, &attempt);
            note_undone(facts, refusal, bytes, &attempt);
        }
        None => {
            note(facts, format!("accepted, ended {}", scene.ended));
            note(facts, format!("accepted, {} serverinfos", infos.min(3)));
            note(facts, format!("accepted, {} blocks", attempt.blocks.len().min(3)));
            note(facts, format!("baselines all differ: {}", all_differ(&scene.baselines)));
            note(facts, format!("records all differ: {}", all_differ(&scene.records)));
            note(facts, format!("all present: {}", scene.present.iter().all(|mark| *mark)));
        }
    }
    if bytes.is_empty() {
        note(facts, "empty input");
    }
}

/// All that must be among the facts.
fn required() -> Vec<String> {
    let mut all = Vec::new();
    let mut need = |fact: String| all.push(fact);
    (1..=34).filter(|n| *n != 21).chain([128]).for_each(|n| need(format!("message {n}")));
    (1..=11).for_each(|n| need(format!("refusal {n}")));
    for on in 0..2 {
        (0..2).for_each(|bit| need(format!("sound bit {bit} {on}")));
        (0..15).filter(|b| *b != 8).for_each(|bit| need(format!("clientdata bit {bit} {on}")));
        (0..15).filter(|b| *b != 7).for_each(|bit| need(format!("update bit {bit} {on}")));
    }
    [0, 1, 8000].iter().for_each(|size| need(format!("size {size}")));
    for message in [8, 9, 12, 13, 26, 31, 34] {
        for len in [0, 2046] {
            need(format!("message {message} string of {len}"));
        }
        need(format!("message {message} string of 2047 refused"));
    }
    for count in [0, 254, 255] {
        need(format!("{count} models"));
        need(format!("{count} sounds"));
    }
    required_entities().into_iter().for_each(&mut need);
    (2..8).for_each(|bit| need(format!("message 6 mask {:x}", 1 << bit)));
    (0..=13).for_each(|kind| need(format!("temporary {kind}")));
    for (kind, length, number) in [(11, 8, 5), (12, 10, 5), (13, 16, 5), (14, 16, 9), (15, 16, 9)] {
        for len in 2..length {
            need(format!("temporary {kind} of {len} bytes refused {number}"));
        }
    }
    for (player, limit) in [(0, 1), (1, 2), (15, 16)] {
        need(format!("player {player} of {limit}"));
        need(format!("player {limit} of {limit} refused"));
    }
    need("player 0 of 0 refused".into());
    required_counts().into_iter().for_each(&mut need);
    [1, 2, 16].iter().for_each(|limit| need(format!("limit {limit} after 0")));
    all.extend(REQUIRED.map(String::from));
    all
}

/// What must be among the facts about entities: 0 to 599 are good in each message
/// that has one, and all that its field holds beside them is refused.
fn required_entities() -> Vec<String> {
    let mut all = Vec::new();
    let mut need = |fact: String| all.push(fact);
    let lines = LINES.map(|kind| format!("line {kind}"));
    let others = ["view", "baseline", "update"].map(String::from);
    for what in others.into_iter().chain(lines) {
        let width = if what == "update" { " width 2" } else { "" };
        GOOD.iter().for_each(|entity| need(format!("{what} of entity {entity}{width}")));
        for entity in [600, 0x7FFF, 0x8000, 0xFFFF] {
            need(format!("{what} of entity {entity} refused 9"));
            need(format!("{what} of entity {entity} refused 9, cut behind it"));
        }
        if what != "view" {
            need(format!("{what} of entity 599 refused 5, cut behind it"));
        }
        need(format!("{what} of half an entity refused 5"));
    }
    for (what, channel) in [("sound", 0), ("sound", 7), ("stopsound", 0), ("stopsound", 7)] {
        GOOD.iter().for_each(|entity| need(format!("{what} of entity {entity} channel {channel}")));
        for entity in [600, 0x0FFF, 0x1000, 0x1FFF] {
            need(format!("{what} of entity {entity} channel {channel} refused 9"));
            need(format!("{what} of entity {entity} channel {channel} refused 9, cut behind it"));
        }
        need(format!("{what} of half an entity refused 5"));
    }
    need("sound of entity 599 channel 7 refused 5, cut behind it".into());
    for entity in GOOD {
        need(format!("baseline of entity {entity} fills an update"));
        need(format!("cleared baseline of entity {entity} fills an update"));
        need(format!("mark of entity {entity} taken away by time"));
    }
    all
}

/// What must be among the facts about the number of present marks.
fn required_counts() -> Vec<String> {
    let mut all = Vec::new();
    let mut need = |fact: String| all.push(fact);
    for count in [0, 1, 2, 255, 256, 257, 511, 512, 513, 599, 600] {
        need(format!("present {count}"));
    }
    for message in [7, 11] {
        for count in [0, 1, 2, 600] {
            need(format!("message {message} clears {count} marks"));
        }
    }
    let clearing = [7, 11, 21];
    for message in (1..=34).filter(|number| !clearing.contains(number)) {
        need(format!("message {message} leaves marks: true"));
    }
    for (width, before) in [(1, "{2}"), (2, "{1}"), (1, "{1}"), (2, "{2}")] {
        need(format!("width {width} of an entity marked in {before}"));
    }
    [true, false].iter().for_each(|marked| need(format!("update of an entity, marked: {marked}")));
    for number in [5, 6, 8, 9, 10, 11] {
        need(format!("refused {number} behind more marks in its block"));
    }
    ["none", "fewer"]
        .iter()
        .for_each(|what| need(format!("refused 6 behind {what} marks in its block")));
    all
}

/// Entities at the ends of what is good, of what was before request 2026-02, of one
/// byte and of nine bits.
const GOOD: [u16; 8] = [0, 255, 256, 448, 449, 511, 512, 599];

/// The types of temporary entities that are lines.
const LINES: [u8; 4] = [5, 6, 9, 13];

const REQUIRED: [&str; 42] = [
    "empty input",
    "size 8001 refused",
    "block head short",
    "block body short",
    "update of entity 0 width 1",
    "update of entity 255 width 1",
    "map of 2046",
    "message 11 string of 2047 refused",
    "baselines all differ: true",
    "records all differ: true",
    "all present: true",
    "update bit 15 refused",
    "temporary 14 of 16 bytes refused 9",
    "temporary 255 of 16 bytes refused 9",
    "explosion2 of colours 0 0",
    "explosion2 of colours 0 255",
    "explosion2 of colours 255 0",
    "limit 0 refused",
    "limit 17 refused",
    "limit 1 refused", // 256 names
    "static after 127",
    "129th static refused",
    "stat 31",
    "stat 32 refused",
    "style 63",
    "style 64 refused",
    "first time",
    "time equal",
    "time higher",
    "time lower refused",
    "time NaN refused",
    "time infinite refused",
    "time minus zero refused",
    "byte after a disconnect",
    "byte after an ended block",
    "accepted, ended true",
    "accepted, ended false",
    "accepted, 0 serverinfos",
    "accepted, 3 serverinfos",
    "accepted, 0 blocks",
    "accepted, 3 blocks",
    "time below zero refused",
];

#[test]
fn generated_inputs_reach_everything() {
    let mut facts = Facts::new();
    for index in 0..gen::boundary_count() + 3000 {
        note_input(&mut facts, &gen::generate(1, index).bytes);
    }
    let missing: Vec<String> = required().into_iter().filter(|f| !facts.contains(f)).collect();
    assert!(missing.is_empty(), "never reached: {missing:#?}");
}

/// Random inputs alone, without the boundary cases, must still reach much: the
/// refusals, the messages, the mask bits and the good entities.
#[test]
fn random_inputs_reach_every_message_refusal_mask_bit_and_entity() {
    let mut facts = Facts::new();
    for index in 0..6000 {
        note_input(&mut facts, &gen::generate(2, gen::boundary_count() + index).bytes);
    }
    let wanted = |f: &String| {
        f.starts_with("refusal ")
            || f.contains(" bit ")
            || f.contains(" of entity ")
            || f.split(' ').count() == 2 && f.starts_with("message ")
    };
    let required = required().into_iter().filter(|f| wanted(f) && !f.contains("refused"));
    let missing: Vec<String> = required.filter(|fact| !facts.contains(fact)).collect();
    assert!(missing.is_empty(), "never reached: {missing:#?}");
}

/// What the answer to a question about a changed scene shows.
fn note_question(facts: &mut Facts, question: &Question) {
    let Question { recording, words, .. } = question;
    let answer = given::answer(recording, words).unwrap_or("wrong word".into());
    let head = answer.lines().next().unwrap_or_default();
    let kind = head.split(" at ").next().unwrap_or_default();
    note(facts, if kind.starts_with("next") { "next" } else { kind });
    let value = |name: &str| words.iter().rev().find_map(|word| word.strip_prefix(name));
    let length = value("ask=").map_or(0, |digits| digits.len() / 2);
    let at: usize = value("at=").and_then(|digits| digits.parse().ok()).unwrap_or(0);
    let place = ["before", "at", "past"][usize::from(at >= length) + usize::from(at > length)];
    note(facts, format!("{kind}, {place} the end"));
    for word in words {
        let name = word.split('=').next().unwrap_or_default();
        note(facts, format!("{kind} with {name}"));
        note(facts, format!("{kind} with {word}"));
    }
    if let (true, Some(message)) = (kind.starts_with("next"), value("ask=")) {
        let before = read_recording(recording).scene.present_count.to_string();
        let before = value("present=").unwrap_or(&before);
        let line = answer.lines().find(|line| line.starts_with("present ")).unwrap_or_default();
        let number = &message[2 * at..2 * at + 2];
        let behind = line.strip_prefix("present ").unwrap_or_default();
        note(facts, format!("message {number} {} marks", count_change(before, behind)));
    }
}

fn count_change(before: &str, after: &str) -> &'static str {
    let number = |text: &str| text.parse::<u16>().expect("a number");
    match (number(before), number(after)) {
        (before, after) if before == after => "leaves the",
        (_, 0) => "clears the",
        _ => "changes the",
    }
}

/// The written-out words reach each range of a scene, from inside and from outside, at
/// each place; random ones reach every kind of answer.
#[test]
fn words_reach_everything() {
    let (mut written, mut random) = (Facts::new(), Facts::new());
    let count = words::boundary_count();
    (0..count).for_each(|index| note_question(&mut written, &words::question(1, index)));
    (count..count + 1500).for_each(|index| note_question(&mut random, &words::question(1, index)));
    let missing = |facts: &Facts, required: &[&str]| -> Vec<String> {
        let required = required.iter().map(|fact| fact.to_string());
        required.filter(|fact| !facts.contains(fact)).collect()
    };
    assert_eq!(missing(&written, &OF_WORDS), [""; 0]);
    assert_eq!(missing(&written, &OF_WRITTEN_WORDS), [""; 0]);
    assert_eq!(missing(&random, &OF_WORDS), [""; 0]);
}

/// What written-out words and random ones must show, each by themselves.
const OF_WORDS: [&str; 27] = [
    "end",
    "next",
    "refused 5",
    "refused 6",
    "refused 7",
    "refused 8",
    "refused 9",
    "refused 10",
    "refused 11",
    "refused 14",
    "refused 14, before the end",
    "refused 14, at the end",
    "refused 14, past the end",
    "refused 5, past the end",
    "end, at the end",
    "refused 14 with statics",
    "refused 14 with limit",
    "refused 14 with view",
    "refused 14 with time",
    "refused 14 with present",
    "refused 14 with mark",
    "refused 14 with ended=1",
    "message 07 clears the marks",
    "message 07 leaves the marks",
    "message 01 leaves the marks",
    "message 81 leaves the marks",
    "message 81 changes the marks",
];

const OF_WRITTEN_WORDS: [&str; 22] = [
    "wrong word",
    "message 0b clears the marks",
    "refused 9 with statics=128",
    "refused 14 with statics=129",
    "refused 14 with statics=255",
    "refused 9 with limit=16",
    "refused 14 with limit=17",
    "refused 14 with view=600",
    "refused 14 with view=65535",
    "refused 10 with time=7f7fffff",
    "refused 14 with time=7f800000",
    "refused 14 with time=80000000",
    "refused 14 with time=ffffffff",
    "refused 14 with present=0",
    "refused 14 with present=1",
    "refused 14 with present=2",
    "refused 14 with present=3",
    "refused 14 with present=599",
    "refused 14 with present=601",
    "refused 14 with present=65535",
    "refused 14 with mark=0:1",
    "refused 5 with at=4294967295",
];

/// Most random words leave the scene in its ranges.
#[test]
fn random_words_mostly_leave_a_scene() {
    let (first, count) = (words::boundary_count(), 1500);
    let refused = (first..first + count).filter(|index| {
        let Question { recording, words, .. } = words::question(2, *index);
        given::answer(&recording, &words) == Ok("refused 14 at 0\n".into())
    });
    let refused = refused.count();
    assert!((count / 6..count / 3).contains(&refused), "{refused} of {count} are no scene");
}
