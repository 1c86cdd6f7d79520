//! The boundaries of document 01, each with the answer that it gives.
//!
//! Nothing here asks a reader: what is good and what is refused, and where, is
//! said by the way a case is made.

use super::{Expect, Input, EDGES};
use crate::message::Refusal;
use crate::scene::MAX_ENTITY;
use crate::write::write_block;

/// Where the messages of the first block begin in `one`.
const BODY: usize = 18;

pub(super) struct Cases(Vec<Input>);

pub fn cases() -> Vec<Input> {
    let mut cases = Cases(Vec::new());
    cases.tracks();
    cases.heads();
    cases.angles();
    cases.numbers();
    cases.strings();
    cases.server_infos();
    cases.name_counts();
    cases.statics();
    cases.entities();
    cases.sound_entities();
    cases.entity_tables();
    cases.players();
    cases.stats_and_styles();
    cases.temporaries();
    cases.times();
    cases.sounds();
    cases.client_data();
    cases.updates();
    cases.disconnects();
    cases.marked();
    cases.tour_cuts();
    cases.present();
    cases.0
}

impl Cases {
    fn add(&mut self, name: impl Into<String>, bytes: Vec<u8>, expect: Expect) {
        self.0.push(Input { name: name.into(), bytes, expect, present: None });
    }

    /// A case that says the number of present marks behind each whole block.
    pub(super) fn add_counted(
        &mut self,
        name: &str,
        bytes: Vec<u8>,
        expect: Expect,
        counts: Vec<u16>,
    ) {
        self.add(name, bytes, expect);
        self.0.last_mut().expect("just added").present = Some(counts);
    }

    fn accept(&mut self, name: impl Into<String>, bytes: Vec<u8>) {
        self.add(name, bytes, Expect::Accepted);
    }

    fn refuse(&mut self, name: impl Into<String>, bytes: Vec<u8>, number: u8, place: usize) {
        self.add(name, bytes, Expect::Refused(Refusal { number, place }));
    }

    /// Good messages in one block.
    fn good(&mut self, name: impl Into<String>, body: &[u8]) {
        self.accept(name, one(body));
    }

    /// Good messages, then one that is refused.
    fn bad(&mut self, name: impl Into<String>, before: &[u8], message: &[u8], number: u8) {
        let place = BODY + before.len();
        self.refuse(name, one(&[before, message].concat()), number, place);
    }
}

/// A recording of one block.
fn one(body: &[u8]) -> Vec<u8> {
    blocks(&[body])
}

pub(super) fn blocks(bodies: &[&[u8]]) -> Vec<u8> {
    let mut out = b"3\n".to_vec();
    bodies.iter().for_each(|body| write_block(&mut out, [0; 3], body));
    out
}

fn nops(count: usize) -> Vec<u8> {
    vec![1; count]
}

pub(super) fn server_info(limit: u8) -> Vec<u8> {
    vec![11, 15, 0, 0, 0, limit, 1, b'm', 0, b'a', 0, 0, b'b', 0, 0]
}

fn letters(count: usize) -> Vec<u8> {
    vec![b'x'; count]
}

fn text(count: usize) -> Vec<u8> {
    [letters(count), vec![0]].concat()
}

/// A message's first bytes and so many zeros.
fn zeros(start: &[u8], count: usize) -> Vec<u8> {
    [start, &vec![0; count]].concat()
}

pub(super) fn time(bits: u32) -> Vec<u8> {
    [&[7], &bits.to_le_bytes()[..]].concat()
}

/// Baselines, each with its entity's number for its x and for its model and frame.
fn own_baselines(entities: &[u16]) -> Vec<u8> {
    let own = |entity: &u16| {
        let [low, high] = entity.to_le_bytes();
        zeros(&[22, low, high, low, high, 7, 0, low, high], 7)
    };
    entities.iter().flat_map(own).collect()
}

/// An update in two bytes of entity that sends its baseline's x, and the same for y.
pub(super) fn own_update(entity: u16) -> Vec<u8> {
    let [low, high] = entity.to_le_bytes();
    vec![0x87, 0x40, low, high, low, high, low, high]
}

impl Cases {
    fn tracks(&mut self) {
        for line in ["0", "-0", "00", "-000", "7", "007", "-1", "010", "99", "999", "-999"] {
            self.accept(format!("track {line}, no blocks"), format!("{line}\n").into());
        }
        let wrong: [(&[u8], usize); 14] = [
            (b"", 0),
            (b"\n", 0),
            (b"-", 1),
            (b"-\n", 1),
            (b"--1\n", 1),
            (b"1", 1),
            (b"12", 2),
            (b"-123", 4),
            (b"1234\n", 3),
            (b"-1234\n", 4),
            (b" 1\n", 0),
            (b"1 \n", 1),
            (b"1\r\n", 1),
            (b"+1\n", 0),
        ];
        for (bytes, place) in wrong {
            self.refuse(format!("track line {bytes:?}"), bytes.to_vec(), 1, place);
        }
        self.refuse("digits in the next line", b"1\n2\n".to_vec(), 2, 2);
        for size in [9, 10, 13, 32] {
            self.good(format!("size {size}, a blank after the track line"), &nops(size));
        }
    }

    fn heads(&mut self) {
        for size in [0, 1, 7999, 8000] {
            self.good(format!("size {size}"), &nops(size));
        }
        self.refuse("size 8,001", one(&nops(8001)), 3, 2);
        self.refuse("size 8,001, body short", one(&nops(8001))[..100].to_vec(), 3, 2);
        self.refuse("size 8,000, body short", one(&nops(8000))[..8017].to_vec(), 2, 2);
        for left in 1..16 {
            let bytes = [one(&nops(3)), vec![0; left]].concat();
            self.refuse(format!("{left} bytes for a head"), bytes, 2, BODY + 3);
            let bytes = [one(&nops(3)), vec![0xFF; left]].concat();
            self.refuse(format!("{left} bytes FF for a head"), bytes, 2, BODY + 3);
        }
        for size in [8001u32, 0x7FFF_FFFF, 0x8000_0000, u32::MAX] {
            let mut bytes = one(&nops(3));
            bytes[2..6].copy_from_slice(&size.to_le_bytes());
            self.refuse(format!("size {size:x}"), bytes, 3, 2);
        }
        self.accept("blocks of size 0", blocks(&[&[], &[], &nops(1), &[]]));
        self.refuse("size one over", short_by_one(), 2, 2);
        let empty_then_bad = blocks(&[&[], &[1], &[1, 0]]);
        self.refuse("the third block is refused", empty_then_bad, 6, 2 + 16 + 17 + 16 + 1);
    }

    fn angles(&mut self) {
        for angle in 0..3 {
            let with = |bits: u32, size: u32| {
                let mut bytes = one(&nops(3));
                bytes[2..6].copy_from_slice(&size.to_le_bytes());
                bytes[6 + 4 * angle..10 + 4 * angle].copy_from_slice(&bits.to_le_bytes());
                bytes
            };
            for bits in [0x7F80_0000, 0xFF80_0000, 0x7FC0_0000, 0xFFFF_FFFF, 0x7F80_0001] {
                self.refuse(format!("angle {angle} {bits:x}"), with(bits, 3), 4, 2);
            }
            for bits in [0x8000_0000, 1, 0x7F7F_FFFF, 0xFF7F_FFFF, 0x3F80_0000] {
                self.accept(format!("angle {angle} {bits:x}"), with(bits, 3));
            }
            self.refuse(format!("angle {angle}, body short"), with(0x7FC0_0000, 4), 2, 2);
            self.refuse(format!("angle {angle}, size"), with(0x7FC0_0000, 8001), 3, 2);
        }
    }

    /// Each message number alone in its block, after one good message.
    fn numbers(&mut self) {
        for number in 0..=255u8 {
            let name = format!("number {number} alone");
            match number {
                1 | 2 | 27 | 28 | 30 | 33 => self.good(name, &[1, number]),
                0 | 21 | 35..=127 => self.bad(name, &[1], &[number], 6),
                _ => self.bad(name, &[1], &[number], 5),
            }
        }
        for number in [0, 21, 35, 127] {
            self.bad(format!("number {number} and more"), &[1], &zeros(&[number], 40), 6);
        }
        self.bad("a good block before", &[], &[0], 6);
        let wrap = |stat: u8, number: u8| {
            [&[3, stat][..], &i32::MAX.to_le_bytes(), &[number, number]].concat()
        };
        self.good("stat 14 wraps", &wrap(14, 27));
        self.good("stat 13 wraps", &wrap(13, 28));
    }

    fn strings(&mut self) {
        let before = server_info(16);
        let heads: [&[u8]; 8] = [&[8], &[9], &[26], &[31], &[34], &[12, 0], &[12, 63], &[13, 15]];
        for head in heads {
            let name = |what: &str| format!("message {head:?}, {what}");
            let with = |rest: &[u8]| [head, rest].concat();
            for len in [0, 1, 7, 8, 15, 16, 17, 31, 32, 33, 2045, 2046] {
                let body = [&before[..], &with(&text(len)), &[1]].concat();
                self.good(name(&format!("string of {len}")), &body);
            }
            for len in [0, 1, 7, 8, 15, 16, 17, 2045, 2046] {
                let open = with(&letters(len));
                self.bad(name(&format!("{len} bytes, no zero")), &before, &open, 5);
                let bad = with(&[letters(len), vec![0xFF, 0]].concat());
                self.bad(name(&format!("FF after {len}")), &before, &bad, 7);
            }
            self.bad(name("string of 2047"), &before, &with(&text(2047)), 7);
            self.bad(name("2047 bytes, no zero"), &before, &with(&letters(2047)), 7);
            self.bad(name("2048 bytes, no zero"), &before, &with(&letters(2048)), 7);
            let late = with(&[letters(2047), vec![0xFF]].concat());
            self.bad(name("FF after 2047"), &before, &late, 7);
            let high = with(&[0x80, 0x81, 0xFE, 1, 0x7F, 0]);
            self.good(name("every kind of letter"), &[&before[..], &high].concat());
        }
    }

    fn server_infos(&mut self) {
        for limit in [1, 2, 15, 16] {
            self.good(format!("limit {limit}"), &server_info(limit));
        }
        for limit in [0, 17, 128, 255] {
            self.bad(format!("limit {limit}"), &[1], &server_info(limit), 9);
            let start = &server_info(limit)[..6];
            self.bad(format!("limit {limit}, cut after it"), &[1], start, 9);
        }
        for number in [11, 4] {
            for (byte, value) in [(1, 14), (1, 16), (2, 1), (3, 1), (4, 1), (4, 0x80)] {
                let mut message = server_info(1);
                message[0] = number;
                message[byte] = value;
                let name = format!("message {number}, protocol byte {byte} {value}");
                self.bad(name, &[1], &message, 9);
            }
        }
        self.good("version 15", &[4, 15, 0, 0, 0]);
        let full = server_info(1);
        for len in 1..full.len() {
            self.bad(format!("serverinfo cut to {len}"), &[1], &full[..len], 5);
        }
        for (at, what) in [(7, "map"), (9, "model"), (12, "sound")] {
            for len in [2046, 2047] {
                let long = [&full[..at], &letters(len), &full[at + 1..]].concat();
                let name = format!("{what} name of {len}");
                match len {
                    2046 => self.good(name, &long),
                    _ => self.bad(name, &[1], &long, 7),
                }
            }
            let mut bad = full.clone();
            bad[at] = 0xFF;
            self.bad(format!("FF in {what} name"), &[1], &bad, 7);
        }
        let all = [&server_info(2)[..], &time(9), &[20; 14], &server_info(1), &time(1)].concat();
        self.good("several serverinfos", &[&all[..], &server_info(16)].concat());
    }

    fn name_counts(&mut self) {
        let head = [11, 15, 0, 0, 0, 1, 0, 0];
        let info = |models: usize, sounds: usize| {
            let names = [b"x\0".repeat(models), vec![0], b"yy\0".repeat(sounds), vec![0]];
            [&head[..], &names.concat()].concat()
        };
        for (models, sounds) in [(0, 0), (254, 254), (255, 0), (0, 255), (255, 255)] {
            self.good(format!("{models} models, {sounds} sounds"), &info(models, sounds));
        }
        for (models, sounds) in [(256, 0), (0, 256), (256, 256), (300, 0)] {
            let name = format!("{models} models, {sounds} sounds");
            self.bad(name, &[1], &info(models, sounds), 9);
        }
        let models = [&head[..], &b"x\0".repeat(255)].concat();
        let sounds = [&head[..], &[0], &b"x\0".repeat(255)].concat();
        for (list, before) in [("model", models), ("sound", sounds)] {
            let ends: [(&str, &[u8], u8); 5] = [
                ("cut before it", b"", 5),
                ("cut in it", b"x", 5),
                ("FF in it", b"x\xFF", 7),
                ("whole, then the end", b"x\0", 9),
                ("too long", &[b'x'; 2047], 7),
            ];
            for (what, end, number) in ends {
                let name = format!("256th {list} name: {what}");
                self.bad(name, &[1], &[&before, end].concat(), number);
            }
        }
    }

    fn statics(&mut self) {
        let one_static = zeros(&[20, 9, 8], 11);
        let many = |count: usize| one_static.repeat(count);
        self.good("128 statics", &many(128));
        self.bad("129 statics", &many(128), &one_static, 9);
        self.bad("129th static without its fields", &many(128), &[20], 9);
        self.bad("129th static, cut", &many(128), &one_static[..9], 9);
        self.bad("128th static, cut", &many(127), &one_static[..9], 5);
        let twice = [many(128), server_info(1), many(128)].concat();
        self.good("128 statics, serverinfo, 128 statics", &twice);
        self.bad("129 statics after serverinfo", &twice, &one_static, 9);
        let across = blocks(&[&many(100), &many(29)]);
        self.refuse("129 statics over two blocks", across, 9, 2 + 16 + 1400 + 16 + 28 * 14);
    }

    fn entities(&mut self) {
        // Each message with an entity of two bytes: before and after it.
        let places: [(&[u8], usize); 8] = [
            (&[5], 0),
            (&[22], 13),
            (&[23, 5], 12),
            (&[23, 6], 12),
            (&[23, 9], 12),
            (&[23, 13], 12),
            (&[0x81, 0x40], 0),
            (&[0xFF, 0x7F], 14),
        ];
        // The last two are the lowest number and -1.
        let refused = [MAX_ENTITY + 1, 0x7FFF, 0x8000, 0xFFFF];
        for (head, rest) in places {
            for entity in EDGES.into_iter().chain(refused) {
                let start = [head, &entity.to_le_bytes()].concat();
                let name = format!("message {head:?}, entity {entity}");
                self.entity(&name, entity, &start, rest);
            }
            self.half_an_entity(head);
        }
        let narrow: Vec<u8> = (0..=255).flat_map(|entity| [0x80, entity]).collect();
        self.good("update of every entity in one byte", &narrow);
    }

    fn sound_entities(&mut self) {
        // From 0x1000 on the word is negative.
        let refused = [MAX_ENTITY + 1, 0x0FFF, 0x1000, 0x1FFF];
        for (head, rest) in [(&[6, 0][..], 7), (&[6, 3, 9, 8], 7), (&[16], 0)] {
            for entity in EDGES.into_iter().chain(refused) {
                for channel in [0, 7] {
                    let word = entity << 3 | channel;
                    let start = [head, &word.to_le_bytes()].concat();
                    let name = format!("message {head:?}, entity {entity}, channel {channel}");
                    self.entity(&name, entity, &start, rest);
                }
            }
            self.half_an_entity(head);
        }
    }

    /// A message that ends behind the low byte of an entity that would be refused.
    fn half_an_entity(&mut self, head: &[u8]) {
        let start = [head, &[0xFF]].concat();
        self.bad(format!("message {head:?}, half an entity"), &[1], &start, 5);
    }

    /// A message whose `start` ends with its entity and whose `rest` is zeros: cut
    /// behind the entity and before the last byte, then whole, alone and with so much
    /// behind it that a reader may look ahead.
    fn entity(&mut self, name: &str, entity: u16, start: &[u8], rest: usize) {
        let message = zeros(start, rest);
        let good = entity <= MAX_ENTITY;
        let cuts = [start.len(), message.len() - 1].into_iter();
        for len in cuts.filter(|len| (start.len()..message.len()).contains(len)) {
            let number = if good { 5 } else { 9 };
            self.bad(format!("{name}, cut to {len}"), &[1], &message[..len], number);
        }
        let ahead = [&message[..], &nops(40)].concat();
        for (name, body) in [(name.into(), message), (format!("{name}, nops behind"), ahead)] {
            if good {
                self.good(name, &body);
            } else {
                self.bad(name, &[1], &body, 9);
            }
        }
    }

    /// Baselines, records and marks of many entities, no two alike: a table that is
    /// too short or cleared in part shows, and so does an index that is cut.
    fn entity_tables(&mut self) {
        let every: Vec<u16> = (0..=MAX_ENTITY).collect();
        for (name, entities) in [("some entities", &EDGES[..]), ("every entity", &every)] {
            let updates = |step| -> Vec<u8> {
                entities.iter().step_by(step).flat_map(|entity| own_update(*entity)).collect()
            };
            // A block has room for 500 baselines.
            let mut bodies: Vec<Vec<u8>> = entities.chunks(500).map(own_baselines).collect();
            bodies.push(updates(1));
            // A reader may keep a mark as a count of times, in one byte.
            let then: [(&str, Vec<u8>); 7] = [
                ("nothing", vec![]),
                ("time", time(1)),
                ("time and updates of every other", [time(1), updates(2)].concat()),
                ("255 times", time(1).repeat(255)),
                ("256 times", time(1).repeat(256)),
                ("serverinfo", server_info(1)),
                ("serverinfo and updates", [server_info(1), updates(1)].concat()),
            ];
            for (what, last) in then {
                bodies.push(last);
                let all: Vec<&[u8]> = bodies.iter().map(Vec::as_slice).collect();
                self.accept(format!("baselines and updates of {name}, then {what}"), blocks(&all));
                bodies.pop();
            }
        }
    }

    fn players(&mut self) {
        for limit in [0u8, 1, 2, 16] {
            let before = if limit == 0 { vec![1] } else { server_info(limit) };
            for number in [13, 14, 17] {
                let rest: &[u8] = if number == 17 { &[0xFF] } else { &[0x41, 0] };
                for player in [limit.wrapping_sub(1), limit, limit.wrapping_add(1), 255, 128] {
                    let message = [&[number, player], rest].concat();
                    let name = format!("message {number}, limit {limit}, player {player}");
                    if player < limit {
                        self.good(name, &[&before[..], &message].concat());
                    } else {
                        self.bad(format!("{name}, cut"), &before, &message[..2], 9);
                        self.bad(name, &before, &message, 9);
                    }
                }
            }
        }
        let lower = [server_info(16), vec![14, 15, 1, 0], server_info(15)].concat();
        self.bad("the limit of the last serverinfo counts", &lower, &[14, 15, 1, 0], 9);
    }

    fn stats_and_styles(&mut self) {
        self.good("stat 31", &[3, 31, 1, 2, 3, 0x84]);
        self.good("style 63", &[12, 63, b'a', 0]);
        for stat in [32, 128, 255] {
            self.bad(format!("stat {stat}"), &[1], &[3, stat, 0, 0, 0, 0], 9);
            self.bad(format!("stat {stat}, cut"), &[1], &[3, stat], 9);
        }
        for style in [64, 128, 255] {
            self.bad(format!("style {style}"), &[1], &[12, style, b'a', 0], 9);
            self.bad(format!("style {style}, FF"), &[1], &[12, style, 0xFF], 9);
        }
        self.bad("stat 31, cut", &[1], &[3, 31, 0, 0, 0], 5);
    }

    /// Each type whole, and cut behind it and before the last byte; the types
    /// around the last good one cut at every byte.
    fn temporaries(&mut self) {
        for kind in (0..=20).chain([127, 128, 255]) {
            let (length, cut) = match kind {
                0..=4 | 7 | 8 | 10 | 11 => (8, 5),
                12 => (10, 5),
                5 | 6 | 9 | 13 => (16, 5),
                _ => (16, 9),
            };
            let name = format!("temporary {kind}");
            let message = zeros(&[23, kind], length - 2);
            let every = (11..=15).contains(&kind);
            for len in (2..length).filter(|len| every || [2, length - 1].contains(len)) {
                self.bad(format!("{name}, cut to {len}"), &[1], &message[..len], cut);
            }
            match kind {
                0..=13 => self.good(name, &message),
                _ => self.bad(name, &[1], &message, 9),
            }
        }
        for colours in [[0, 255], [255, 0], [255, 255]] {
            let message = [&zeros(&[23, 12], 6), &colours[..]].concat();
            self.good(format!("temporary 12, colours {colours:?}"), &message);
        }
    }

    fn times(&mut self) {
        const LARGEST: u32 = 0x7F7F_FFFF;
        const ONE: u32 = 0x3F80_0000;
        for bits in [0, 1, 0x007F_FFFF, 0x0080_0000, ONE, LARGEST] {
            self.good(format!("first time {bits:x}"), &time(bits));
            self.good(format!("time {bits:x} twice"), &time(bits).repeat(2));
            self.good(format!("time {bits:x} up"), &[time(bits), time(LARGEST)].concat());
            let cleared = [time(bits), server_info(1), time(0)].concat();
            self.good(format!("time {bits:x}, serverinfo, 0"), &cleared);
            if bits > 0 {
                self.bad(format!("time {bits:x} down"), &time(bits), &time(bits - 1), 10);
                self.bad(format!("time {bits:x}, 0"), &time(bits), &time(0), 10);
            }
        }
        let never = [
            0x8000_0000,
            0x8000_0001,
            0xBF80_0000,
            0x7F80_0000,
            0x7F80_0001,
            0x7FC0_0000,
            u32::MAX,
        ];
        for bits in never {
            self.bad(format!("first time {bits:x}"), &[1], &time(bits), 10);
            self.bad(format!("time {bits:x} after one"), &time(ONE), &time(bits), 10);
            let cut = &time(bits)[..4];
            self.bad(format!("time {bits:x}, cut"), &[1], cut, 5);
        }
        let mut marks = vec![0x80, 5];
        for count in 0..600 {
            marks.extend(time(count));
            if count % 255 == 0 {
                marks.extend([0x80, count as u8]);
            }
        }
        self.good("600 times, an update every 255", &marks);
    }

    fn sounds(&mut self) {
        for mask in 0..=255u8 {
            let name = format!("sound mask {mask:x}");
            if mask > 3 {
                self.bad(format!("{name}, cut"), &[1], &[6, mask], 8);
                self.bad(name, &[1], &zeros(&[6, mask], 12), 8);
                continue;
            }
            let sent = mask.count_ones() as usize;
            for values in [[255, 64], [0, 0], [64, 255], [255, 0], [0, 64]] {
                let skip = if mask == 2 { 1 } else { 0 };
                let start = [&[6, mask], &values[skip..skip + sent]].concat();
                let message = zeros(&start, 9);
                self.good(format!("{name} {values:?}"), &message);
                self.bad(format!("{name}, cut"), &[1], &message[..message.len() - 1], 5);
                let far = [&start[..], &[0xFF, 0x7F]].concat();
                self.bad(format!("{name}, entity, cut"), &[1], &far, 9);
            }
        }
    }

    fn client_data(&mut self) {
        let length = |mask: u16| 12 + (mask & 0x70FF).count_ones() as usize;
        let singles = (0..16).map(|bit| 1 << bit);
        let masks = singles.chain([0, 0x7EFF, 0x0200, 0x0C00, 0xFFFF, 0x8100, 0x7CFF]);
        for mask in masks {
            let start = [&[15], &u16::to_le_bytes(mask)[..]].concat();
            let name = format!("clientdata mask {mask:04x}");
            if mask & 0x8100 != 0 {
                self.bad(format!("{name}, cut"), &[1], &start, 8);
                self.bad(name, &[1], &zeros(&start, 30), 8);
                continue;
            }
            let full = zeros(&start, length(mask));
            self.good(format!("{name}, zeros"), &full);
            let count = 1..=length(mask) as u8;
            self.good(format!("{name}, counting"), &[start, count.collect()].concat());
            self.bad(format!("{name}, cut"), &[1], &full[..full.len() - 1], 5);
        }
        self.bad("half a mask, reserved bit in the other half", &[1], &[15, 0], 5);
        self.good("view height 22 sent", &zeros(&[15, 1, 2, 22], 12));
    }

    fn updates(&mut self) {
        let baseline = [22, 5, 0, 1, 2, 3, 4, 5, 0, 6, 7, 0, 8, 9, 0, 10];
        let fields = |mask: u16| {
            let pairs = (mask & 0b1110).count_ones();
            let singles = (mask & 0b0011_1111_0101_0000).count_ones();
            (2 * pairs + singles) as usize
        };
        let singles = (1..16).map(|bit| 1u16 << bit | u16::from(bit >= 8));
        let others = [0, 1, 0x7F7F, 0x7F5F, 0x3F7F, 0xFF7F, 0x007E];
        for mask in singles.chain(others).filter(|mask| mask & 0x80 == 0) {
            let [low, high] = mask.to_le_bytes();
            let start = if mask & 1 != 0 { vec![0x80 | low, high] } else { vec![0x80 | low] };
            let name = format!("update mask {mask:04x}");
            if mask & 0x8000 != 0 {
                self.bad(format!("{name}, cut"), &baseline, &start, 8);
                self.bad(name, &baseline, &zeros(&start, 30), 8);
                continue;
            }
            let wide = mask & 0x4000 != 0;
            let entity: &[u8] = if wide { &[5, 0] } else { &[5] };
            let head = [&start, entity].concat();
            let zero = zeros(&head, fields(mask));
            let same = [&head[..], &same_as_baseline(mask)].concat();
            for (what, message) in [("zeros", &zero), ("as the baseline", &same)] {
                self.good(format!("{name}, {what}"), &[&baseline[..], message].concat());
            }
            for len in 1..zero.len() {
                self.bad(format!("{name}, cut to {len}"), &baseline, &zero[..len], 5);
            }
        }
        self.bad("no high mask byte", &[1], &[0x81], 5);
    }

    fn disconnects(&mut self) {
        self.good("disconnect at the end", &[1, 2]);
        self.good("disconnect alone", &[2]);
        for after in [0u8, 1, 2, 11, 0xFF] {
            let name = format!("disconnect, then {after}");
            self.refuse(name, one(&[1, 2, after]), 11, BODY + 2);
        }
        let ended = one(&[1, 2]);
        let end = ended.len();
        let after: [(&str, Vec<u8>); 6] = [
            ("a stray byte", vec![0]),
            ("15 bytes", vec![0xFF; 15]),
            ("an empty block", vec![0; 16]),
            ("a good block", one(&[1])[2..].to_vec()),
            ("a block of size FFFFFFFF", vec![0xFF; 16]),
            ("a block that is refused", one(&[0])[2..].to_vec()),
        ];
        for (what, bytes) in after {
            let name = format!("disconnect, then {what}");
            self.refuse(name, [&ended[..], &bytes].concat(), 11, end);
        }
        let mut head = one(&[2, 1]);
        head[8] = 0xC0;
        head[9] = 0x7F;
        self.refuse("disconnect in a block whose angle is refused", head, 4, 2);
        let serverinfo = [&[2][..], &server_info(1)].concat();
        self.refuse("disconnect, then serverinfo", one(&serverinfo), 11, BODY + 1);
    }
}

/// A size one more than the bytes there are.
fn short_by_one() -> Vec<u8> {
    let mut bytes = one(&nops(3));
    bytes[2] = 4;
    bytes
}

/// The fields that a mask sends, with the values of the baseline in `updates`.
fn same_as_baseline(mask: u16) -> Vec<u8> {
    let fields: [(u8, &[u8]); 11] = [
        (10, &[1]),
        (6, &[2]),
        (11, &[3]),
        (12, &[4]),
        (13, &[0]),
        (1, &[5, 0]),
        (8, &[6]),
        (2, &[7, 0]),
        (4, &[8]),
        (3, &[9, 0]),
        (9, &[10]),
    ];
    let sent = fields.iter().filter(|(bit, _)| mask & (1 << bit) != 0);
    sent.flat_map(|(_, bytes)| bytes.iter().copied()).collect()
}

/// The whole recording of document 01's marked cases.
pub fn marked_recording() -> Vec<u8> {
    let mut out = b"-1\n".to_vec();
    let body =
        [7, 0, 0, 0x80, 0x3F, 22, 5, 0, 3, 0, 0, 0, 0, 2, 0, 0, 0, 0, 0xC0, 0, 0, 0xC2, 5, 0, 8, 2];
    write_block(&mut out, [0; 3], &body);
    write_block(&mut out, [0; 3], &[2]);
    out
}

/// Every message once, updates and clientdata with every field, entities mostly the
/// last one.
pub fn tour() -> Vec<Vec<u8>> {
    let with_text = |head: &[u8]| [head, b"text\0"].concat();
    let last = |head: &[u8], rest| zeros(&[head, &MAX_ENTITY.to_le_bytes()].concat(), rest);
    let heard = |head: &[u8], rest| {
        let word = MAX_ENTITY << 3 | 1;
        zeros(&[head, &word.to_le_bytes()].concat(), rest)
    };
    let mut messages = vec![server_info(4), vec![1], vec![3, 31, 1, 0, 0, 0], vec![4, 15, 0, 0, 0]];
    messages.extend([last(&[5], 0), heard(&[6, 3, 9, 8], 7), time(0x3F80_0000)]);
    messages.extend([8, 9, 26, 31, 34].map(|number| with_text(&[number])));
    messages.extend([vec![10, 1, 2, 3], with_text(&[12, 63]), with_text(&[13, 3])]);
    messages.extend([vec![14, 3, 1, 0], zeros(&[15, 0xFF, 0x7E], 23), heard(&[16], 0)]);
    messages.extend([vec![17, 3, 0x44], zeros(&[18], 11), zeros(&[19], 8), zeros(&[20], 13)]);
    messages.extend([zeros(&[22, 5, 0, 3], 12), last(&[22], 13), zeros(&[23, 4], 6)]);
    messages.extend([last(&[23, 5], 12), zeros(&[23, 12], 8)]);
    messages.extend([vec![24, 1], vec![25, 3], vec![27], vec![28], zeros(&[29], 9), vec![30]]);
    messages.extend([vec![32, 2, 3], vec![33], last(&[0xFF, 0x7F], 14)]);
    messages.extend([vec![0x80, 5], vec![0xC2, 5, 1, 2, 0], vec![2]]);
    messages
}

impl Cases {
    /// The marked recording, cut at every byte and with every byte changed.
    fn marked(&mut self) {
        let whole = marked_recording();
        self.accept("the marked recording", whole.clone());
        for len in 0..whole.len() {
            let bytes = whole[..len].to_vec();
            match len {
                0..=2 => self.refuse(format!("marked, cut to {len}"), bytes, 1, len),
                3 | 45 => self.accept(format!("marked, cut to {len}"), bytes),
                4..=44 => self.refuse(format!("marked, cut to {len}"), bytes, 2, 3),
                _ => self.refuse(format!("marked, cut to {len}"), bytes, 2, 45),
            }
        }
        for at in 0..whole.len() {
            for value in [0, 1, 2, 0x15, 0x40, 0x7F, 0x80, 0xFF, whole[at].wrapping_add(1)] {
                let mut bytes = whole.clone();
                bytes[at] = value;
                self.add(format!("marked, byte {at} {value:x}"), bytes, Expect::Unknown);
            }
        }
    }

    /// Every message, cut at every byte with a size that fits. Where a message
    /// ends the cut is good, and inside a message it is 5 at the message.
    fn tour_cuts(&mut self) {
        let mut before = Vec::new();
        for message in tour() {
            for len in 1..message.len() {
                self.bad(format!("tour, {} cut to {len}", message[0]), &before, &message[..len], 5);
            }
            before.extend(message);
            self.good(format!("tour up to {} bytes", before.len()), &before);
        }
    }
}
