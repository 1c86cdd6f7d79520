//! Points of document 01 beside its marked cases: the order of refusals, the
//! scene, asking at and past the end, and the refusals of writing.

mod common;

use common::*;
use second::message::*;
use second::read::*;
use second::scene::*;
use second::write;

#[test]
fn asked_at_the_end_and_past_it() {
    let start = Scene::start();
    let ended = scene_after(&[2]);
    for scene in [&start, &ended] {
        assert_eq!(read_message(scene, &[1, 1], 2), Ok(None));
        assert_eq!(read_message(scene, &[1, 1], 3), Err(Refusal { number: 5, place: 3 }));
        assert_eq!(read_block(scene, &[0; 16], 16), Ok(None));
        assert_eq!(read_block(scene, &[0; 16], 20), Err(Refusal { number: 5, place: 20 }));
    }
    assert_eq!(read_message(&ended, &[1, 1], 1), Err(Refusal { number: 11, place: 1 }));
    assert_eq!(read_block(&ended, &[0; 3], 1), Err(Refusal { number: 11, place: 1 }));
}

#[test]
fn places_of_messages_alone_count_from_the_first_byte_lent() {
    let scene = Scene::start();
    let step = read_message(&scene, b"\x01\x01\x08ab\0", 2).unwrap().unwrap();
    assert_eq!((step.place, step.next), (2, 6));
    assert_eq!(step.sent, Message::Print { text: Place { at: 3, len: 2 } });
    assert_eq!(read_message(&scene, &[1, 1, 0], 2), Err(Refusal { number: 6, place: 2 }));
}

#[test]
fn serverinfo_lists_are_one_place_with_both_closing_zeros() {
    let bytes = b"\x0B\x0F\0\0\0\x02\x01map\0a\0bc\0\0d\0\0";
    let last = read_from(&Scene::start(), bytes);
    let Message::ServerInfo(info) = &last.step.sent else { panic!("{:?}", last.step.sent) };
    assert_eq!(info.map, Place { at: 7, len: 3 });
    assert_eq!(info.names, Place { at: 11, len: 9 });
    assert_eq!((info.limit, info.game), (2, 1));
    assert_eq!(last.after.limit, 2);
}

#[test]
fn serverinfo_clears_everything() {
    let mut bytes = server_info(3);
    for message in [
        "03 05 01 00 00 00",
        "05 07 00",
        "07 00 00 80 3F",
        "0E 02 05 00",
        "0F 01 02 09 01 00 00 00 64 00 01 02 03 04 05 06",
        "11 02 44",
        "14 00 00 00 00 00 00 00 00 00 00 00 00 00",
        "16 05 00 03 00 00 00 00 02 00 00 00 00 C0 00 00",
        "18 01",
        "80 05",
    ] {
        bytes.extend(hex(message));
    }
    let before = scene_after(&bytes);
    assert_eq!((before.view, before.pause, before.statics, before.limit), (7, 1, 1, 3));
    assert_eq!(before.players[2], Player { frags: 5, colours: 0x44 });
    assert_eq!(before.client.view_height, 9);
    let after = read_from(&before, &server_info(1)).after;
    assert_eq!(after, Scene { limit: 1, ..Scene::start() });
}

#[test]
fn clientdata_sets_stats() {
    // Every field: bits 0 to 7, 9, 12 to 14.
    let bytes =
        hex("0F FF 72 01 02 03 04 05 06 07 08 11 22 33 44 15 16 17 9C FF 18 19 1A 1B 1C 1D");
    let scene = scene_after(&bytes);
    let client = ClientData {
        view_height: 1,
        pitch: 2,
        punch: [3, 5, 7],
        velocity: [4, 6, 8],
        items: 0x4433_2211,
        ground: false,
        water: false,
        weapon_frame: 0x15,
        armour: 0x16,
        weapon_model: 0x17,
        health: -100,
        ammo: 0x18,
        counts: [0x19, 0x1A, 0x1B, 0x1C],
        weapon: 0x1D,
    };
    assert_eq!(scene.client, client);
    let stats = [-100, 0, 0x17, 0x18, 0x16, 0x15, 0x19, 0x1A, 0x1B, 0x1C, 0x1D];
    assert_eq!(scene.stats[..11], stats);
    assert_eq!(scene.stats[11..], [0; 21]);
}

#[test]
fn items_come_whatever_bit_9_says() {
    for mask in ["00 00", "00 02"] {
        let bytes = hex(&format!("0F {mask} 01 00 00 00 64 00 00 00 00 00 00 00"));
        let last = read_from(&Scene::start(), &bytes);
        assert_eq!(last.after.client.items, 1);
        assert_eq!(last.after.client.view_height, 22);
        assert_eq!(last.normal()[..3], hex("0F 00 02"));
    }
}

#[test]
fn clientdata_keeps_yes_or_no_bits_and_drops_defaults() {
    // View height 22 and pitch 0 sent needlessly, ground and water set.
    let bytes = hex("0F 03 0C 16 00 01 00 00 00 64 00 00 00 00 00 00 00");
    let last = read_from(&Scene::start(), &bytes);
    assert!(last.after.client.ground && last.after.client.water);
    assert_eq!(last.normal(), hex("0F 00 0E 01 00 00 00 64 00 00 00 00 00 00 00"));
}

#[test]
fn time_clears_all_marks_and_keeps_records() {
    let bytes = hex("82 05 08 02 82 06 08 02 07 00 00 00 00 80 06");
    let scene = scene_after(&bytes);
    assert!(!scene.present[5] && scene.present[6]);
    assert_eq!(scene.records[5].origin[0], 520);
    assert_eq!(scene.time, Some(0));
}

#[test]
fn secret_is_stat_13_and_killed_stat_14() {
    let scene = scene_after(&[28, 28, 27]);
    assert_eq!((scene.stats[13], scene.stats[14]), (2, 1));
}

#[test]
fn update_keeps_bit_5_and_effects_default_to_zero() {
    let scene = scene_after(&hex("16 05 00 03 01 02 04 00 00 07 00 00 08 00 00 09"));
    // Bits 0, 5; high byte: effects (13).
    let last = read_from(&scene, &hex("A1 20 05 00"));
    let record = Record {
        model: 3,
        frame: 1,
        colormap: 2,
        skin: 4,
        effects: 0,
        origin: [0, 0, 0],
        angles: [7, 8, 9],
        bit5: true,
    };
    assert_eq!(last.after.records[5], record);
    assert_eq!(last.normal(), hex("A0 05"));
}

#[test]
fn update_fields_in_wire_order() {
    // All fields: numbers 1 to 14 in the order they are sent.
    let last =
        read_from(&Scene::start(), &hex("FF 7F 05 00 01 02 03 04 05 06 07 08 09 0A 0B 0C 0D 0E"));
    let record = Record {
        model: 1,
        frame: 2,
        colormap: 3,
        skin: 4,
        effects: 5,
        origin: [0x0706, 0x0A09, 0x0D0C],
        angles: [8, 11, 14],
        bit5: true,
    };
    assert_eq!(last.filled(), &Message::Update(Update { entity: 5, record }));
    assert_eq!(last.normal(), hex("FF 3F 05 01 02 03 04 05 06 07 08 09 0A 0B 0C 0D 0E"));
}

/// The two temporary entities of version 1.08, which document 02's request
/// 2026-01 adds, each with every value its own.
#[test]
fn temporary_entities_of_version_1_08() {
    let explosion2 = Temporary::Explosion2 {
        origin: [0x0201, 0x0403, -251],
        first_colour: 7,
        colour_count: 255,
    };
    let (start, end) = ([0x0201, 0x0403, -251], [0x0807, 0x0A09, 0x0C0B]);
    let line = Temporary::Line { kind: 13, entity: 599, start, end };
    let scene = scene_after(&hex("82 05 08 02 03 1F FE FF FF FF 07 00 00 80 3F 80 06"));
    for (bytes, temporary) in [
        ("17 0C 01 02 03 04 05 FF 07 FF", explosion2),
        ("17 0D 57 02 01 02 03 04 05 FF 07 08 09 0A 0B 0C", line),
    ] {
        let bytes = hex(bytes);
        let last = read_from(&scene, &bytes);
        assert_eq!(last.step.sent, Message::Temporary(temporary));
        assert_eq!(last.filled(), &Message::Temporary(temporary));
        assert_eq!(last.normal(), bytes);
        assert_eq!(last.after, scene);
        assert_eq!(write::write_message(&scene, &last.step.sent, b""), Ok(bytes));
    }
}

/// The entity of a message that has one, and the channel of a sound.
fn entity_of(message: &FilledIn) -> (u16, u8) {
    match message {
        Message::View { entity } | Message::Baseline { entity, .. } => (*entity, 0),
        Message::Temporary(Temporary::Line { entity, .. }) => (*entity, 0),
        Message::Update(update) => (update.entity, 0),
        Message::Sound(sound) => (sound.entity, sound.channel),
        Message::StopSound { channel, entity } => (*entity, *channel),
        other => panic!("{other:?}"),
    }
}

/// Only 0 to 599 are good. The word is signed, so half of what is refused is
/// negative; a sound's has three bits of channel below thirteen of entity.
#[test]
fn every_word_in_the_place_of_an_entity() {
    let scene = Scene::start();
    let heads = ["05", "16", "17 05", "17 06", "17 09", "17 0D", "81 40", "FF 7F"];
    let words = heads.map(|head| (head, 0));
    let sounds = ["06 00", "06 03 09 08", "10"].map(|head| (head, 3));
    for (head, bits) in words.into_iter().chain(sounds) {
        let mut message = [hex(head), vec![0; 16]].concat();
        let place = message.len() - 16;
        for word in 0..=0xFFFFu16 {
            message[place..place + 2].copy_from_slice(&word.to_le_bytes());
            let answer = read_message(&scene, &message, 0);
            let entity = word >> bits;
            if entity <= 599 {
                let step = answer.expect("accepted").expect("a message");
                assert_eq!(entity_of(&step.filled), (entity, (word - (entity << bits)) as u8));
            } else {
                assert_eq!(answer, Err(Refusal { number: 9, place: 0 }), "{head}, {word}");
            }
        }
    }
}

/// Each of 600 entities has a baseline, a record and a mark of its own, which time
/// and serverinfo clear for all of them.
#[test]
fn tables_of_600_entities() {
    let baseline = |entity: u16| Baseline { origin: [entity as i16, 1, 2], ..Baseline::default() };
    let mut scene = Scene::start();
    assert_eq!((scene.baselines.len(), scene.records.len(), scene.present.len()), (600, 600, 600));
    for entity in 0..600u16 {
        let [low, high] = entity.to_le_bytes();
        let sent = [22, low, high, 0, 0, 0, 0, low, high, 0, 1, 0, 0, 2, 0, 0];
        scene = read_from(&scene, &sent).after;
    }
    for entity in 0..600u16 {
        let [low, high] = entity.to_le_bytes();
        let last = read_from(&scene, &[0x81, 0x40, low, high]);
        let record = Record::from(baseline(entity));
        assert_eq!(last.filled(), &Message::Update(Update { entity, record }));
        scene = last.after;
    }
    assert_eq!(scene.baselines, std::array::from_fn(|entity| baseline(entity as u16)));
    assert_eq!(scene.records, scene.baselines.map(Record::from));
    assert!(scene.present.iter().all(|mark| *mark));
    assert_eq!(scene.present_count, 600);
    let mut timed = Scene { time: Some(0x3F80_0000), present_count: 0, ..scene.clone() };
    timed.present.fill(false);
    assert_eq!(read_from(&scene, &hex("07 00 00 80 3F")).after, timed);
    let cleared = read_from(&scene, &server_info(1)).after;
    assert_eq!(cleared, Scene { limit: 1, ..Scene::start() });
}

/// A field is whole before its rule, and the rule of an earlier field goes
/// before a later field's being whole.
#[test]
fn order_within_a_message() {
    let scene = Scene::start();
    let cases: [(&str, u8); 31] = [
        ("03", 5),
        ("03 20", 9),
        ("04 0E 00 00", 5),
        ("04 0E 00 00 00", 9),
        ("05 58", 5),
        ("05 58 02", 9),
        ("06 04", 8),
        ("06 01", 5),
        ("06 00 C0", 5),
        ("06 00 C0 12", 9),
        ("06 04 C0 12", 8),
        ("07 00 00 C0", 5),
        ("0B 0E 00 00 00", 9),
        ("0B 0F 00 00 00 00", 9),
        ("0B 0F 00 00 00 11", 9),
        ("0D 00", 9),
        ("0F 00", 5),
        ("0F 00 01", 8),
        ("16 58 02", 9),
        ("17", 5),
        ("17 05 58 02", 9),
        ("17 0C", 5),
        ("17 0C 00 00 00 00 00 00 00", 5),
        ("17 0D", 5),
        ("17 0D 58", 5),
        ("17 0D 58 02", 9),
        ("17 0D 57 02", 5),
        ("17 0E", 9),
        ("17 FF", 9),
        ("81 80", 8),
        ("FF 7F 58 02", 9),
    ];
    for (bytes, number) in cases {
        assert_eq!(refused(&scene, &hex(bytes)), number, "{bytes}");
    }
}

#[test]
fn disconnect_must_be_last() {
    assert_eq!(refusal_of(&recording(&[&[1, 2]])), None);
    assert_eq!(refusal_of(&recording(&[&[1, 2, 1]])), Some((11, 20)));
    assert_eq!(refusal_of(&recording(&[&[1, 2], &[]])), Some((11, 20)));
    let mut stray = recording(&[&[1, 2]]);
    stray.push(0);
    assert_eq!(refusal_of(&stray), Some((11, 20)));
}

#[test]
fn a_refused_block_counts_as_not_read() {
    let bytes = recording(&[&[28], &[28, 28, 0]]);
    let attempt = read_recording(&bytes);
    assert_eq!(attempt.refusal, Some(Refusal { number: 6, place: 2 + 17 + 16 + 2 }));
    assert_eq!(attempt.blocks.len(), 1);
    assert_eq!(attempt.scene.stats[13], 1);
}

#[test]
fn minus_zero_is_zero_and_angles_keep_their_bits() {
    let mut bytes = b"-0\n".to_vec();
    write::write_block(&mut bytes, [0x8000_0000, 1, 0xFF7F_FFFF], &[1]);
    let (normal, refusal) = write::normal(&bytes);
    assert_eq!(refusal, None);
    assert_eq!(normal[..2], *b"0\n");
    assert_eq!(normal[2..], bytes[3..]);
}

/// A record has a line if it is present or not all zero; a baseline if it is not
/// all zero.
#[test]
fn entity_lines_of_the_scene_text() {
    // Entities 5 and 6, time, then 7 and 599; a zero baseline of 9, and others of
    // 599 and 8.
    let body = hex("82 05 08 02 80 06 07 00 00 80 3F 80 07 81 40 57 02 \
                    16 09 00 00 00 00 00 00 00 00 00 00 00 00 00 00 \
                    16 57 02 03 00 00 00 00 00 00 00 00 00 00 00 00 \
                    16 08 00 00 00 00 00 00 00 00 00 00 00 FF FF 80");
    let text = second::text::scene_text(&read_recording(&recording(&[&body])));
    let lines: Vec<&str> = text.lines().skip_while(|line| !line.starts_with("player 15")).collect();
    let expected = [
        "player 15 frags=0 colours=0",
        "baseline 8 model=0 frame=0 colormap=0 skin=0 x=0 angle0=0 y=0 angle1=0 z=-1 angle2=-128",
        "baseline 599 model=3 frame=0 colormap=0 skin=0 x=0 angle0=0 y=0 angle1=0 z=0 angle2=0",
        "record 5 present=0 model=0 frame=0 colormap=0 skin=0 effects=0 x=520 angle0=0 y=0 \
         angle1=0 z=0 angle2=0 bit5=0",
        "record 7 present=1 model=0 frame=0 colormap=0 skin=0 effects=0 x=0 angle0=0 y=0 \
         angle1=0 z=0 angle2=0 bit5=0",
        "record 599 present=1 model=0 frame=0 colormap=0 skin=0 effects=0 x=0 angle0=0 y=0 \
         angle1=0 z=0 angle2=0 bit5=0",
    ];
    assert_eq!(lines, expected);
}

/// All other lines, with every value its own.
#[test]
fn scene_text_with_every_value() {
    let mut body = server_info(3);
    for message in [
        "03 1F FE FF FF FF",
        "05 57 02",
        "0E 02 FB FF",
        "11 02 44",
        "14 00 00 00 00 00 00 00 00 00 00 00 00 00",
        "18 09",
        "0F FF 7E 01 02 03 04 05 06 07 08 11 22 33 44 15 16 17 9C FF 18 19 1A 1B 1C 1D",
    ] {
        body.extend(hex(message));
    }
    let text = second::text::scene_text(&read_recording(&recording(&[&body, &[]])));
    let expected = "accepted\ntrack 0\nblocks 2\nmessages 8\nended 0\ntime none\nlimit 3\n\
        view 599\npause 9\nstatics 1\npresent 0\n\
        stats -100 0 23 24 22 21 25 26 27 28 29 0 0 0 0 0 0 0 0 0 0 0 0 0 0 0 0 0 0 0 0 -2\n\
        clientdata view_height=1 pitch=2 punch0=3 velocity0=4 punch1=5 velocity1=6 punch2=7 \
        velocity2=8 items=1144201745 ground=1 water=1 weapon_frame=21 armour=22 \
        weapon_model=23 health=-100 ammo=24 count0=25 count1=26 count2=27 count3=28 weapon=29\n\
        player 0 frags=0 colours=0\nplayer 1 frags=0 colours=0\nplayer 2 frags=-5 colours=68\n";
    assert_eq!(text[..expected.len()], *expected);
}

// Writing

fn print(at: usize, len: usize) -> AsSent {
    Message::Print { text: Place { at, len } }
}

#[test]
fn writing_takes_strings_from_the_lent_text() {
    let scene = Scene::start();
    assert_eq!(write::write_message(&scene, &print(1, 2), b"xabx"), Ok(b"\x08ab\0".to_vec()));
    assert_eq!(write::write_message(&scene, &print(0, 0), b""), Ok(b"\x08\0".to_vec()));
}

#[test]
fn records_that_no_bytes_read_to() {
    let scene = Scene::start();
    let refused = |sent: &AsSent, text: &[u8]| {
        let refusal = write::write_message(&scene, sent, text).expect_err("refused");
        assert_eq!(refusal.place, 0);
        refusal.number
    };
    let long = [b'a'; 2047];
    assert_eq!(refused(&print(0, 3), b"a\0b"), 13);
    assert_eq!(refused(&print(0, 1), b"\xFF"), 13);
    assert_eq!(refused(&print(0, 2047), &long), 13);
    assert!(write::write_message(&scene, &print(0, 2046), &long).is_ok());
    assert_eq!(refused(&print(1, 3), b"abc"), 13);
    assert_eq!(refused(&print(usize::MAX, 2), b"abc"), 13);
    assert_eq!(refused(&Message::Version { protocol: 14 }, b""), 13);
    assert_eq!(refused(&Message::Frags { player: 0, frags: 0 }, b""), 13);
    assert_eq!(refused(&Message::StopSound { channel: 8, entity: 0 }, b""), 13);
    assert_eq!(refused(&Message::Time { bits: 0x8000_0000 }, b""), 13);
    let zero = Record::default();
    let update = |mask, entity, fields| Message::Update(SentUpdate { mask, entity, fields });
    assert_eq!(refused(&update(0, 256, zero), b""), 13); // too wide for a byte
    assert_eq!(refused(&update(0x4000, 5, zero), b""), 13); // a high bit without bit 0
    assert_eq!(refused(&update(0x8001, 5, zero), b""), 13);
    assert_eq!(refused(&update(0, 5, Record { model: 1, ..zero }), b""), 13); // not sent
    assert!(write::write_message(&scene, &update(0x4001, 5, zero), b"").is_ok());
}

/// Each message with an entity of two bytes or thirteen bits, by the entity.
fn messages_of(entity: u16) -> [AsSent; 6] {
    let origin = [0; 3];
    let (mask, volume, attenuation, channel, sound) = (0, 0, 0, 7, 1);
    [
        Message::View { entity },
        Message::Sound(SentSound { mask, volume, attenuation, channel, entity, sound, origin }),
        Message::StopSound { channel, entity },
        Message::Baseline { entity, baseline: Baseline::default() },
        Message::Temporary(Temporary::Line { kind: 5, entity, start: origin, end: origin }),
        Message::Update(SentUpdate { mask: 0x4001, entity, fields: Record::default() }),
    ]
}

/// From 8,192 on an entity has more than the thirteen bits of a sound.
#[test]
fn records_of_an_entity_that_no_bytes_read_to() {
    let written = |sent: &AsSent| write::write_message(&Scene::start(), sent, b"");
    for entity in [0, 448, 449, 511, 512, 599] {
        for sent in messages_of(entity) {
            let bytes = written(&sent).expect("written");
            assert_eq!(read_from(&Scene::start(), &bytes).step.sent, sent);
        }
    }
    for entity in [600, 1023, 8191, 8192, 8192 + 599, 0x7FFF, 0x8000, 0xFFFF] {
        for sent in messages_of(entity) {
            assert_eq!(written(&sent), Err(Refusal { number: 13, place: 0 }), "{sent:?}");
        }
    }
}

/// Each type has one case, which alone is written; a line's entity is in range.
#[test]
fn temporary_entities_that_no_bytes_read_to() {
    let origin = [0; 3];
    let written = |temporary| {
        let sent = Message::Temporary(temporary);
        write::write_message(&Scene::start(), &sent, b"").map(|bytes| bytes.len())
    };
    let line = |kind, entity| Temporary::Line { kind, entity, start: origin, end: origin };
    let refused = Err(Refusal { number: 13, place: 0 });
    for kind in 0..=255 {
        let (point_length, line_length) = match kind {
            5 | 6 | 9 | 13 => (refused, Ok(16)),
            12 | 14.. => (refused, refused),
            _ => (Ok(8), refused),
        };
        assert_eq!(written(Temporary::Point { kind, origin }), point_length, "{kind}");
        assert_eq!(written(line(kind, 599)), line_length, "{kind}");
        for entity in [600, 0x7FFF, 0x8000, 0xFFFF] {
            assert_eq!(written(line(kind, entity)), refused, "{kind}");
        }
    }
    let explosion2 = Temporary::Explosion2 { origin, first_colour: 0, colour_count: 0 };
    assert_eq!(written(explosion2), Ok(10));
}

#[test]
fn order_of_refusals_in_writing() {
    let number = |scene: &Scene| write::write_message(scene, &print(9, 9), b"").unwrap_err().number;
    let mut scene = Scene::start();
    assert_eq!(number(&scene), 13);
    scene.ended = true;
    assert_eq!(number(&scene), 11);
    scene.view = 600;
    assert_eq!(number(&scene), 14);
}

#[test]
fn ranges_of_a_scene() {
    let good =
        Scene { view: 599, statics: 128, limit: 16, time: Some(0x7F7F_FFFF), ..Scene::start() };
    assert!(good.in_ranges());
    assert!(!Scene { view: 600, ..good.clone() }.in_ranges());
    assert!(!Scene { view: 0xFFFF, ..good.clone() }.in_ranges());
    assert!(!Scene { statics: 129, ..good.clone() }.in_ranges());
    assert!(!Scene { limit: 17, ..good.clone() }.in_ranges());
    assert!(!Scene { time: Some(0x7F80_0000), ..good.clone() }.in_ranges());
    assert!(!Scene { time: Some(0x8000_0000), ..good.clone() }.in_ranges());
}

#[test]
fn room_shorter_and_longer_than_the_output() {
    let mut room = [9; 4];
    let short = write::write_to_room(&[1, 2, 3, 4, 5], &mut room);
    assert_eq!(short, Err(Refusal { number: 12, place: 5 }));
    assert_eq!(room, [9; 4], "nothing is written");
    assert_eq!(write::write_to_room(&[1, 2], &mut room), Ok(2));
    assert_eq!(room, [1, 2, 9, 9], "room past the output keeps its bytes");
}
