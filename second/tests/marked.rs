//! The marked cases of document 01, "Also run" and "Easy to get wrong". Every
//! answer here is written out from the document.

mod common;

use common::*;
use second::message::*;
use second::read::*;
use second::scene::*;
use second::text::scene_text;
use second::write;

const BASELINE_5: &str = "16 05 00 03 00 00 00 00 02 00 00 00 00 C0 00 00";

fn scene_with_baseline_5() -> Scene {
    scene_after(&hex(BASELINE_5))
}

fn record_5(x: i16) -> Record {
    Record { model: 3, origin: [x, 0, 192], ..Record::default() }
}

fn update_5(x: i16) -> FilledIn {
    Message::Update(Update { entity: 5, record: record_5(x) })
}

#[test]
fn baseline_of_the_marked_cases() {
    let scene = scene_with_baseline_5();
    assert_eq!(
        scene.baselines[5],
        Baseline { model: 3, origin: [512, 0, 192], ..Baseline::default() }
    );
    assert_eq!(scene.records[5], Record::default(), "a baseline sets a baseline only");
    assert!(!scene.present[5]);
}

#[test]
fn p1_p2_p3_same_reading_and_normal_form() {
    let scene = scene_with_baseline_5();
    let p1 = hex("82 05 08 02");
    for bytes in ["82 05 08 02", "C2 05 00 08 02", "83 40 05 00 08 02"] {
        let last = read_from(&scene, &hex(bytes));
        assert_eq!(last.filled(), &update_5(520), "{bytes}");
        assert_eq!(last.normal(), p1, "{bytes}");
        assert_eq!(last.after.records[5], record_5(520));
        assert!(last.after.present[5]);
    }
}

#[test]
fn p4_the_baseline_itself_after_p1_too() {
    let scene = scene_with_baseline_5();
    assert_eq!(read_from(&scene, &hex("80 05")).filled(), &update_5(512));
    let after_p1 = read_from(&scene, &hex("82 05 08 02")).after;
    assert_eq!(read_from(&after_p1, &hex("80 05")).filled(), &update_5(512));
}

#[test]
fn p5_reserved_bit_15() {
    assert_eq!(refused(&Scene::start(), &hex("81 80 05")), 8);
}

#[test]
fn p6_time_nan_and_minus_zero() {
    assert_eq!(refused(&Scene::start(), &hex("07 00 00 C0 7F")), 10);
    assert_eq!(refused(&Scene::start(), &hex("07 00 00 00 80")), 10);
}

#[test]
fn p7_frags_needs_the_limit() {
    let frags = hex("0E 00 FF FF");
    let one = scene_after(&server_info(1));
    let last = read_from(&one, &frags);
    assert_eq!(last.filled(), &Message::Frags { player: 0, frags: -1 });
    assert_eq!(last.after.players[0].frags, -1);
    assert_eq!(refused(&Scene::start(), &frags), 9);
}

#[test]
fn p8_strings() {
    assert_eq!(refused(&Scene::start(), &hex("08 FF 00")), 7);
    assert_eq!(refused(&Scene::start(), &hex("08 41")), 5);
}

#[test]
fn p9_sound() {
    let bytes = hex("06 03 FF 40 29 00 07 00 00 00 00 00 00");
    let last = read_from(&Scene::start(), &bytes);
    let sound =
        Sound { volume: 255, attenuation: 64, channel: 1, entity: 5, sound: 7, origin: [0, 0, 0] };
    assert_eq!(last.filled(), &Message::Sound(sound));
    assert_eq!(last.normal(), hex("06 00 29 00 07 00 00 00 00 00 00"));
}

#[test]
fn p10_killed_wraps() {
    let last = read_from(&Scene::start(), &hex("03 0E FF FF FF 7F 1B"));
    assert_eq!(last.after.stats[14], -2_147_483_648);
}

#[test]
fn p11_track_lines() {
    assert_eq!(read_track(b"007\n"), Ok((7, 4)));
    assert_eq!(read_track(b"\n"), Err(Refusal { number: 1, place: 0 }));
    assert_eq!(read_track(b"1234\n"), Err(Refusal { number: 1, place: 3 }));
}

#[test]
fn p12_entity_599_and_600() {
    let record = Record::default();
    // The second was refused before request 2026-02.
    for (bytes, entity) in [("81 40 57 02", 599), ("81 40 C1 01", 449)] {
        let last = read_from(&Scene::start(), &hex(bytes));
        assert_eq!(last.filled(), &Message::Update(Update { entity, record }));
        assert_eq!(last.normal(), hex(bytes));
        let present = last.after.present.iter().enumerate().filter(|(_, mark)| **mark);
        assert_eq!(present.map(|(i, _)| i).collect::<Vec<_>>(), [usize::from(entity)]);
    }
    assert_eq!(refused(&Scene::start(), &hex("81 40 58 02")), 9);
    for cut in ["81", "81 40", "81 40 57", "81 40 58"] {
        assert_eq!(refused(&Scene::start(), &hex(cut)), 5, "{cut}");
    }
}

fn whole_recording() -> Vec<u8> {
    hex("2D 31 0A \
         1A 00 00 00 00 00 00 00 00 00 00 00 00 00 00 00 \
         07 00 00 80 3F \
         16 05 00 03 00 00 00 00 02 00 00 00 00 C0 00 00 \
         C2 05 00 08 02 \
         01 00 00 00 00 00 00 00 00 00 00 00 00 00 00 00 \
         02")
}

#[test]
fn whole_recording_normal_form() {
    let bytes = whole_recording();
    assert_eq!(bytes.len(), 62);
    let normal = hex("2D 31 0A \
         19 00 00 00 00 00 00 00 00 00 00 00 00 00 00 00 \
         07 00 00 80 3F \
         16 05 00 03 00 00 00 00 02 00 00 00 00 C0 00 00 \
         82 05 08 02 \
         01 00 00 00 00 00 00 00 00 00 00 00 00 00 00 00 \
         02");
    assert_eq!(normal.len(), 61);
    assert_eq!(write::normal(&bytes), (normal, None));
}

#[test]
fn whole_recording_refused_at_19() {
    let mut bytes = whole_recording();
    bytes[19] = 0x15;
    let (out, refusal) = write::normal(&bytes);
    assert_eq!(refusal.unwrap().to_string(), "refused 6 at 19");
    assert_eq!(out, b"-1\n");
}

#[test]
fn blocks_before_a_refusal_stay_written() {
    let mut bytes = whole_recording();
    bytes[61] = 0x15;
    let (out, refusal) = write::normal(&bytes);
    assert_eq!(refusal.unwrap().to_string(), "refused 6 at 61");
    assert_eq!(out, write::normal(&whole_recording()).0[..61 - 17]);
}

#[test]
fn whole_recording_scene_text() {
    let expected = "accepted\n\
        track -1\nblocks 2\nmessages 4\nended 1\ntime 3f800000\nlimit 0\nview 0\npause 0\n\
        statics 0\npresent 1\n\
        stats 0 0 0 0 0 0 0 0 0 0 0 0 0 0 0 0 0 0 0 0 0 0 0 0 0 0 0 0 0 0 0 0\n\
        clientdata view_height=0 pitch=0 punch0=0 velocity0=0 punch1=0 velocity1=0 punch2=0 \
        velocity2=0 items=0 ground=0 water=0 weapon_frame=0 armour=0 weapon_model=0 health=0 \
        ammo=0 count0=0 count1=0 count2=0 count3=0 weapon=0\n";
    let players: String = (0..16).map(|p| format!("player {p} frags=0 colours=0\n")).collect();
    let entities = "baseline 5 model=3 frame=0 colormap=0 skin=0 x=512 angle0=0 y=0 angle1=0 \
        z=192 angle2=0\n\
        record 5 present=1 model=3 frame=0 colormap=0 skin=0 effects=0 x=520 angle0=0 y=0 \
        angle1=0 z=192 angle2=0 bit5=0\n";
    let text = scene_text(&read_recording(&whole_recording()));
    assert_eq!(text, format!("{expected}{players}{entities}"));
    let mut bytes = whole_recording();
    bytes[19] = 0x15;
    assert_eq!(scene_text(&read_recording(&bytes)), "refused 6 at 19\n");
}

// "Also run"

#[test]
fn sizes_8000_and_8001() {
    assert_eq!(refusal_of(&recording(&[&[1; 8000]])), None);
    assert_eq!(refusal_of(&recording(&[&[1; 8001]])), Some((3, 2)));
    // 3 goes before 2 for the body, 2 for the head before 3.
    assert_eq!(refusal_of(&recording(&[&[1; 8001]])[..20]), Some((3, 2)));
    assert_eq!(refusal_of(&recording(&[&[1; 8001]])[..17]), Some((2, 2)));
    assert_eq!(refusal_of(&recording(&[&[1; 8000]])[..8017]), Some((2, 2)));
}

/// Each message with a string, up to where the string begins, and the place of
/// its message in a block that begins with a serverinfo for 16 players.
fn string_messages() -> Vec<Vec<u8>> {
    let mut heads: Vec<Vec<u8>> = [8, 9, 26, 31, 34].iter().map(|n| vec![*n]).collect();
    heads.push(vec![12, 63]);
    heads.push(vec![13, 15]);
    heads
}

#[test]
fn strings_of_2046_and_2047() {
    let scene = scene_after(&server_info(16));
    for head in string_messages() {
        let good = join(&[&head, &text(2046)]);
        assert_eq!(read_from(&scene, &good).step.next, good.len());
        assert_eq!(refused(&scene, &join(&[&head, &text(2047)])), 7);
        // After 2,047 bytes without zero it is 7 before another byte is asked for.
        assert_eq!(refused(&scene, &join(&[&head, &[b'a'; 2047]])), 7);
        assert_eq!(refused(&scene, &join(&[&head, &[b'a'; 2046]])), 5);
        assert_eq!(refused(&scene, &join(&[&head, &[b'a'; 2046], &[0xFF]])), 7);
    }
}

#[test]
fn strings_of_serverinfo() {
    let scene = Scene::start();
    let head = hex("0B 0F 00 00 00 01 00");
    let good = |len| join(&[&head, &text(len), &text(len), &[0], &text(len), &[0]]);
    assert_eq!(read_from(&scene, &good(2046)).step.next, good(2046).len());
    for names in 0..3 {
        let before = match names {
            0 => head.clone(),
            1 => join(&[&head, &text(1)]),
            _ => join(&[&head, &text(1), &text(1), &[0]]),
        };
        assert_eq!(refused(&scene, &join(&[&before, &[b'a'; 2047]])), 7);
        assert_eq!(refused(&scene, &join(&[&before, &[b'a'; 2046]])), 5);
        assert_eq!(refused(&scene, &join(&[&before, &[b'a', 0xFF]])), 7);
    }
}

/// A serverinfo with so many names in each list.
fn named(models: usize, sounds: usize) -> Vec<u8> {
    let head = hex("0B 0F 00 00 00 01 00 6D 00");
    join(&[&head, &b"x\0".repeat(models), &[0], &b"y\0".repeat(sounds), &[0]])
}

#[test]
fn names_255_and_256() {
    let scene = Scene::start();
    let last = read_from(&scene, &named(255, 255));
    let names = join(&[&b"x\0".repeat(255), &[0], &b"y\0".repeat(255), &[0]]);
    match last.filled() {
        Message::ServerInfo(info) => assert_eq!(info.names, names),
        other => panic!("{other:?}"),
    }
    assert_eq!(refused(&scene, &named(256, 0)), 9);
    assert_eq!(refused(&scene, &named(0, 256)), 9);
    // The 256th is read as a string first.
    let head = hex("0B 0F 00 00 00 01 00 6D 00");
    let full = join(&[&head, &b"x\0".repeat(255)]);
    assert_eq!(refused(&scene, &join(&[&full, b"x"])), 5);
    assert_eq!(refused(&scene, &join(&[&full, b"x\xFF"])), 7);
    assert_eq!(refused(&scene, &join(&[&full, b"x\0"])), 9);
    assert_eq!(refused(&scene, &full), 5);
    assert_eq!(refused(&scene, &join(&[&full, &[b'x'; 2047]])), 7);
}

#[test]
fn statics_128_and_129() {
    let one = join(&[&[20], &[0; 13]]);
    let full = scene_after(&one.repeat(128));
    assert_eq!(full.statics, 128);
    assert_eq!(refused(&full, &one), 9);
    assert_eq!(refused(&full, &[20]), 9, "before its fields are read");
    let cleared = read_from(&full, &server_info(1)).after;
    assert_eq!(cleared.statics, 0);
    assert_eq!(read_from(&cleared, &one.repeat(128)).after.statics, 128);
}

#[test]
fn empty_input() {
    assert_eq!(write::normal(b""), (Vec::new(), Some(Refusal { number: 1, place: 0 })));
    assert_eq!(scene_text(&read_recording(b"")), "refused 1 at 0\n");
}

// "Easy to get wrong"

#[test]
fn update_is_not_filled_from_the_record_before() {
    let scene = scene_with_baseline_5();
    let last = read_from(&scene, &hex("82 05 08 02 84 05 10 00"));
    let record = Record { model: 3, origin: [512, 16, 192], ..Record::default() };
    assert_eq!(last.filled(), &Message::Update(Update { entity: 5, record }));
}

#[test]
fn time_is_judged_by_its_bits() {
    let after = |bits: u32| {
        let mut bytes = vec![7];
        bytes.extend(bits.to_le_bytes());
        scene_after(&bytes)
    };
    let time = |bits: u32| join(&[&[7], &bits.to_le_bytes()]);
    let one = after(0x3F80_0000);
    assert_eq!(one.time, Some(0x3F80_0000));
    read_from(&one, &time(0x3F80_0000)); // equal
    read_from(&one, &time(0x3F80_0001));
    read_from(&one, &time(0x7F7F_FFFF)); // the largest finite
    assert_eq!(refused(&one, &time(0x3F7F_FFFF)), 10); // lower
    assert_eq!(refused(&one, &time(0x7F80_0000)), 10); // infinite
    assert_eq!(refused(&one, &time(0x7FC0_0000)), 10); // NaN
    assert_eq!(refused(&one, &time(0xBF80_0000)), 10);
    let zero = after(0);
    // A float comparison calls these equal.
    assert_eq!(refused(&zero, &time(0x8000_0000)), 10);
    // A flushed subnormal would count as zero.
    let tiny = after(1);
    assert_eq!(refused(&tiny, &time(0)), 10);
    let cleared = read_from(&one, &server_info(1)).after;
    assert_eq!(cleared.time, None);
    read_from(&cleared, &time(0));
}

#[test]
fn a_string_does_not_end_at_ff() {
    let scene = Scene::start();
    assert_eq!(refused(&scene, b"\x08ab\xFFcd\0"), 7);
    assert_eq!(refused(&scene, b"\x08\xFF"), 7);
    assert_eq!(refused(&scene, b"\x1A\xFE\xFF\0"), 7);
    assert_eq!(read_from(&scene, b"\x08\xFE\x80\x01\0").step.next, 5);
}

#[test]
fn punch_and_velocity_take_turns() {
    // Mask FC 02: punch and velocity for all axes, bit 9.
    let bytes = hex("0F FC 02 01 02 03 04 05 06 00 00 00 00 64 00 00 00 00 00 00 00");
    let last = read_from(&Scene::start(), &bytes);
    let client = ClientData {
        view_height: 22,
        punch: [1, 3, 5],
        velocity: [2, 4, 6],
        health: 100,
        ..ClientData::default()
    };
    assert_eq!(last.filled(), &Message::ClientData(client));
    assert_eq!(last.after.stats[0], 100);
}

#[test]
fn one_line_feed_belongs_to_the_track_line() {
    // Sizes whose first byte is a blank: 0A, 20, 09, 0D.
    for size in [0x0A, 0x20, 0x09, 0x0D] {
        let bytes = recording(&[&vec![1; size]]);
        let attempt = read_recording(&bytes);
        assert_eq!(attempt.refusal, None);
        assert_eq!(attempt.messages(), size);
    }
    assert_eq!(refusal_of(b"1 \n"), Some((1, 1)));
    assert_eq!(refusal_of(b"1\n\n"), Some((2, 2)));
    assert_eq!(refusal_of(b"1\r\n"), Some((1, 1)));
}
