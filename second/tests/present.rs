//! The number of present marks (document 02's request 2026-03): what it is after every
//! message, that a scene with another number is none, and its line of the text.

mod common;

use common::*;
use second::gen;
use second::message::*;
use second::read::*;
use second::scene::*;
use second::text::scene_text;
use second::{fast, write};
use std::collections::BTreeSet;

/// Entities 5 and 599 are present.
fn two_marks() -> Scene {
    scene_after(&hex("80 05 81 40 57 02"))
}

const NO_SCENE: Refusal = Refusal { number: 14, place: 0 };

/// Messages one after the other, each with the number behind it.
#[test]
fn the_number_after_each_message() {
    let info = "0B 0F 00 00 00 04 00 00 00 00";
    let steps = [
        ("80 05", 1),
        ("80 05", 1),
        ("81 40 05 00", 1),
        ("81 40 57 02", 2),
        ("80 57", 3),
        ("C2 05 00 08 02", 3),
        ("80 00", 4),
        ("16 05 00 03 00 00 00 00 02 00 00 00 00 C0 00 00", 4),
        ("18 01", 4),
        ("05 57 02", 4),
        ("07 00 00 80 3F", 0),
        ("07 00 00 80 3F", 0),
        ("80 05", 1),
        ("FF 7F 05 00 01 02 03 04 05 06 07 08 09 0A 0B 0C 0D 0E", 1),
        ("80 06", 2),
        (info, 0),
        ("80 06", 1),
        ("0E 03 01 00", 1),
        (info, 0),
        ("81 40 57 02", 1),
        ("02", 1),
    ];
    let mut scene = Scene::start();
    assert_eq!(scene.present_count, 0);
    for (bytes, count) in steps {
        scene = read_from(&scene, &hex(bytes)).after;
        assert_eq!(scene.present_count, count, "{bytes}");
    }
}

/// From the messages alone: the entities updated since the last time or serverinfo.
#[test]
fn the_number_is_that_of_the_marks_over_all_generated_inputs() {
    let mut cleared = 0;
    for index in 0..gen::boundary_count() + 3000 {
        let input = gen::generate(4, index);
        let attempt = read_recording(&input.bytes);
        let (mut seen, mut before) = (BTreeSet::new(), 0);
        for (step, scene) in attempt.scenes() {
            match &step.filled {
                Message::Update(update) => drop(seen.insert(update.entity)),
                Message::Time { .. } | Message::ServerInfo(_) => seen.clear(),
                _ => {}
            }
            let marks = scene.present.iter().filter(|mark| **mark).count();
            assert_eq!((usize::from(scene.present_count), marks), (seen.len(), seen.len()));
            cleared += usize::from(before > 0 && seen.is_empty());
            before = seen.len();
        }
        assert_eq!(usize::from(attempt.scene.present_count), before, "{}", input.name);
    }
    assert!(cleared > 500, "only {cleared} messages cleared a number");
}

/// The boundary cases that say the number behind each whole block.
#[test]
fn the_number_behind_each_block() {
    let (mut cases, mut numbers) = (0, BTreeSet::new());
    for input in (0..gen::boundary_count()).map(|index| gen::generate(0, index)) {
        let Some(said) = input.present else { continue };
        let counts = |found: Vec<(usize, u16)>| found.into_iter().map(|(_, count)| count);
        let plain = read_recording(&input.bytes).present_counts();
        assert!(counts(plain).eq(said.iter().copied()), "{}", input.name);
        let (fast, _) = fast::overlay(&input.bytes);
        assert!(counts(fast).eq(said.iter().copied()), "{}", input.name);
        cases += 1;
        numbers.extend(said);
    }
    assert!(cases > 60 && numbers.len() > 20, "{cases} cases say {} numbers", numbers.len());
}

#[test]
fn a_refused_block_leaves_the_number() {
    let good = hex("80 05 80 06");
    for bad in ["80 07 15", "80 05 15", "07 00 00 80 3F 15", "80 07 02 01", "82 07 00"] {
        let attempt = read_recording(&recording(&[&good, &hex(bad)]));
        assert_eq!((attempt.blocks.len(), attempt.scene.present_count), (1, 2), "{bad}");
        let scene = scene_after(&good);
        assert!(read_block(&scene, &block(&hex(bad)), 0).is_err());
        assert_eq!(scene.present_count, 2);
    }
    let info = join(&[&server_info(1), &[21]]);
    assert_eq!(read_recording(&recording(&[&good, &info])).scene.present_count, 2);
}

/// With another number it is 14 at 0, at a message or block, at the end, past it, and
/// for writing; in an ended scene too, and before any other refusal.
#[test]
fn a_scene_with_another_number_is_none() {
    let print = Message::Print { text: Place { at: 9, len: 9 } };
    let bad = block(&[2, 1]);
    for ended in [false, true] {
        let right = Scene { ended, ..two_marks() };
        assert!(right.in_ranges());
        for present_count in [0, 1, 3, 2 + 256, 599, 600, 601, 0x8002, 0xFFFF] {
            let scene = Scene { present_count, ..right.clone() };
            assert!(!scene.in_ranges());
            for bytes in ["01", "15", "80 06", "07 00 00 80 3F", "0B 0F 00 00 00 01 00 00 00 00"] {
                let bytes = hex(bytes);
                for at in [0, bytes.len(), bytes.len() + 1, usize::MAX] {
                    assert_eq!(read_message(&scene, &bytes, at), Err(NO_SCENE));
                }
            }
            for at in [0, 1, bad.len(), bad.len() + 1, usize::MAX] {
                assert_eq!(read_block(&scene, &bad, at), Err(NO_SCENE));
            }
            for sent in [&print, &Message::Nop] {
                assert_eq!(write::write_message(&scene, sent, b""), Err(NO_SCENE));
            }
        }
    }
}

/// A mark more or less, too, makes the number another.
#[test]
fn a_mark_without_the_number_makes_no_scene() {
    for entity in [0, 5, 6, 255, 256, 511, 512, 599] {
        let mut scene = two_marks();
        let set = !scene.present[entity];
        scene.present[entity] = set;
        assert_eq!(read_message(&scene, &[1], 0), Err(NO_SCENE), "{entity}");
        assert_eq!(read_message(&scene, &[1], 1), Err(NO_SCENE), "{entity}");
        scene.present_count = if set { 3 } else { 1 };
        assert!(read_message(&scene, &[1], 0).is_ok_and(|step| step.is_some()));
        let sent = [&[0x81, 0x40], &(entity as u16).to_le_bytes()[..]].concat();
        assert_eq!(read_from(&scene, &sent).after.present_count, if set { 3 } else { 2 });
    }
}

/// All 600 marks, and none, set by hand; 0 with the highest number of a byte, and 600
/// with what it is in a byte or in nine bits.
#[test]
fn marks_of_all_and_of_none() {
    let all = Scene { present: [true; ENTITIES], present_count: 600, ..Scene::start() };
    assert!(all.in_ranges());
    for present_count in [0, 599, 600 % 256, 600 % 512, 601, 0xFFFF] {
        assert!(!Scene { present_count, ..all.clone() }.in_ranges(), "{present_count}");
    }
    assert_eq!(read_from(&all, &hex("81 40 57 02")).after.present_count, 600);
    assert_eq!(read_from(&all, &hex("07 00 00 80 3F")).after.present_count, 0);
    for present_count in [1, 255, 256, 600, 0xFFFF] {
        assert!(!Scene { present_count, ..Scene::start() }.in_ranges(), "{present_count}");
    }
}

/// The line stands right behind that of the statics.
#[test]
fn the_line_of_the_text() {
    let line = |bodies: &[&[u8]]| {
        let text = scene_text(&read_recording(&recording(bodies)));
        let lines: Vec<&str> = text.lines().collect();
        assert!(lines[9].starts_with("statics ") && lines[11].starts_with("stats "));
        lines[10].to_string()
    };
    let every: Vec<u8> = (0..600u16)
        .flat_map(|entity| {
            let [low, high] = entity.to_le_bytes();
            [0x81, 0x40, low, high]
        })
        .collect();
    let statics = [&[20], &[0; 13][..]].concat();
    assert_eq!(line(&[]), "present 0");
    assert_eq!(line(&[&statics]), "present 0");
    assert_eq!(line(&[&hex("80 05 80 05")]), "present 1");
    assert_eq!(line(&[&hex("80 05"), &hex("80 06"), &[]]), "present 2");
    assert_eq!(line(&[&every]), "present 600");
    assert_eq!(line(&[&every, &hex("07 00 00 80 3F")]), "present 0");
    assert_eq!(line(&[&every, &server_info(1), &hex("80 05")]), "present 1");
}
