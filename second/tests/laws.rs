//! What must hold of every reading and normal form, over generated inputs and
//! the real recordings.

mod common;

use second::gen::rng::Rng;
use second::gen::{self, boundary, encode, reading, Expect, Input};
use second::message::Message;
use second::read::{read_recording, Attempt, Reading};
use second::scene::Scene;
use second::{compare, fast, write};

/// Holds the fast reader and both its normalisers against the plain reader.
fn hold_fast_against_plain(name: &str, bytes: &[u8]) -> Attempt {
    let plain = read_recording(bytes);
    let normal = write::normal_of(&plain);
    match (fast::read(bytes), plain.refusal) {
        (Err(fast), Some(plain)) => assert_eq!(fast, plain, "{name}"),
        (Ok((summary, scene)), None) => {
            let counts = (Some(summary.track), summary.blocks, summary.messages);
            assert_eq!(counts, (plain.track, plain.blocks.len(), plain.messages()), "{name}");
            assert!(scene == plain.scene, "{name}: scenes differ");
        }
        (fast, plain) => panic!("{name}: fast {:?}, plain {plain:?}", fast.map(|f| f.0)),
    }
    let counts = (plain.present_counts(), plain.refusal);
    assert!(fast::overlay(bytes) == counts, "{name}: present counts differ");
    assert!(fast::overlay_without_shuffles(bytes) == counts, "{name}: present counts differ");
    for normaliser in [fast::normal, fast::normal_without_shuffles] {
        let mut out = Vec::new();
        let answer = normaliser(bytes, &mut out);
        assert_eq!(answer.err(), plain.refusal, "{name}");
        assert!(out == normal, "{name}: normal forms differ");
    }
    plain
}

fn check_expected(input: &Input, attempt: &Attempt) {
    let name = &input.name;
    match input.expect {
        Expect::Accepted => assert_eq!(attempt.refusal, None, "{name}"),
        Expect::Refused(refusal) => assert_eq!(attempt.refusal, Some(refusal), "{name}"),
        Expect::Unknown => {}
    }
}

/// The laws of an accepted recording.
fn check_laws(name: &str, bytes: &[u8], attempt: &Attempt) {
    let normal = write::normal_of(attempt);
    assert!(normal.len() <= bytes.len(), "{name}: the normal form is longer");
    let again = read_recording(&normal);
    assert!(again.reading() == attempt.reading(), "{name}: another reading");
    assert!(again.scene == attempt.scene, "{name}: another scene");
    assert!(write::normal_of(&again) == normal, "{name}: not idempotent");
}

/// Each message is written back from its fields as sent to its very bytes, in
/// the scene it was read in.
fn check_written_back(name: &str, bytes: &[u8], attempt: &Attempt) {
    let mut scene = Scene::start();
    for step in attempt.blocks.iter().flat_map(|block| &block.messages) {
        let written = write::write_message(&scene, &step.sent, bytes);
        assert_eq!(written.as_deref(), Ok(&bytes[step.place..step.next]), "{name}");
        scene.apply(&step.filled);
    }
}

#[test]
fn generated_inputs() {
    for index in 0..gen::boundary_count() + 9000 {
        let input = gen::generate(1, index);
        let attempt = hold_fast_against_plain(&input.name, &input.bytes);
        check_expected(&input, &attempt);
        if attempt.refusal.is_none() {
            check_laws(&input.name, &input.bytes, &attempt);
            check_written_back(&input.name, &input.bytes, &attempt);
        }
    }
}

/// A refused recording leaves the normal form of its whole blocks, which is
/// that of the recording cut before the refused block.
#[test]
fn refused_recordings_leave_their_whole_blocks() {
    let mut refused = 0;
    for index in 0..gen::boundary_count() + 3000 {
        let input = gen::generate(3, index);
        let attempt = read_recording(&input.bytes);
        let Some(refusal) = attempt.refusal else { continue };
        let (out, _) = write::normal(&input.bytes);
        if refusal.number == 1 {
            assert!(out.is_empty(), "{}", input.name);
            continue;
        }
        let track_line = input.bytes.iter().position(|byte| *byte == b'\n').unwrap() + 1;
        let end = attempt.blocks.last().map_or(track_line, |block| block.next);
        assert_eq!(write::normal(&input.bytes[..end]), (out, None), "{}", input.name);
        refused += 1;
    }
    assert!(refused > 2000, "only {refused} refused recordings");
}

/// Fast scenes after every block, not only the last.
#[test]
fn fast_scene_after_every_block() {
    for index in 0..600 {
        let Input { name, bytes, .. } = gen::generate(5, gen::boundary_count() + index);
        for block in read_recording(&bytes).blocks {
            hold_fast_against_plain(&name, &bytes[..block.next]);
        }
    }
}

/// Every message, cut at every byte and with every byte set to every value.
#[test]
fn every_damage_to_every_message() {
    let mut whole = b"0\n".to_vec();
    let messages = boundary::tour();
    for part in messages.chunks(7) {
        whole.extend(common::block(&part.concat()));
    }
    assert_eq!(read_recording(&whole).messages(), messages.len());
    for len in 0..whole.len() {
        hold_fast_against_plain(&format!("cut to {len}"), &whole[..len]);
    }
    let mut bytes = whole.clone();
    for at in 0..whole.len() {
        for value in 0..=255 {
            bytes[at] = value;
            hold_fast_against_plain(&format!("byte {at} set to {value}"), &bytes);
        }
        bytes[at] = whole[at];
    }
}

/// Every mask of an update, each field equal to the baseline's or not, of an entity
/// that needs one byte and of one that needs two.
#[test]
fn every_update_mask() {
    for entity in [[5, 0], [0x57, 2]] {
        let [low, high] = entity;
        let baseline = [22, low, high, 1, 2, 3, 4, 5, 0, 6, 7, 0, 8, 9, 0, 10];
        for mask in (0..=0x7FFFu16).filter(|mask| mask & 0x80 == 0) {
            let mut body = baseline.to_vec();
            for differing in [0, 0x7FFF, mask.wrapping_mul(0x9E35), mask.wrapping_mul(0x6A0D) >> 3]
            {
                body.extend(update_of(entity, mask, differing));
            }
            let bytes = common::recording(&[&body, &body]);
            let attempt = hold_fast_against_plain(&format!("{entity:?}, mask {mask:x}"), &bytes);
            assert_eq!((attempt.refusal, attempt.messages()), (None, 10), "mask {mask:x}");
        }
    }
}

/// An update of an entity, whose first byte is sent, or both are; fields in
/// `differing` are not the baseline's.
fn update_of([low_entity, high_entity]: [u8; 2], mask: u16, differing: u16) -> Vec<u8> {
    let [low, high] = mask.to_le_bytes();
    let has_high = low & 1 != 0;
    let mut out = vec![low | 0x80];
    out.extend(has_high.then_some(high));
    let sent = if has_high { mask } else { low.into() };
    out.push(low_entity);
    out.extend((sent & 0x4000 != 0).then_some(high_entity));
    let fields = [(10, 1), (6, 2), (11, 3), (12, 4), (13, 0)];
    let axes = [(1, 5), (8, 6), (2, 7), (4, 8), (3, 9), (9, 10)];
    for (bit, value) in fields.into_iter().chain(axes) {
        if sent & (1 << bit) != 0 {
            let differs = u8::from(differing & (1 << bit) != 0);
            // Of x, y and z the second byte alone differs.
            if bit < 4 {
                out.extend([value, differs]);
            } else {
                out.push(value + differs);
            }
        }
    }
    out
}

fn reading_of(bytes: &[u8]) -> Option<Reading> {
    read_recording(bytes).reading().ok()
}

/// Wasteful encodings of one reading read to it and share its normal form.
#[test]
fn wasteful_encodings_share_the_normal_form() {
    let mut longer = 0;
    for stream in 0..400 {
        let mut rng = Rng::new(11, stream);
        let reading = reading::reading(&mut rng);
        let normal = encode::normal(&reading);
        assert_eq!(reading_of(&normal).as_ref(), Some(&reading));
        for _ in 0..5 {
            let wasteful = encode::wasteful(&reading, &mut rng);
            assert_eq!(reading_of(&wasteful).as_ref(), Some(&reading));
            assert!(write::normal(&wasteful).0 == normal);
            longer += usize::from(wasteful.len() > normal.len());
        }
    }
    assert!(longer > 1000, "only {longer} encodings were wasteful");
}

/// Normal forms are equal exactly if readings are: over pairs of encodings of
/// one reading, one of which may have a bit or two changed.
#[test]
fn equal_normal_forms_exactly_if_equal_readings() {
    let (mut same, mut different) = (0, 0);
    for stream in 0..20_000 {
        let mut rng = Rng::new(12, stream);
        let reading = reading::reading(&mut rng);
        let bytes = encode::wasteful(&reading, &mut rng);
        let mut changed = encode::wasteful(&reading, &mut rng);
        for _ in 0..rng.below(3) {
            let at = rng.below(changed.len());
            changed[at] ^= 1 << rng.below(8);
        }
        let Some(other) = reading_of(&changed) else { continue };
        let equal = other == reading;
        assert_eq!(write::normal(&changed).0 == write::normal(&bytes).0, equal);
        same += usize::from(equal && changed != bytes);
        different += usize::from(!equal);
    }
    assert!(same > 2000 && different > 2000, "{same} the same, {different} different");
}

/// The real recordings beside the repository.
#[test]
fn real_recordings() {
    let folder = compare::recordings_folder();
    let paths = compare::recordings_in(&folder);
    if paths.is_empty() {
        eprintln!("skipped: no recordings in ../shared/recordings");
        return;
    }
    for path in paths {
        let name = path.file_name().unwrap().to_string_lossy().into_owned();
        let bytes = std::fs::read(&path).unwrap();
        let attempt = hold_fast_against_plain(&name, &bytes);
        assert_eq!(attempt.refusal, None, "{name}");
        assert!(attempt.messages() > 1000, "{name}");
        check_laws(&name, &bytes, &attempt);
        check_written_back(&name, &bytes, &attempt);
    }
}

/// The made recordings are accepted and are what they are said to be.
#[test]
fn made_recordings() {
    let sizes = [("typical", 240..310), ("tiny", 70..110), ("medium", 430..560)];
    let others = [("large", 1400..2500), ("chat", 150..400), ("strings", 700..2500)];
    for (name, mean) in sizes.into_iter().chain(others) {
        let bytes = second::mix::make(name, 2_000_000).unwrap();
        let attempt = hold_fast_against_plain(name, &bytes);
        assert_eq!(attempt.refusal, None, "{name}");
        check_laws(name, &bytes, &attempt);
        let found = bytes.len() / attempt.blocks.len();
        assert!(mean.contains(&found), "{name}: {found} bytes a block");
        let messages = attempt.blocks.iter().flat_map(|block| &block.messages);
        let updates = messages.filter(|m| matches!(m.sent, Message::Update(_))).count();
        assert!(updates > 1000, "{name}: {updates} updates");
    }
}
