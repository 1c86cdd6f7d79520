//! The marked recording of document 01, its refusal, and the edges of room and input.

use cobbrundle::{check, normalise, normalise_into, Refusal, Summary};

const HEAD: [u8; 12] = [0; 12];
const TIME: [u8; 5] = [0x07, 0x00, 0x00, 0x80, 0x3F];
const BASELINE: [u8; 16] = [0x16, 5, 0, 3, 0, 0, 0, 0, 2, 0, 0, 0, 0, 0xC0, 0, 0];
const MARKED: Refusal = Refusal { number: 6, place: 19 };

/// Track -1; a block with a time, a baseline and the update given; a block with a disconnect.
fn recording(update: &[u8]) -> Vec<u8> {
    let body = [&TIME[..], &BASELINE, update].concat();
    let size = u32::try_from(body.len()).unwrap().to_le_bytes();
    [b"-1\n", &size[..], &HEAD, &body, &[1, 0, 0, 0], &HEAD, &[2]].concat()
}

fn marked() -> Vec<u8> {
    recording(&[0xC2, 0x05, 0x00, 0x08, 0x02])
}

fn normal() -> Vec<u8> {
    recording(&[0x82, 0x05, 0x08, 0x02])
}

/// The marked recording with its byte 19 set to a number that no message has.
fn refused() -> Vec<u8> {
    let mut bytes = marked();
    bytes[19] = 0x15;
    bytes
}

#[test]
fn the_marked_recording_is_accepted() {
    assert_eq!(marked().len(), 62);
    assert_eq!(check(&marked()), Ok(Summary { track: -1, blocks: 2, messages: 4 }));
}

#[test]
fn its_normal_form_has_61_bytes_and_is_its_own() {
    assert_eq!(normalise(&marked()), Ok(normal()));
    assert_eq!(normal().len(), 61);
    assert_eq!(normalise(&normal()), Ok(normal()));
    assert_eq!(check(&normal()), check(&marked()));
}

#[test]
fn a_refusal_has_its_number_and_place() {
    assert_eq!(check(&refused()), Err(MARKED));
    assert_eq!(normalise(&refused()), Err(MARKED));
    assert_eq!(MARKED.to_string(), "refused 6 at 19");
}

#[test]
fn room_that_is_too_short_keeps_its_bytes() {
    let mut room = [0xAA; 60];
    assert_eq!(normalise_into(&marked(), &mut room), Err(Refusal { number: 12, place: 61 }));
    assert_eq!(room, [0xAA; 60]);
    assert_eq!(normalise_into(&marked(), &mut []), Err(Refusal { number: 12, place: 61 }));
}

#[test]
fn a_refusal_of_the_recording_comes_before_that_of_the_room() {
    assert_eq!(normalise_into(&refused(), &mut []), Err(MARKED));
    let mut room = [0xAA; 62];
    assert_eq!(normalise_into(&refused(), &mut room), Err(MARKED));
    assert_eq!(room, [0xAA; 62]);
}

#[test]
fn room_behind_the_normal_form_keeps_its_bytes() {
    let mut exact = [0xAA; 61];
    assert_eq!(normalise_into(&marked(), &mut exact), Ok(61));
    assert_eq!(exact[..], normal());
    let mut more = [0xAA; 64];
    assert_eq!(normalise_into(&marked(), &mut more), Ok(61));
    assert_eq!(more[..61], normal());
    assert_eq!(more[61..], [0xAA; 3]);
}

#[test]
fn empty_input_is_refused_at_its_end() {
    let refusal = Refusal { number: 1, place: 0 };
    assert_eq!(check(&[]), Err(refusal));
    assert_eq!(normalise(&[]), Err(refusal));
}
