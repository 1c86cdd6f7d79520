//! Boundaries of the number of present marks: cases that say what it is behind each
//! whole block.

use super::boundary::{blocks, own_update, server_info, time, tour, Cases};
use super::{Expect, EDGES};
use crate::message::Refusal;
use crate::read::{BLOCK_HEAD, BLOCK_SIZE};
use crate::scene::{ENTITIES, MAX_ENTITY};

/// The bytes of the track line that `blocks` writes.
const TRACK_LINE: usize = 2;
const ONE: u32 = 0x3F80_0000;
const UNKNOWN: u8 = 21;

/// The shortest update of an entity.
fn update(entity: u16) -> Vec<u8> {
    match entity {
        0..=255 => vec![0x80, entity as u8],
        _ => wide(entity),
    }
}

/// An update in two bytes of entity, needed or not.
fn wide(entity: u16) -> Vec<u8> {
    [&[0x81, 0x40], &entity.to_le_bytes()[..]].concat()
}

/// The shortest updates of some entities.
pub(super) fn updates(entities: impl IntoIterator<Item = u16>) -> Vec<u8> {
    entities.into_iter().flat_map(update).collect()
}

/// A block's messages, and the number of present marks behind it.
type Counted = (Vec<u8>, u16);

impl Cases {
    pub(super) fn present(&mut self) {
        self.same_entity();
        self.times_between();
        self.many_times();
        self.server_infos_between();
        self.refused_blocks();
        self.heads_refused();
        self.ended_or_empty();
        self.other_messages();
        self.every_entity();
        self.widths_of_the_number();
        self.around_an_array();
    }

    fn counted(&mut self, name: &str, good: &[Counted]) {
        self.counted_and(name, good, None, Expect::Accepted);
    }

    /// Good blocks, then one that is refused at a place of its messages.
    fn counted_then(
        &mut self,
        name: &str,
        good: &[Counted],
        refused: &[u8],
        number: u8,
        at: usize,
    ) {
        let before: usize = good.iter().map(|(body, _)| BLOCK_HEAD + body.len()).sum();
        let place = TRACK_LINE + before + BLOCK_HEAD + at;
        self.counted_and(name, good, Some(refused), Expect::Refused(Refusal { number, place }));
    }

    fn counted_and(&mut self, name: &str, good: &[Counted], last: Option<&[u8]>, expect: Expect) {
        let bodies: Vec<&[u8]> = good.iter().map(|(body, _)| &body[..]).chain(last).collect();
        let counts = good.iter().map(|(_, count)| *count).collect();
        self.add_counted(&format!("present: {name}"), blocks(&bodies), expect, counts);
    }

    fn same_entity(&mut self) {
        let five = || update(5);
        self.counted("an entity twice in a block", &[(five().repeat(2), 1)]);
        self.counted("an entity in two blocks", &[(five(), 1), (five(), 1)]);
        for entity in [0, 5, 255] {
            let (narrow, wide) = (update(entity), wide(entity));
            let both =
                [(&narrow, &wide, "one byte, then in two"), (&wide, &narrow, "two, then one")];
            for (first, second, how) in both {
                let name = format!("entity {entity} in {how}");
                self.counted(&name, &[([&first[..], second].concat(), 1), (first.clone(), 1)]);
            }
        }
        let full = [&[0xFF, 0x7F, 5, 0][..], &[9; 14]].concat();
        self.counted("every field sent, then none", &[([full, five()].concat(), 1)]);
        for shared in [&[0, 256, 512][..], &[255, 511], &[MAX_ENTITY & 0x1FF, MAX_ENTITY]] {
            let body = updates(shared.iter().copied());
            let name = format!("entities {shared:?}, which share bits");
            let count = shared.len() as u16;
            self.counted(&name, &[(body.clone(), count), (body, count)]);
        }
        let one_more = |(i, entity): (usize, &u16)| (update(*entity), i as u16 + 1);
        let more: Vec<Counted> = EDGES.iter().enumerate().map(one_more).collect();
        self.counted("one entity more in each block", &more);
    }

    fn times_between(&mut self) {
        let (five, six, tick) = (|| update(5), || update(6), || time(ONE));
        let one: [(&str, Vec<Vec<u8>>, u16); 8] = [
            ("time alone", vec![tick()], 0),
            ("time first", vec![tick(), five(), six()], 2),
            ("time last", vec![five(), six(), tick()], 0),
            ("time between two entities", vec![five(), tick(), six()], 1),
            ("an entity before and after a time", vec![five(), tick(), five()], 1),
            ("two entities, a time, one of them", vec![five(), six(), tick(), six()], 1),
            ("the same time twice", vec![five(), tick(), tick(), five(), six()], 2),
            ("time 0, then 0 again", vec![time(0), five(), time(0), six()], 1),
        ];
        for (name, messages, count) in one {
            self.counted(name, &[(messages.concat(), count)]);
        }
        let apart = [(five(), 1), (tick(), 0), (five(), 1), (six(), 2)];
        self.counted("time in a block of its own", &apart);
        let game = [
            ([time(1), five(), six()].concat(), 2),
            ([time(2), six()].concat(), 1),
            (time(3), 0),
            ([five(), six(), update(7)].concat(), 3),
            ([time(4), update(MAX_ENTITY)].concat(), 1),
        ];
        self.counted("a time at the start of a block", &game);
    }

    /// A reader may keep a mark as a count of times, in one byte or less.
    fn many_times(&mut self) {
        for count in [254, 255, 256, 257] {
            let many = time(1).repeat(count);
            let after = updates([5, 6]);
            let name = format!("{count} times between updates");
            self.counted(&name, &[(update(5), 1), (many, 0), (after, 2)]);
        }
        let each = ([time(1), update(5), update(5)].concat(), 1);
        self.counted("an entity twice after each of 300 times", &vec![each; 300]);
    }

    fn server_infos_between(&mut self) {
        let (five, six, info) = (|| update(5), || update(6), || server_info(2));
        let one: [(&str, Vec<Vec<u8>>, u16); 5] = [
            ("serverinfo first", vec![info(), five(), six()], 2),
            ("serverinfo last", vec![five(), six(), info()], 0),
            ("serverinfo between", vec![five(), six(), info(), six()], 1),
            ("serverinfo twice", vec![five(), info(), info(), five(), six()], 2),
            ("serverinfo and times", vec![time(ONE), five(), info(), six(), time(0), five()], 1),
        ];
        for (name, messages, count) in one {
            self.counted(name, &[(messages.concat(), count)]);
        }
        let apart = [(updates([5, 6]), 2), (info(), 0), (six(), 1), (five(), 2)];
        self.counted("serverinfo in a block of its own", &apart);
    }

    /// What a refused block did before its refusal is undone.
    fn refused_blocks(&mut self) {
        let good = [(updates([5, 6]), 2)];
        let bad: [(&str, Vec<u8>, Vec<u8>, u8); 10] = [
            ("updates, then a bad number", updates([7, 8]), vec![UNKNOWN], 6),
            ("the same again, then a bad number", updates([5, 6]), vec![UNKNOWN], 6),
            ("time, then a bad number", time(ONE), vec![UNKNOWN], 6),
            ("time and updates, then a bad number", [time(ONE), update(7)].concat(), vec![0], 6),
            ("serverinfo, then a bad number", server_info(1), vec![UNKNOWN], 6),
            ("an update cut", update(7), vec![0x82, 8, 1], 5),
            ("an update with a reserved bit", update(7), vec![0x81, 0x80, 8], 8),
            ("an update of entity 600", update(7), wide(MAX_ENTITY + 1), 9),
            ("a bad time", update(7), time(0x7F80_0000), 10),
            ("a disconnect and a byte", [update(7), vec![2]].concat(), vec![1], 11),
        ];
        for (name, before, message, number) in bad {
            let body = [&before[..], &message].concat();
            let name = format!("refused: {name}");
            self.counted_then(&name, &good, &body, number, before.len());
        }
        let first = [update(5), vec![UNKNOWN]].concat();
        self.counted_then("refused in the first block", &[], &first, 6, 2);
        let later = [(updates([5, 6]), 2), (time(ONE), 0), (update(5), 1)];
        self.counted_then("refused in the fourth block", &later, &first, 6, 2);
    }

    /// A good block with a mark, then one whose head is refused.
    fn heads_refused(&mut self) {
        let second = TRACK_LINE + BLOCK_HEAD + update(5).len();
        let whole = blocks(&[&update(5), &update(6)]);
        let with = |at: usize, bytes: &[u8]| {
            let mut changed = whole.clone();
            changed[at..at + bytes.len()].copy_from_slice(bytes);
            changed
        };
        let heads = [
            ("cut", whole[..second + BLOCK_HEAD - 1].to_vec(), 2),
            ("a size of 8,001", with(second, &8001u32.to_le_bytes()), 3),
            ("a body cut", whole[..whole.len() - 1].to_vec(), 2),
            ("an angle", with(second + 4, &0x7F80_0000u32.to_le_bytes()), 4),
        ];
        for (what, bytes, number) in heads {
            let expect = Expect::Refused(Refusal { number, place: second });
            self.add_counted(&format!("present: head refused: {what}"), bytes, expect, vec![1]);
        }
    }

    fn ended_or_empty(&mut self) {
        let end = || vec![2];
        self.counted("a disconnect behind updates", &[([updates([5, 6]), end()].concat(), 2)]);
        self.counted("a disconnect in a block of its own", &[(updates([5, 6]), 2), (end(), 2)]);
        let timed = [update(5), time(ONE), end()].concat();
        self.counted("a disconnect behind a time", &[(timed, 0)]);
        let ended = [update(5), end()].concat();
        let place = TRACK_LINE + BLOCK_HEAD + ended.len();
        let expect = Expect::Refused(Refusal { number: 11, place });
        let bytes = blocks(&[&ended, &update(6)]);
        self.add_counted("present: an update behind a disconnect", bytes, expect, vec![1]);
        let empty = |count| (Vec::new(), count);
        let between = [empty(0), (update(5), 1), empty(1), (time(ONE), 0), empty(0)];
        self.counted("empty blocks", &between);
    }

    /// Every message but serverinfo, time and updates, a block each, behind updates of
    /// two entities that some of them name.
    fn other_messages(&mut self) {
        let changing = |message: &Vec<u8>| matches!(message[0], 7 | 11 | 128..);
        let others: Vec<Vec<u8>> = tour().into_iter().filter(|m| !changing(m)).collect();
        for (part, messages) in others.chunks(10).enumerate() {
            let start = [server_info(4), updates([5, MAX_ENTITY])].concat();
            let rest = messages.iter().map(|message| (message.clone(), 2));
            let all: Vec<Counted> = [(start, 2)].into_iter().chain(rest).collect();
            self.counted(&format!("messages that leave it, part {part}"), &all);
        }
    }

    fn every_entity(&mut self) {
        const ALL: u16 = ENTITIES as u16;
        let all = || updates(0..ALL);
        self.counted("all 600 in a block", &[(all(), ALL)]);
        self.counted("all 600, twice", &[(all(), ALL), (all(), ALL)]);
        self.counted("all 600, backwards", &[(updates((0..ALL).rev()), ALL)]);
        let own: Vec<u8> = (0..ALL).flat_map(own_update).collect();
        self.counted("all 600 in two bytes", &[(own, ALL)]);
        self.counted("all 600, time, again", &[(all(), ALL), (time(ONE), 0), (all(), ALL)]);
        let cleared = [(all(), ALL), (server_info(1), 0), (update(599), 1)];
        self.counted("all 600, serverinfo, one", &cleared);
        let hundreds: Vec<Counted> =
            (1..=6).map(|i| (updates(100 * i - 100..100 * i), 100 * i)).collect();
        self.counted("all 600 over six blocks", &hundreds);
        let but_last = [(updates(0..MAX_ENTITY), 599), (update(MAX_ENTITY), 600)];
        self.counted("all but the last, and the last", &but_last);
        let but_first = [(updates(1..ALL), 599), (update(0), 600), (update(0), 600)];
        self.counted("all but the first, and the first twice", &but_first);
    }

    /// What is kept in one byte, or in nine bits, comes back to 0.
    fn widths_of_the_number(&mut self) {
        for power in [256, 512] {
            let steps = [power - 1, power, power + 1];
            let body =
                |count: u16| if count < power { updates(0..count) } else { update(count - 1) };
            let all: Vec<Counted> = steps.iter().map(|count| (body(*count), *count)).collect();
            self.counted(&format!("around {power}"), &all);
        }
    }

    /// Blocks that end around what a program may hold of its input at once.
    fn around_an_array(&mut self) {
        const ARRAY: usize = 65_536;
        let longest = BLOCK_SIZE as usize;
        let nop = |count: usize| vec![1; count];
        for end in [ARRAY - 1, ARRAY, ARRAY + 1] {
            let size = (end - TRACK_LINE) % (BLOCK_HEAD + longest) - BLOCK_HEAD;
            let mut good = vec![(nop(longest), 0); (end - TRACK_LINE) / (BLOCK_HEAD + longest)];
            good.push(([updates([5, 7]), nop(size - 4)].concat(), 2));
            good.push(([update(9), nop(longest - 2)].concat(), 3));
            self.counted(&format!("a block ends at {end}"), &good);
            let refused = [update(11), vec![UNKNOWN]].concat();
            self.counted_then(&format!("refused behind {end}"), &good, &refused, 6, 2);
            good.pop();
            self.counted_then(&format!("refused at {end}"), &good, &refused, 6, 2);
        }
    }
}
