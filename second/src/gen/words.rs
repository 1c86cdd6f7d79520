//! Words for `given`: a scene changed by hand, and a message asked for in it.
//!
//! First come lists that are written out, the same for every seed, about a few
//! recordings. Then random lists about generated recordings take their turn.

use super::boundary::{self, blocks, marked_recording, server_info, time, tour};
use super::present::updates;
use super::rng::Rng;
use super::{encode, reading, Input, EDGES};
use crate::given::MOST_ASKED;
use crate::read::read_recording;
use crate::scene::{Scene, ENTITIES, MAX_ENTITY, PLAYERS, STATICS};
use std::sync::OnceLock;

const NO_BLOCKS: &[u8] = b"3\n";
const ONE: u32 = 0x3F80_0000;
/// So many recordings have all lists about them.
const RECORDINGS: usize = 6;
/// More bytes than most boundary cases have.
const LONG: usize = 60_000;
/// Random words are about the first so many generated recordings behind the boundary
/// cases, and about these.
const GENERATED: usize = 2000;

/// A recording, and words about the scene that its good blocks lead to.
#[derive(Clone)]
pub struct Question {
    pub name: String,
    pub recording: Vec<u8>,
    pub words: Vec<String>,
}

/// Lists for every fixed recording: what each is for, and its words.
///
/// `<m>` is the first marked entity and `<u>` the first that is not, `<M>` and `<U>`
/// the same as the two bytes of a message. `<right>` is how many marks are set behind
/// the list's own words about marks. Without `ended=0` it is 11 that an ended
/// recording shows.
const LISTS: &[(&str, &str)] = &[
    // Places, and refusals of the message.
    ("nothing asked", ""),
    ("no bytes", "ask="),
    ("a nop", "ask=01"),
    ("the second message", "ended=0 ask=011c at=1"),
    ("at the end", "ask=011c at=2"),
    ("past the end", "ask=011c at=3"),
    ("past the end of no bytes", "at=1"),
    ("the highest place", "ask=01 at=4294967295"),
    ("the last words count", "ended=1 ask=15 at=9 ended=0 ask=01 at=0"),
    ("capitals and leading zeros", "ended=0 time=3F80000a pause=007 ask=08C1fE00 at=000"),
    ("cut", "ended=0 ask=010305 at=1"),
    ("an unknown number", "ended=0 ask=15"),
    ("FF in a string", "ended=0 ask=0841ff00"),
    ("a reserved bit", "ended=0 ask=818005"),
    ("entity 600", "ended=0 ask=81405802"),
    // Statics: 128 is in the ranges, and the next message 20 refused.
    ("128 statics", "ended=0 statics=128 ask=01"),
    ("the 128th static", "ended=0 statics=127 ask=1400000000000000000000000000"),
    ("the 129th static", "ended=0 statics=128 ask=1400000000000000000000000000"),
    ("the 129th static, cut", "ended=0 statics=128 ask=14"),
    ("129 statics", "ended=0 statics=129 ask=01"),
    ("129 statics, at the end", "statics=129 ask=01 at=1"),
    ("129 statics, past the end", "statics=129 ask=01 at=2"),
    ("129 statics, serverinfo", "ended=0 statics=129 ask=0b0f0000000100000000"),
    ("255 statics", "ended=0 statics=255 ask=01"),
    ("129 statics, then none", "ended=0 statics=129 statics=0 ask=01"),
    // The limit: 16 is in the ranges, and its players are below it.
    ("the last player of 16", "ended=0 limit=16 ask=0e0f0100"),
    ("one past the last of 16", "ended=0 limit=16 ask=0e100100"),
    ("no players", "ended=0 limit=0 ask=0e000100"),
    ("limit 17", "ended=0 limit=17 ask=0e100100"),
    ("limit 17, no bytes", "limit=17"),
    ("limit 255, past the end", "limit=255 at=1"),
    // The view: 599 is in the ranges.
    ("view 599", "ended=0 view=599 ask=01"),
    ("view 600", "ended=0 view=600 ask=01"),
    ("view 600, set anew", "ended=0 view=600 ask=055702"),
    ("view 65,535", "ended=0 view=65535 ask=01"),
    ("view 600, past the end", "view=600 at=1"),
    // The time: sign clear, exponent below 255, never lower.
    ("the largest time", "ended=0 time=7f7fffff ask=01"),
    ("the largest time again", "ended=0 time=7f7fffff ask=07ffff7f7f"),
    ("a time below the largest", "ended=0 time=7f7fffff ask=07feff7f7f"),
    ("a lower time", "ended=0 time=3f800000 ask=07ffff7f3f"),
    ("time 0 again", "ended=0 time=00000000 ask=0700000000"),
    ("no time, then 0", "ended=0 time=none ask=0700000000"),
    ("infinity", "ended=0 time=7f800000 ask=01"),
    ("infinity again", "ended=0 time=7f800000 ask=070000807f"),
    ("infinity, no bytes", "time=7f800000"),
    ("infinity, then none", "ended=0 time=7f800000 time=none ask=01"),
    ("no number", "ended=0 time=7fc00000 ask=01"),
    ("minus zero", "ended=0 time=80000000 ask=01"),
    ("all ones", "ended=0 time=ffffffff ask=01"),
    ("all ones, past the end", "time=ffffffff at=1"),
    // Ended: 11 where a byte stands, behind 14 alone.
    ("ended", "ended=1 ask=01"),
    ("ended, the second byte", "ended=1 ask=0115 at=1"),
    ("ended, at the end", "ended=1 ask=01 at=1"),
    ("ended, past the end", "ended=1 ask=01 at=2"),
    ("ended, no bytes", "ended=1"),
    ("ended, 129 statics", "ended=1 statics=129 ask=01"),
    ("a disconnect", "ended=0 ask=02"),
    // Pause: any byte.
    ("pause 1", "ended=0 pause=1 ask=01"),
    ("pause 255", "ended=0 pause=255 ask=01"),
    ("pause 255, then 2", "ended=0 pause=255 ask=1802"),
    // The number of present marks, with the marks as they are: 14 goes before all else.
    ("the right number", "ended=0 present=<right> ask=01"),
    ("one too many", "ended=0 present=<right+1> ask=01"),
    ("one too many, at the end", "ended=0 present=<right+1> ask=01 at=1"),
    ("one too many, past the end", "ended=0 present=<right+1> ask=01 at=2"),
    ("one too many, no bytes", "present=<right+1>"),
    ("one too many, ended", "ended=1 present=<right+1> ask=01"),
    ("one too many, ended, at the end", "ended=1 present=<right+1> ask=01 at=1"),
    ("one too many, ended, past the end", "ended=1 present=<right+1> ask=01 at=2"),
    ("one too many, an unknown number", "ended=0 present=<right+1> ask=15"),
    ("one too many, an update of one more", "ended=0 present=<right+1> ask=8140<U>"),
    ("one too many, time", "ended=0 time=none present=<right+1> ask=0700000000"),
    ("one too many, serverinfo", "ended=0 present=<right+1> ask=0b0f0000000100000000"),
    ("one too few", "ended=0 present=<right-1> ask=01"),
    ("one too few, at the end", "ended=0 present=<right-1> ask=01 at=1"),
    ("one too few, past the end", "ended=0 present=<right-1> ask=01 at=2"),
    ("one too few, an update of a marked one", "ended=0 present=<right-1> ask=8140<M>"),
    ("256 too many", "ended=0 present=<right+256> ask=01"),
    ("600", "ended=0 present=600 ask=01"),
    ("65,535", "ended=0 present=65535 ask=01"),
    ("wrong, then right", "ended=0 present=65535 present=<right> ask=01"),
    ("a wrong number and 129 statics", "ended=0 present=<right+1> statics=129 ask=01"),
    // Marks set and taken away by hand, with and without the number.
    ("a mark more", "ended=0 mark=<u>:1 present=<right> ask=01"),
    ("a mark more, updated", "ended=0 mark=<u>:1 present=<right> ask=8140<U>"),
    ("a mark more, no number", "ended=0 mark=<u>:1 ask=01"),
    ("a mark more, no number, updated", "ended=0 mark=<u>:1 ask=8140<U>"),
    ("a mark more, no number, at the end", "ended=0 mark=<u>:1 ask=01 at=1"),
    ("a mark more, no number, past the end", "ended=0 mark=<u>:1 ask=01 at=2"),
    ("a mark more, time", "ended=0 time=none mark=<u>:1 present=<right> ask=0700000000"),
    ("a mark more, serverinfo", "ended=0 mark=<u>:1 present=<right> ask=0b0f0000000100000000"),
    ("a mark less", "ended=0 mark=<m>:0 present=<right> ask=01"),
    ("a mark less, updated", "ended=0 mark=<m>:0 present=<right> ask=8140<M>"),
    ("a mark less, no number", "ended=0 mark=<m>:0 ask=01"),
    ("a mark less, no number, updated", "ended=0 mark=<m>:0 ask=8140<M>"),
    ("a mark for another", "ended=0 mark=<m>:0 mark=<u>:1 ask=01"),
    ("a mark set again", "ended=0 mark=<m>:1 present=<right> ask=8140<M>"),
    ("a mark set and taken away", "ended=0 mark=<u>:1 mark=<u>:0 ask=8140<U>"),
    ("0 and 599 marked", "ended=0 mark=0:1 mark=599:1 present=<right> ask=8000"),
    ("0 and 599 not marked", "ended=0 mark=0:0 mark=599:0 present=<right> ask=81405702"),
    ("marks that share bits", "ended=0 mark=87:1 mark=599:0 present=<right> ask=81405702"),
];

/// What stands before the ask of each message: a scene that allows it, with a mark
/// more; and the same with a number that is not that of its marks.
const BEFORE_MESSAGES: [(&str, &str); 2] = [
    ("", "ended=0 time=none limit=16 statics=0 mark=<u>:1 present=<right>"),
    (", one too few", "ended=0 time=none limit=16 statics=0 mark=<u>:1 present=<right-1>"),
];

/// Words that are none.
const WRONG: [&str; 30] = [
    "",
    "statics",
    "statics=",
    "statics=-1",
    "statics=+1",
    "statics=256",
    "statics=1x",
    "Statics=1",
    "limit=256",
    "pause=256",
    "view=65536",
    "present=65536",
    "present=18446744073709551616",
    "time=",
    "time=3f80000",
    "time=03f800000",
    "time=3f80000g",
    "time=None",
    "ended=2",
    "ended=",
    "mark=600:1",
    "mark=5",
    "mark=5:2",
    "mark=:1",
    "ask=0",
    "ask=0g",
    "at=4294967296",
    "at=",
    "=1",
    "track=1",
];

/// How many questions are written out.
pub fn boundary_count() -> usize {
    boundaries().len()
}

/// The `index`-th question of a seed.
pub fn question(seed: u64, index: usize) -> Question {
    boundaries().get(index).cloned().unwrap_or_else(|| random(seed, index))
}

/// Every `step`-th of the lists, about one recording.
pub fn about(name: &str, recording: &[u8], step: usize) -> Vec<Question> {
    let scene = read_recording(recording).scene;
    let question = |(what, list): &(&str, &str)| Question {
        name: format!("{name}, {what}"),
        recording: recording.to_vec(),
        words: words(list, &scene),
    };
    LISTS.iter().step_by(step).map(question).collect()
}

fn boundaries() -> &'static [Question] {
    static QUESTIONS: OnceLock<Vec<Question>> = OnceLock::new();
    QUESTIONS.get_or_init(|| {
        let lists = recordings().into_iter().flat_map(|(name, bytes)| about(name, &bytes, 1));
        let others = [messages(), every_mark(), long_asks(), long_recordings(), wrong_words()];
        lists.chain(others.into_iter().flatten()).collect()
    })
}

/// The recordings that all lists are about.
fn recordings() -> [(&'static str, Vec<u8>); RECORDINGS] {
    let bad = [updates([7]), time(ONE), vec![21]].concat();
    [
        ("no blocks", NO_BLOCKS.to_vec()),
        ("two marks", two_marks()),
        ("ended", marked_recording()),
        ("every mark", blocks(&[&updates(0..=MAX_ENTITY)])),
        ("a refused block", blocks(&[&updates([5, 6]), &bad])),
        ("a refused track line", b"x".to_vec()),
    ]
}

/// Baselines, a time, and updates of entities 5 and 599, in two blocks.
fn two_marks() -> Vec<u8> {
    let baseline = |entity: u16| {
        let [low, high] = entity.to_le_bytes();
        vec![22, low, high, 3, 0, 0, 0, 0, 2, 0, 0, 0, 0, 0xC0, 0, 0]
    };
    let first = [server_info(4), baseline(5), baseline(MAX_ENTITY), time(ONE)].concat();
    blocks(&[&first, &updates([5, MAX_ENTITY])])
}

/// A list's words about a scene.
fn words(list: &str, scene: &Scene) -> Vec<String> {
    let first = |mark| scene.present.iter().position(|m| *m == mark).unwrap_or(5) as u16;
    let (marked, other) = (first(true), first(false));
    let list = list
        .replace("<m>", &marked.to_string())
        .replace("<u>", &other.to_string())
        .replace("<M>", &hex(&marked.to_le_bytes()))
        .replace("<U>", &hex(&other.to_le_bytes()));
    let right = marks_behind(&list, scene);
    let list = list
        .replace("<right>", &right.to_string())
        .replace("<right+1>", &right.wrapping_add(1).to_string())
        .replace("<right-1>", &right.wrapping_sub(1).to_string())
        .replace("<right+256>", &right.wrapping_add(256).to_string());
    list.split_whitespace().map(String::from).collect()
}

/// How many marks are set behind a list's words about marks.
fn marks_behind(list: &str, scene: &Scene) -> u16 {
    let mut marks = scene.present;
    let words = list.split_whitespace().filter_map(|word| word.strip_prefix("mark="));
    for (entity, mark) in words.filter_map(|value| value.split_once(':')) {
        marks[entity.parse::<usize>().expect("a list names an entity")] = mark == "1";
    }
    marks.iter().filter(|mark| **mark).count() as u16
}

fn hex(bytes: &[u8]) -> String {
    bytes.iter().map(|byte| format!("{byte:02x}")).collect()
}

fn ask(bytes: &[u8]) -> String {
    format!("ask={}", hex(bytes))
}

/// Every message, and numbers that no message has.
fn messages() -> Vec<Question> {
    let recording = two_marks();
    let scene = read_recording(&recording).scene;
    let mut questions = Vec::new();
    for (what, before) in BEFORE_MESSAGES {
        for message in tour().into_iter().chain([0, 21, 35, 127].map(|number| vec![number])) {
            let name = format!("message {}{what}", message[0]);
            let words = [words(before, &scene), vec![ask(&message)]].concat();
            questions.push(Question { name, recording: recording.clone(), words });
        }
    }
    questions
}

/// All marks set by hand, or all but the last: then the last is updated, or time
/// clears them.
fn every_mark() -> Vec<Question> {
    let question = |marks: usize, present: usize, message: &str| {
        let marks_set = (0..marks).map(|entity| format!("mark={entity}:1"));
        let rest = [format!("present={present}"), format!("ask={message}")];
        Question {
            name: format!("{marks} marks, {present}, {message}"),
            recording: NO_BLOCKS.to_vec(),
            words: marks_set.chain(rest).collect(),
        }
    };
    vec![
        question(ENTITIES, ENTITIES, "81405702"),
        question(ENTITIES - 1, ENTITIES - 1, "81405702"),
        question(ENTITIES, ENTITIES - 1, "81405702"),
        question(ENTITIES, ENTITIES % 512, "01"),
        question(ENTITIES, ENTITIES, "0700000000"),
    ]
}

/// As many bytes as can be asked for, and one more; strings of 2,046 and 2,047.
/// A few lists about each recording whose blocks end around what a program may hold at once.
fn long_recordings() -> Vec<Question> {
    let is_long = |input: &Input| input.name.starts_with("present: ") && input.bytes.len() > LONG;
    let long = boundary::cases().into_iter().filter(is_long);
    long.flat_map(|input| about(&input.name, &input.bytes, 20)).collect()
}

fn long_asks() -> Vec<Question> {
    let question = |name: &str, bytes: Vec<u8>, at: usize| Question {
        name: name.into(),
        recording: two_marks(),
        words: vec![ask(&bytes), format!("at={at}")],
    };
    let print = |length| [vec![8], vec![b'x'; length], vec![0]].concat();
    vec![
        question("the last of 8,192 nops", vec![1; MOST_ASKED], MOST_ASKED - 1),
        question("the end of 8,192 nops", vec![1; MOST_ASKED], MOST_ASKED),
        question("past 8,192 nops", vec![1; MOST_ASKED], MOST_ASKED + 1),
        question("8,193 nops", vec![1; MOST_ASKED + 1], 0),
        question("a print of 2,046", print(2046), 0),
        question("a print of 2,047", print(2047), 0),
    ]
}

/// A word that is none between others, before a refusal, and before another.
fn wrong_words() -> Vec<Question> {
    let question = |words: &[&str]| Question {
        name: format!("wrong words {words:?}"),
        recording: two_marks(),
        words: words.iter().map(|word| word.to_string()).collect(),
    };
    let one = WRONG.iter().map(|wrong| question(&["pause=1", wrong, "ask=01"]));
    let others = [
        question(&["statics=129", "ask=01", "statics=256"]),
        question(&["limit=256", "view=65536"]),
        question(&["view=65536", "limit=256"]),
    ];
    one.chain(others).collect()
}

/// A list about a generated recording, or random words about one of those above or
/// about a generated one.
fn random(seed: u64, index: usize) -> Question {
    let mut rng = Rng::new(seed, index as u64);
    let input = super::generate(seed, rng.below(super::boundary_count() + GENERATED));
    let of_input = |words: &str| format!("{words} {seed}/{index} about {}", input.name);
    if rng.chance(30) {
        let (what, list) = rng.pick(LISTS);
        let words = words(list, &read_recording(&input.bytes).scene);
        return Question { name: of_input(what), recording: input.bytes, words };
    }
    let (mut name, mut recording) = (of_input("random words"), input.bytes);
    if rng.chance(20) {
        let (what, bytes) = recordings()[rng.below(RECORDINGS)].clone();
        (name, recording) = (format!("random words {seed}/{index} about {what}"), bytes);
    }
    let words = random_words(rng, read_recording(&recording).scene);
    Question { name, recording, words }
}

fn random_words(rng: Rng, scene: Scene) -> Vec<String> {
    let mut writer = Writer { rng, scene, words: Vec::new() };
    writer.change();
    if writer.rng.chance(20) {
        writer.spoil();
    }
    writer.ask();
    writer.words
}

/// Words, and the scene that they lead to while it is one.
struct Writer {
    rng: Rng,
    scene: Scene,
    words: Vec<String>,
}

impl Writer {
    /// Changes that leave the scene in its ranges.
    fn change(&mut self) {
        if self.scene.ended && self.rng.chance(80) {
            self.scene.ended = false;
            self.words.push("ended=0".into());
        }
        for _ in 0..self.rng.below(6) {
            self.change_one();
        }
        let marks = self.scene.present.iter().filter(|mark| **mark).count() as u16;
        if marks != self.scene.present_count || self.rng.chance(20) {
            self.words.push(format!("present={marks}"));
        }
        self.scene.present_count = marks;
    }

    fn change_one(&mut self) {
        let Writer { rng, scene, .. } = self;
        let word = match rng.below(12) {
            0 => {
                scene.statics = rng.pick(&[0, 1, 127, STATICS]);
                format!("statics={}", scene.statics)
            }
            1 => {
                scene.limit = rng.pick(&[0, 1, 2, 15, PLAYERS as u8]);
                format!("limit={:02}", scene.limit)
            }
            2 => {
                scene.view = rng.pick(&EDGES);
                format!("view={}", scene.view)
            }
            3 => {
                scene.pause = rng.byte();
                format!("pause={}", scene.pause)
            }
            4 | 5 => self.change_time(),
            6 => {
                scene.ended = rng.chance(30);
                format!("ended={}", u8::from(scene.ended))
            }
            _ => self.change_mark(),
        };
        self.words.push(word);
    }

    fn change_time(&mut self) -> String {
        let bits = self.rng.pick(&[0, 1, 0x007F_FFFF, ONE, 0x40A0_0000, 0x7F7F_FFFF]);
        self.scene.time = self.rng.chance(80).then_some(bits);
        match self.scene.time {
            None => "time=none".into(),
            Some(bits) if self.rng.chance(50) => format!("time={bits:08X}"),
            Some(bits) => format!("time={bits:08x}"),
        }
    }

    fn change_mark(&mut self) -> String {
        let entity = reading::entity(&mut self.rng);
        let mark = self.rng.chance(70);
        self.scene.present[usize::from(entity)] = mark;
        format!("mark={entity}:{}", u8::from(mark))
    }

    /// One word that takes the scene out of its ranges.
    fn spoil(&mut self) {
        let Writer { rng, scene, words } = self;
        words.push(match rng.below(8) {
            0 => format!("statics={}", rng.pick(&[129, 130, 192, 255])),
            1 => format!("limit={}", rng.pick(&[17, 18, 128, 255])),
            2 => format!("view={}", rng.pick(&[600, 1023, 0x8000, 0xFFFF])),
            3 => {
                let bits: u32 = rng.pick(&[0x7F80_0000, 0x7FC0_0000, 0x8000_0000, u32::MAX]);
                format!("time={bits:08x}")
            }
            4 | 5 => {
                let entity = reading::entity(rng);
                format!("mark={entity}:{}", u8::from(!scene.present[usize::from(entity)]))
            }
            _ => {
                let off = rng.pick(&[1, u16::MAX, 256, 512, 0x8000]);
                format!("present={}", scene.present_count.wrapping_add(off))
            }
        });
    }

    /// A message that the scene allows, or what is left of one, behind some nops.
    fn ask(&mut self) {
        let Writer { rng, scene, .. } = self;
        let before = rng.pick(&[0, 0, 0, 1, 7]);
        let message = reading::message(rng, scene);
        let percent = rng.pick(&[0, 50]);
        let mut message = encode::wasteful_message(scene, &message, rng, percent);
        match rng.below(8) {
            0 => message.truncate(rng.below(message.len())),
            1 => {
                let at = rng.below(message.len().min(6));
                message[at] = if rng.chance(30) { 0xFF } else { rng.byte() };
            }
            2 => message.extend((0..rng.below(4)).map(|_| rng.byte())),
            _ => {}
        }
        let bytes = [vec![1; before], message].concat();
        let at = match rng.below(10) {
            0 => bytes.len(),
            1 => bytes.len() + 1 + rng.below(3),
            _ => before,
        };
        let ask = ask(&bytes);
        self.words.push(if self.rng.chance(20) { upper(&ask) } else { ask });
        if at != 0 || self.rng.chance(10) {
            self.words.push(format!("at={at}"));
        }
    }
}

/// The same digits as capitals.
fn upper(ask: &str) -> String {
    let (name, digits) = ask.split_once('=').expect("an ask has a value");
    format!("{name}={}", digits.to_ascii_uppercase())
}
