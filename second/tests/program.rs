//! The program itself: its commands, and that `compare` finds differences.

mod common;

use second::gen::{self, boundary::marked_recording};
use std::io::Write;
use std::path::{Path, PathBuf};
use std::process::{Command, Output, Stdio};

const SECOND: &str = env!("CARGO_BIN_EXE_second");

fn run(args: &[&str], input: &[u8]) -> Output {
    let mut child = Command::new(SECOND)
        .args(args)
        .stdin(Stdio::piped())
        .stdout(Stdio::piped())
        .stderr(Stdio::piped())
        .spawn()
        .unwrap();
    // The program may have answered before it was fed.
    let _ = child.stdin.take().unwrap().write_all(input);
    child.wait_with_output().unwrap()
}

fn stdout(output: &Output) -> String {
    String::from_utf8(output.stdout.clone()).unwrap()
}

#[test]
fn normal_of_the_marked_recording() {
    let output = run(&["normal"], &marked_recording());
    assert_eq!(output.stdout.len(), 61);
    assert_eq!(output.stdout[3], 0x19);
    assert!(output.stderr.is_empty() && output.status.success());
}

#[test]
fn normal_of_a_refused_recording() {
    let mut bytes = marked_recording();
    bytes[19] = 0x15;
    let output = run(&["normal"], &bytes);
    assert_eq!(output.stderr, b"refused 6 at 19\n");
    assert_eq!(output.stdout, b"-1\n");
    assert!(!output.status.success());
    let empty = run(&["normal"], b"");
    assert_eq!((&empty.stdout[..], &empty.stderr[..]), (&b""[..], &b"refused 1 at 0\n"[..]));
}

#[test]
fn scene_and_messages_of_the_marked_recording() {
    let scene = stdout(&run(&["scene"], &marked_recording()));
    assert!(scene.starts_with("accepted\ntrack -1\nblocks 2\nmessages 4\nended 1\n"));
    assert!(scene.ends_with("x=520 angle0=0 y=0 angle1=0 z=192 angle2=0 bit5=0\n"));
    let messages = stdout(&run(&["messages"], &marked_recording()));
    let lines: Vec<&str> = messages.lines().collect();
    assert_eq!(lines.len(), 7);
    assert_eq!(lines[0], "track -1");
    assert_eq!(lines[1], "block 3 angles 00000000 00000000 00000000");
    assert_eq!(lines[2], "19 7 time=3f800000 | time=3f800000");
    assert_eq!(
        lines[4],
        "40 194 mask=0042 entity=5 model=0 frame=0 colormap=0 skin=0 effects=0 x=520 angle0=0 \
         y=0 angle1=0 z=0 angle2=0 bit5=0 | entity=5 model=3 frame=0 colormap=0 skin=0 effects=0 \
         x=520 angle0=0 y=0 angle1=0 z=192 angle2=0 bit5=0"
    );
    assert_eq!(lines[6], "61 2 |");
}

/// Document 01's P2 as a normal form, in short and in long room; a walker's three
/// steps; a change of lent lines, of which the scene's own are none.
#[test]
fn cases_are_answered_line_by_line() {
    let script = "s 00 00 16 0500 03000000 0002 00 0000 00 c000 00\nn 00 03 c205000802\nn 00 06 c205000802\n\
        s 00 00\nw 00 00 01 02\ns 00 00 0b0f0000000200000000\ni 00 00 0900 21\nl 00 10 01 02 feff 0e010300\n\
        l 00 0f 00 00 0000\n";
    let scene = "  scene ended=0 time=none limit=0 view=0 pause=0 statics=0 present=0\n";
    let record = "  record 5 model=3 frame=0 colormap=0 skin=0 effects=0 x=520 angle0=0 y=0 angle1=0 z=192 angle2=0 bit5=0\n";
    let shown = scene.replace("present=0", "present=1") + record;
    let ended = scene.replace("ended=0", "ended=1");
    let two = scene.replace("limit=0", "limit=2");
    let rest = " 9/33".repeat(14);
    let answers = [
        format!("  all messages 1 refusal 0 place 16\n{scene}"),
        format!("  refused 12 at 4: eeeeee\n{scene}"),
        format!("  written 4 next 5: 82050802eeee\n{shown}"),
        format!("  all messages 0 refusal 0 place 0\n{scene}"),
        format!(
            "  found next 1\n  sent nop\n  filled plain nop\n  walker at 1\n  found next 2\n  sent disconnect\n  \
             filled plain disconnect\n  walker at 2\n  end\n  walker at 2\n{ended}  all messages 2 refusal 0 place 2\n{ended}"
        ),
        format!("  all messages 1 refusal 0 place 10\n{two}"),
        format!("  lines{}\n", " 9/33".repeat(17)),
        format!(
            "  changed\n  found next 4\n  sent frags player=1 frags=3\n  filled plain frags player=1 frags=3\n{two}  \
             lines 9/33 3/33 -2/33{rest}\n"
        ),
        format!("  refused 14 at 0\n  refused 14 at 0\n{two}  lines 9/33 3/33 -2/33{rest}\n"),
    ];
    let expected: String = script
        .lines()
        .zip(answers)
        .map(|(line, answer)| format!("{}\n{answer}", line.trim_start()))
        .collect();
    assert_eq!(stdout(&run(&["cases"], script.as_bytes())), expected);
}

/// The temporary entities of version 1.08: type 12 that is read, and made ones of
/// each case; a line's entity; room that is short.
#[test]
fn temporary_entities_are_read_and_made() {
    let explosion2 = "explosion2 type=12 x=513 y=1027 z=-251 first_colour=7 colour_count=255";
    let read = format!("  found next 10\n  sent {explosion2}\n  filled plain {explosion2}\n");
    let zeros = "00".repeat(12);
    let refused = |number_and_place: &str, room: usize| {
        format!("  refused {number_and_place}: {}\n", "ee".repeat(room))
    };
    let cases = [
        ("m 00 0a 170c0102030405ff07ff", read + "  written 10: 170c0102030405ff07ff\n"),
        ("p 17 09 0b", format!("  written 8: 170b{}ee\n", &zeros[..12])),
        ("p 17 08 0c 00", refused("13 at 0", 8)),
        ("p 17 08 0d 00", refused("13 at 0", 8)),
        ("p 17 10 0c 01", refused("13 at 0", 16)),
        ("p 17 11 0d 01 5702", format!("  written 16: 170d5702{zeros}ee\n")),
        ("p 17 11 0d 01 5802", refused("13 at 0", 17)),
        ("p 17 10 0e 01", refused("13 at 0", 16)),
        ("p 17 09 0e 02", refused("12 at 10", 9)),
        ("p 17 0a 0e 02", format!("  written 10: 170c{}\n", &zeros[..16])),
        ("p 17 0b 00 ff", format!("  written 10: 170c{}ee\n", &zeros[..16])),
    ];
    let scene = "  scene ended=0 time=none limit=0 view=0 pause=0 statics=0 present=0\n";
    let script: String = cases.iter().map(|(line, _)| format!("{line}\n")).collect();
    let expected: String =
        cases.iter().map(|(line, answer)| format!("{line}\n{answer}{scene}")).collect();
    assert_eq!(stdout(&run(&["cases"], script.as_bytes())), expected);
}

/// Document 01's marked recording, whole and by its parts; the entity that it has, the last one, and
/// one beyond; packed, 128 statics and one more.
#[test]
fn recordings_are_cases_too() {
    let first = "1a000000 00000000 00000000 00000000 070000803f 160500030000000002000000 00c00000 c205000802";
    let marked = format!("2d310a {first} 01000000 00000000 00000000 00000000 02");
    let one = "14 00000000000000000000000000";
    let script = format!(
        "a 00 00 {marked}\nh 00 00 {marked}\ns 00 00\nd 03 00 {marked}\ng 2d 00 {marked}\nd 2d 00 {marked}\ng 3f 00 {marked}\n\
         e 00 00 0500\ne 00 00 5702\ne 00 00 5802\nS 0000 0000 0700 0e {one}\nM 0000 0010 000e 0e {one}\n"
    );
    let scene = "  scene ended=0 time=none limit=0 view=0 pause=0 statics=0 present=0\n";
    let timed = scene.replace("none", "3f800000").replace("present=0", "present=1");
    let pose = "angle0=0 y=0 angle1=0 z=192 angle2=0";
    let fields = format!("model=3 frame=0 colormap=0 skin=0 effects=0 x=520 {pose} bit5=0\n");
    let record = format!("  record 5 {fields}");
    let zeros = "model=0 frame=0 colormap=0 skin=0 x=0 angle0=0 y=0 angle1=0 z=0 angle2=0";
    let ended = timed.replace("ended=0", "ended=1") + &record;
    let many = scene.replace("statics=0", "statics=128");
    let answers = [
        format!("  track -1 blocks 2 messages 4\n{ended}"),
        "  track -1 next 3\n".into(),
        format!("  all messages 0 refusal 0 place 0\n{scene}"),
        format!("  angles 00000000 00000000 00000000 start 19 messages 3 next 45\n{timed}{record}"),
        format!("  blocks 1 messages 1 next 62 refusal 0 place 62\n{ended}"),
        format!("  refused 11 at 45\n{ended}"),
        format!("  refused 5 at 63\n{ended}"),
        format!(
            "  baseline model=3 frame=0 colormap=0 skin=0 x=512 {pose}\n  record present=1 {fields}"
        ),
        format!(
            "  baseline {zeros}\n  record present=0 {}\n",
            zeros.replace(" x", " effects=0 x") + " bit5=0"
        ),
        String::new(),
        format!("  all messages 128 refusal 0 place 1792\n{many}"),
        format!("  refused 9 at 0\n{many}"),
    ];
    let lines = script.lines().zip(answers);
    let expected: String = lines.map(|(line, answer)| format!("{line}\n{answer}")).collect();
    assert_eq!(stdout(&run(&["cases"], script.as_bytes())), expected);
}

#[test]
fn refused_scene_is_one_line_on_standard_output() {
    let output = run(&["scene"], b"x");
    assert_eq!((&output.stdout[..], &output.stderr[..]), (&b"refused 1 at 0\n"[..], &b""[..]));
}

#[test]
fn generate_is_the_same_always() {
    let random = gen::boundary_count() + 1;
    for index in [5, random] {
        let first = run(&["generate", "7", &index.to_string()], b"");
        assert!(!first.stdout.is_empty());
        assert_eq!(first.stdout, run(&["generate", "7", &index.to_string()], b"").stdout);
        assert_eq!(first.stdout, gen::generate(7, index).bytes);
    }
    let of_seed = |seed| run(&["generate", seed, &random.to_string()], b"").stdout;
    assert_ne!(of_seed("7"), of_seed("8"));
}

#[test]
fn mix_is_accepted_and_has_the_size_asked_for() {
    let made = run(&["mix", "typical", "0.5"], b"").stdout;
    assert!((500_000..510_000).contains(&made.len()));
    assert!(run(&["normal"], &made).status.success());
    assert!(!run(&["mix", "no such", "1"], b"").status.success());
}

fn keep_folder(name: &str) -> PathBuf {
    let folder = Path::new(env!("CARGO_TARGET_TMPDIR")).join(name);
    let _ = std::fs::remove_dir_all(&folder);
    folder
}

fn compare(args: &[&str], keep: &Path) -> Output {
    let keep = keep.to_str().unwrap();
    run(&[&["compare", "--no-recordings", "--keep", keep], args].concat(), b"")
}

#[test]
fn compare_agrees_with_itself() {
    let keep = keep_folder("agrees");
    let modes: [&[&str]; 5] = [
        &["--count", "60", "--random", SECOND, "normal"],
        &["--pipe", "--count", "60", "--random", SECOND, "normal"],
        &["--mode", "scene", "--count", "60", "--random", SECOND, "scene"],
        &["--mode", "overlay", "--count", "60", "--random", SECOND, "overlay"],
        &["--pipe", "--mode", "given", "--count", "60", "--random", SECOND, "given"],
    ];
    for args in modes {
        let output = compare(args, &keep);
        assert!(output.status.success(), "{}", stdout(&output));
        assert!(stdout(&output).starts_with("60 inputs, 0 differences"));
    }
    assert!(!keep.exists());
}

/// A program that copies is found out, and what it was wrong on is kept.
#[test]
fn compare_finds_a_program_that_copies() {
    let keep = keep_folder("copies");
    let output = compare(&["--count", "12", "cat"], &keep);
    assert_eq!(output.status.code(), Some(1));
    // Of the first twelve track lines these are not normal: -0, 00, -000, 007,
    // 010; and the empty input is refused.
    assert!(stdout(&output).contains("12 inputs, 6 differences"), "{}", stdout(&output));
    let kept: Vec<_> = std::fs::read_dir(&keep).unwrap().flatten().collect();
    assert_eq!(kept.len(), 6);
    let bytes: Vec<Vec<u8>> = kept.iter().map(|f| std::fs::read(f.path()).unwrap()).collect();
    assert!(bytes.contains(&b"-0\n".to_vec()) && bytes.contains(&Vec::new()));
}

/// The right output with nothing on standard error is found out too.
#[test]
fn compare_looks_at_standard_error() {
    let keep = keep_folder("quiet");
    let quiet = format!("{SECOND} normal 2>&-");
    let output = compare(&["--count", "12", "sh", "-c", &quiet], &keep);
    assert!(stdout(&output).contains("12 inputs, 1 differences"), "{}", stdout(&output));
    assert!(stdout(&output).contains("expected \"refused 1 at 0\\n\""), "{}", stdout(&output));
}

/// `c` sets the number of present marks and shows nothing: a number that is not that
/// of the marks is 14 at 0 whatever is asked for, and the right one is taken again.
/// Fewer than two bytes are no number.
#[test]
fn a_number_of_marks_that_is_wrong_is_14() {
    let scene = "  scene ended=0 time=none limit=0 view=0 pause=0 statics=0 present=";
    let record =
        "model=0 frame=0 colormap=0 skin=0 effects=0 x=0 angle0=0 y=0 angle1=0 z=0 angle2=0 bit5=0";
    let marked = |count: u16| format!("{scene}{count}\n  record 5 {record}\n");
    let refused = |room: &str| format!("  refused 14 at 0{room}\n{}", marked(515));
    let block = "01000000 00000000 00000000 00000000 01";
    let lines = " 0/0".repeat(17);
    let walked = "  refused 14 at 0\n  walker at 0\n".repeat(3);
    let all = format!("  all messages 0 refusal 14 place 0\n{}", marked(515));
    let cases = [
        ("s 00 00 8005 8005".into(), format!("  all messages 2 refusal 0 place 4\n{}", marked(1))),
        ("c 00 00 0302ff".into(), String::new()),
        ("c 00 00 01".into(), String::new()),
        ("c 00 00".into(), String::new()),
        ("m 00 02 01".into(), refused("")),
        ("m 01 02 01".into(), refused("")),
        ("m 02 02 01".into(), refused("")),
        ("n 01 02 01".into(), refused(": eeee")),
        ("p 03 01 20".into(), refused(": ee")),
        (format!("k 11 01 {block}"), refused(": ee")),
        (format!("b 12 01 {block}"), refused(": ee")),
        (format!("d 12 00 {block}"), refused("")),
        (format!("g 11 00 {block}"), refused("")),
        ("w 00 00 01".into(), format!("{walked}{}{all}", marked(515))),
        ("l 00 10 00 00 0000 01".into(), format!("  changed\n{}  lines{lines}\n", refused(""))),
        ("c 00 00 0100".into(), String::new()),
        ("n 00 02 c1 00 05".into(), format!("  refused 5 at 0: eeee\n{}", marked(1))),
        ("n 00 02 80 05".into(), format!("  written 2 next 2: 8005\n{}", marked(1))),
    ];
    let script: String = cases.iter().map(|(line, _)| format!("{line}\n")).collect();
    let expected: String = cases.iter().map(|(line, answer)| format!("{line}\n{answer}")).collect();
    assert_eq!(stdout(&run(&["cases"], script.as_bytes())), expected);
}

#[test]
fn overlay_of_good_and_refused_recordings() {
    let overlay = |bytes: &[u8]| {
        let output = run(&["overlay"], bytes);
        assert!(output.stderr.is_empty());
        stdout(&output)
    };
    let marked = marked_recording();
    assert_eq!(overlay(&marked), "block 3 present 1\nblock 45 present 1\naccepted\n");
    assert_eq!(overlay(&marked[..45]), "block 3 present 1\naccepted\n");
    assert_eq!(overlay(&marked[..61]), "block 3 present 1\nrefused 2 at 45\n");
    assert_eq!(overlay(b"-1\n"), "accepted\n");
    assert_eq!(overlay(b"-1"), "refused 1 at 2\n");
    // Two entities, one twice; a time, one of them; a refused block; nothing is read
    // behind it.
    let bodies: [&[u8]; 4] =
        [&[0x80, 5, 0x80, 5, 0x80, 6], &[7, 0, 0, 0, 0, 0x80, 6], &[0x80, 7, 21], &[0x80, 7]];
    let expected = "block 2 present 2\nblock 24 present 1\nrefused 6 at 65\n";
    assert_eq!(overlay(&common::recording(&bodies)), expected);
    let every: Vec<u8> =
        (0..600u16).flat_map(|e| [0x81, 0x40, e.to_le_bytes()[0], e.to_le_bytes()[1]]).collect();
    assert_eq!(
        overlay(&common::recording(&[&[], &every])),
        "block 2 present 0\nblock 18 present 600\naccepted\n"
    );
}

/// What `given` answers about a recording; nothing stands on standard error.
fn given(words: &[&str], recording: &[u8]) -> String {
    let output = run(&[&["given"], words].concat(), recording);
    assert_eq!(output.stderr, b"", "{words:?}");
    stdout(&output)
}

/// The scene's text behind two marks, of entities 5 and 6, with some lines changed.
fn two_marks_text(changes: &[(&str, &str)]) -> String {
    let zeros = " 0".repeat(32);
    let client = "clientdata view_height=0 pitch=0 punch0=0 velocity0=0 punch1=0 velocity1=0 \
        punch2=0 velocity2=0 items=0 ground=0 water=0 weapon_frame=0 armour=0 weapon_model=0 \
        health=0 ammo=0 count0=0 count1=0 count2=0 count3=0 weapon=0\n";
    let players: String = (0..16).map(|p| format!("player {p} frags=0 colours=0\n")).collect();
    let record = "present=1 model=0 frame=0 colormap=0 skin=0 effects=0 x=0 angle0=0 y=0 \
        angle1=0 z=0 angle2=0 bit5=0\n";
    let mut text = format!(
        "ended 0\ntime none\nlimit 0\nview 0\npause 0\nstatics 0\npresent 2\nstats{zeros}\n\
         {client}{players}record 5 {record}record 6 {record}"
    );
    for (before, after) in changes {
        assert_eq!(text.matches(before).count(), 1, "{before}");
        text = text.replace(before, after);
    }
    text
}

#[test]
fn given_changes_the_scene_and_asks() {
    let good = common::recording(&[&[0x80, 5, 0x80, 6]]);
    let next = |words: &[&str], place: usize, changes: &[(&str, &str)]| {
        let expected = format!("next {place}\n{}", two_marks_text(changes));
        assert_eq!(given(words, &good), expected, "{words:?}");
    };
    next(&["ask=01"], 1, &[]);
    next(&["ask=01", "statics=128"], 1, &[("statics 0", "statics 128")]);
    next(&["ask=01", "limit=016"], 1, &[("limit 0", "limit 16")]);
    next(&["ask=01", "view=599"], 1, &[("view 0", "view 599")]);
    next(&["ask=01", "pause=255"], 1, &[("pause 0", "pause 255")]);
    next(&["ask=01", "time=7F7fffFF"], 1, &[("time none", "time 7f7fffff")]);
    next(&["time=00000001", "time=none", "ask=01"], 1, &[]);
    next(
        &["ended=1", "present=9", "at=7", "ask=15", "ended=0", "present=2", "at=0", "ask=01"],
        1,
        &[],
    );
    let text = two_marks_text(&[]);
    let [.., five, six] = text.split_inclusive('\n').collect::<Vec<_>>()[..] else { panic!() };
    let more = six.to_string() + &six.replace("record 6", "record 599");
    let third = [("present 2", "present 3"), (six, &more)];
    next(&["mark=599:1", "present=3", "ask=01"], 1, &third);
    next(&["mark=599:1", "present=3", "ask=81405702"], 4, &third);
    next(&["ask=81405702"], 4, &third);
    next(&["mark=5:0", "present=1", "ask=01"], 1, &[("present 2", "present 1"), (five, "")]);
    next(&["mark=5:0", "present=1", "ask=8005"], 2, &[]);
    let timed = [("time none", "time 3f800000"), ("present 2", "present 0"), (five, ""), (six, "")];
    next(&["ask=01070000803f", "at=1"], 6, &timed);
}

/// The good blocks alone count; the end, past it and each reason for 14.
#[test]
fn given_ends_and_refuses() {
    let good = common::recording(&[&[0x80, 5, 0x80, 6], &[0x80, 7, 21]]);
    let ended = common::recording(&[&[0x80, 5, 0x80, 6, 2]]);
    let cases: [(&str, &str); 28] = [
        ("", "end\n"),
        ("ask=", "end\n"),
        ("ask=01 at=1", "end\n"),
        ("ask=01 at=2", "refused 5 at 2\n"),
        ("at=4294967295", "refused 5 at 4294967295\n"),
        ("ask=0115 at=1", "refused 6 at 1\n"),
        ("ask=0Aff", "refused 5 at 0\n"),
        ("ended=1", "end\n"),
        ("ended=1 ask=0115 at=1", "refused 11 at 1\n"),
        ("ended=1 ask=01 at=3", "refused 5 at 3\n"),
        ("statics=128 ask=14", "refused 9 at 0\n"),
        ("statics=129", "refused 14 at 0\n"),
        ("limit=17", "refused 14 at 0\n"),
        ("view=600", "refused 14 at 0\n"),
        ("time=7f800000", "refused 14 at 0\n"),
        ("time=80000000 at=1", "refused 14 at 0\n"),
        ("time=ffffffff ask=01", "refused 14 at 0\n"),
        ("time=3f800000 ask=07ffff7f3f", "refused 10 at 0\n"),
        ("present=1", "refused 14 at 0\n"),
        ("present=3 at=1", "refused 14 at 0\n"),
        ("present=258 ask=01", "refused 14 at 0\n"),
        ("present=65535 ended=1 ask=01", "refused 14 at 0\n"),
        ("present=3 ask=8007", "refused 14 at 0\n"),
        ("present=0 ask=070000803f", "refused 14 at 0\n"),
        ("mark=7:1", "refused 14 at 0\n"),
        ("mark=6:0 at=9", "refused 14 at 0\n"),
        ("mark=6:1", "end\n"),
        ("mark=6:0 mark=599:1", "end\n"),
    ];
    for (words, answer) in cases {
        let words: Vec<&str> = words.split_whitespace().collect();
        assert_eq!(given(&words, &good), answer, "{words:?}");
    }
    assert_eq!(given(&["ask=01"], &ended), "refused 11 at 0\n");
    assert_eq!(given(&["present=2"], &ended), "end\n");
    // A refused track line leaves the scene at the start, without marks.
    assert_eq!(given(&["present=0"], b"x"), "end\n");
    assert_eq!(given(&["present=1"], b"x"), "refused 14 at 0\n");
}

#[test]
fn given_names_the_first_wrong_word() {
    let long = format!("ask={}", "01".repeat(8193));
    let wrong = "x = =1 statics statics= statics=256 statics=-1 statics=+1 Statics=1 limit=0x1 \
        pause=256 view=65536 present=65536 present=99999999999999999999 time= time=3f80000 \
        time=03f800000 time=+3f80000 time=NONE ended=2 ended=00 mark=600:1 mark=5 mark=5: \
        mark=5:2 mark=5:01 mark=:1 mark=-1:1 ask=1 ask=0g ask=+1 at=4294967296 at=";
    for word in wrong.split_whitespace().chain(["", "statics=1 ", &long]) {
        for words in [&[word][..], &["statics=129", word, "ask=01"], &[word, "at=x"]] {
            let output = run(&[&["given"], words].concat(), &marked_recording());
            assert_eq!(output.stdout, b"", "{words:?}");
            assert_eq!(output.stderr, format!("wrong word {word}\n").as_bytes());
        }
    }
    let longest = format!("ask={}", "01".repeat(8192));
    assert_eq!(given(&["ended=0", &longest, "at=8192"], &marked_recording()), "end\n");
}

/// A program that does not look at its words is found out, and the words are named.
#[test]
fn compare_names_the_words() {
    let keep = keep_folder("words");
    let deaf = format!("{SECOND} given ask=01");
    let output = compare(&["--mode", "given", "--count", "20", "sh", "-c", &deaf], &keep);
    assert_eq!(output.status.code(), Some(1));
    let report = stdout(&output);
    assert!(report.contains("words 'ask=011c' 'at=3'\n"), "{report}");
    assert!(report.contains("20 inputs, "), "{report}");
}

/// A program that is wrong about the number alone, and one that never says how a
/// recording ends.
#[test]
fn compare_finds_wrong_overlays() {
    let keep = keep_folder("overlays");
    let wrong = ["sed 's/present 2$/present 3/'", "grep -v accepted"];
    for (wrong, inputs) in wrong.into_iter().zip(["--random", "--pipe"]) {
        let program = format!("{SECOND} overlay | {wrong}");
        let args = ["--mode", "overlay", "--count", "40", inputs, "sh", "-c", &program];
        let output = compare(&args, &keep);
        assert_eq!(output.status.code(), Some(1), "{}", stdout(&output));
    }
}
