//! Runs any program beside this reader and says where their answers differ.

use crate::gen::rng::Rng;
use crate::gen::words::{self, Question};
use crate::gen::{self, encode, Input};
use crate::message::Refusal;
use crate::read::read_recording;
use crate::text::{overlay_text, scene_text};
use crate::{fast, given, write};
use std::fs::{self, File};
use std::io::{self, Seek, Write};
use std::path::{Path, PathBuf};
use std::process::{Child, ChildStdin, Command, Stdio};

/// What is compared: the answers of the commands of the same names.
#[derive(Clone, Copy, PartialEq, Eq)]
pub enum Mode {
    Normal,
    Scene,
    Overlay,
    Given,
}

/// Of the lists of words one in so many is about each real recording.
const LIST_STEP: usize = 12;

impl Mode {
    pub fn of(name: &str) -> Option<Mode> {
        match name {
            "normal" => Some(Mode::Normal),
            "scene" => Some(Mode::Scene),
            "overlay" => Some(Mode::Overlay),
            "given" => Some(Mode::Given),
            _ => None,
        }
    }

    /// How many inputs are boundary cases.
    pub fn boundary_count(self) -> usize {
        match self {
            Mode::Given => words::boundary_count(),
            _ => gen::boundary_count(),
        }
    }

    /// How many random inputs are run if no number is asked for.
    pub fn random_count(self) -> usize {
        match self {
            Mode::Given => 600,
            _ => 2000,
        }
    }

    /// The `index`-th input of a seed.
    fn input(self, seed: u64, index: usize) -> Question {
        match self {
            Mode::Given => words::question(seed, index),
            _ => {
                let Input { name, bytes, .. } = gen::generate(seed, index);
                Question { name, recording: bytes, words: Vec::new() }
            }
        }
    }

    /// What is asked of a real recording.
    fn inputs_of(self, name: &str, recording: Vec<u8>) -> Vec<Question> {
        match self {
            Mode::Given => words::about(name, &recording, LIST_STEP),
            _ => vec![Question { name: name.into(), recording, words: Vec::new() }],
        }
    }
}

pub struct Options {
    pub mode: Mode,
    pub seed: u64,
    /// The first generated input and how many there are.
    pub first: usize,
    pub count: usize,
    /// Where the input of each difference is kept.
    pub keep: PathBuf,
    /// Recordings to run besides the generated ones.
    pub recordings: Vec<PathBuf>,
    /// Feed the program through a pipe in odd-sized pieces.
    pub pipe: bool,
    /// Run the program on each normal form and on another encoding of each reading too.
    pub again: bool,
    pub program: Vec<String>,
}

/// What a program wrote.
#[derive(PartialEq, Eq)]
pub struct Answer {
    pub out: Vec<u8>,
    pub err: Vec<u8>,
}

/// What this reader answers; `Err` where its two readers do not agree.
pub fn expected(mode: Mode, question: &Question) -> Result<Answer, String> {
    let bytes = &question.recording;
    let answer = |out: Vec<u8>, err: String| Answer { out, err: err.into_bytes() };
    let text = |out: String| answer(out.into_bytes(), String::new());
    match mode {
        Mode::Normal => {
            let (out, refusal) = write::normal(bytes);
            let mut fast_out = Vec::new();
            let fast_refusal = fast::normal(bytes, &mut fast_out).err();
            agree((&fast_out, fast_refusal) == (&out, refusal))?;
            Ok(answer(out, refusal_line(refusal)))
        }
        Mode::Scene => Ok(text(scene_text(&read_recording(bytes)))),
        Mode::Overlay => {
            let attempt = read_recording(bytes);
            let counts = attempt.present_counts();
            agree(fast::overlay(bytes) == (counts.clone(), attempt.refusal))?;
            Ok(text(overlay_text(&counts, attempt.refusal)))
        }
        Mode::Given => Ok(match given::answer(bytes, &question.words) {
            Ok(out) => text(out),
            Err(word) => answer(Vec::new(), given::wrong_word(&word)),
        }),
    }
}

fn agree(readers: bool) -> Result<(), String> {
    readers.then_some(()).ok_or("the plain and the fast reader differ".into())
}

fn refusal_line(refusal: Option<Refusal>) -> String {
    refusal.map_or(String::new(), |refusal| format!("{refusal}\n"))
}

/// How many inputs were run, and how many differences were found.
#[derive(Clone, Copy)]
pub struct Counts {
    pub inputs: usize,
    pub differences: usize,
}

/// Runs all inputs.
pub fn compare(options: &Options) -> io::Result<Counts> {
    let scratch = std::env::temp_dir().join(format!("second-compare-{}", std::process::id()));
    let mut runner = Runner {
        options,
        scratch: File::options()
            .read(true)
            .write(true)
            .create(true)
            .truncate(true)
            .open(&scratch)?,
        scratch_path: scratch.clone(),
        counts: Counts { inputs: 0, differences: 0 },
    };
    let result = runner.all();
    fs::remove_file(&scratch)?;
    result.map(|()| runner.counts)
}

struct Runner<'a> {
    options: &'a Options,
    /// Holds the input that the program reads.
    scratch: File,
    scratch_path: PathBuf,
    counts: Counts,
}

impl Runner<'_> {
    fn all(&mut self) -> io::Result<()> {
        let Options { mode, seed, first, count, .. } = *self.options;
        for path in &self.options.recordings {
            let name = path.file_name().unwrap_or_default().to_string_lossy();
            for question in mode.inputs_of(&name, fs::read(path)?) {
                self.one(&question)?;
            }
        }
        for index in first..first + count {
            let mut question = mode.input(seed, index);
            question.name = format!("{index} ({})", question.name);
            self.one(&question)?;
        }
        Ok(())
    }

    fn one(&mut self, question: &Question) -> io::Result<()> {
        self.counts.inputs += 1;
        let expected = match expected(self.options.mode, question) {
            Ok(expected) => expected,
            Err(message) => return self.report(question, &message),
        };
        self.ask(question, &expected)?;
        if self.options.again && expected.err.is_empty() {
            self.again(question, &expected)?;
        }
        Ok(())
    }

    /// Runs the program, and reports an answer that is not the expected one.
    fn ask(&mut self, question: &Question, expected: &Answer) -> io::Result<()> {
        let answer = self.run(question)?;
        if answer == *expected {
            return Ok(());
        }
        self.report(question, &difference(expected, &answer))
    }

    /// The normal form of a normal form, and of another encoding of the same reading.
    fn again(&mut self, question: &Question, normal: &Answer) -> io::Result<()> {
        let bytes = &question.recording;
        let Ok(reading) = read_recording(bytes).reading() else { return Ok(()) };
        let other =
            encode::wasteful(&reading, &mut Rng::new(self.options.seed, bytes.len() as u64));
        let mut inputs = vec![("its normal form", normal.out.clone())];
        // a needless field may make a block too long
        if read_recording(&other).refusal.is_none() {
            inputs.push(("another encoding", other));
        }
        for (what, recording) in inputs {
            let name = format!("{}, {what}", question.name);
            self.ask(&Question { name, recording, words: Vec::new() }, normal)?;
        }
        Ok(())
    }

    fn report(&mut self, question: &Question, message: &str) -> io::Result<()> {
        let Question { name, recording, words } = question;
        self.counts.differences += 1;
        fs::create_dir_all(&self.options.keep)?;
        let safe: String =
            name.chars().map(|c| if c.is_ascii_alphanumeric() { c } else { '-' }).collect();
        let path = self.options.keep.join(format!("{}-{safe}.dem", self.options.seed));
        fs::write(&path, recording)?;
        println!("input {name}: {message}\n  kept in {}", path.display());
        if self.options.mode == Mode::Given {
            println!("  words {}", quoted(words));
        }
        Ok(())
    }

    fn run(&mut self, question: &Question) -> io::Result<Answer> {
        let bytes = &question.recording;
        let [program, args @ ..] = &self.options.program[..] else {
            return Err(io::Error::other("no program to run"));
        };
        let mut command = Command::new(program);
        command.args(args).args(&question.words).stdout(Stdio::piped()).stderr(Stdio::piped());
        if self.options.pipe {
            let mut child = command.stdin(Stdio::piped()).spawn()?;
            let stdin = child.stdin.take().expect("a pipe was asked for");
            return std::thread::scope(|scope| {
                scope.spawn(move || feed(stdin, bytes));
                finish(child)
            });
        }
        self.scratch.set_len(0)?;
        self.scratch.rewind()?;
        self.scratch.write_all(bytes)?;
        finish(command.stdin(File::open(&self.scratch_path)?).spawn()?)
    }
}

fn finish(child: Child) -> io::Result<Answer> {
    let output = child.wait_with_output()?;
    Ok(Answer { out: output.stdout, err: output.stderr })
}

/// Writes in pieces of odd sizes. A program may stop reading early.
fn feed(mut stdin: ChildStdin, mut bytes: &[u8]) {
    for size in [1, 2, 3, 7, 13, 61, 251, 1021, 4093].into_iter().cycle() {
        if bytes.is_empty() {
            return;
        }
        let (piece, rest) = bytes.split_at(size.min(bytes.len()));
        if stdin.write_all(piece).and_then(|()| stdin.flush()).is_err() {
            return;
        }
        bytes = rest;
    }
}

/// The words as they are handed to a shell.
fn quoted(words: &[String]) -> String {
    words.iter().map(|word| format!("'{word}'")).collect::<Vec<_>>().join(" ")
}

/// The first thing that differs, in words.
fn difference(expected: &Answer, answer: &Answer) -> String {
    let mut parts = Vec::new();
    if expected.err != answer.err {
        parts.push(format!(
            "standard error {:?}, expected {:?}",
            short(&answer.err),
            short(&expected.err)
        ));
    }
    if expected.out != answer.out {
        parts.push(output_difference(&expected.out, &answer.out));
    }
    parts.join("; ")
}

fn short(bytes: &[u8]) -> String {
    String::from_utf8_lossy(&bytes[..bytes.len().min(200)]).into_owned()
}

fn output_difference(expected: &[u8], out: &[u8]) -> String {
    let same = expected.iter().zip(out).take_while(|(a, b)| a == b).count();
    let byte = |bytes: &[u8]| bytes.get(same).map_or("the end".into(), |b| format!("{b:02x}"));
    let (lengths, place) = (format!("{} bytes", out.len()), format!("byte {same}"));
    format!(
        "standard output {lengths}, expected {}; {place} is {}, expected {}",
        expected.len(),
        byte(out),
        byte(expected)
    )
}

/// The recordings in a folder, in order; none where there is no such folder.
pub fn recordings_in(folder: &Path) -> Vec<PathBuf> {
    let entries = fs::read_dir(folder).into_iter().flatten().flatten();
    let mut paths: Vec<PathBuf> = entries
        .map(|entry| entry.path())
        .filter(|path| path.extension().is_some_and(|extension| extension == "dem"))
        .collect();
    paths.sort();
    paths
}

/// Where the real recordings are, beside the repository.
pub fn recordings_folder() -> PathBuf {
    Path::new(env!("CARGO_MANIFEST_DIR")).join("../../shared/recordings")
}
