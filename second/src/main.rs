//! The commands of the second reader; see README.md.

use second::compare::{self, Mode, Options};
use second::{bench, cases, fast, gen, given, mix, read, text};
use std::io::{Read, Write};
use std::path::{Path, PathBuf};
use std::process::ExitCode;

const USAGE: &str = "usage:
  second normal < RECORDING         the normal form
  second scene < RECORDING          the scene as text
  second overlay < RECORDING        a line a block: how many entities are present
  second given WORD.. < RECORDING   a message asked for in a scene changed by hand
  second messages < RECORDING       a line a message
  second cases < LINES              what single calls answer
  second generate SEED INDEX        the INDEX-th generated input of a seed
  second boundaries                 the names of the boundary cases, which are the first inputs
  second mix NAME SIZE_MB           a big made recording
  second bench [FILE...]            times reading and normalising
  second compare [--mode normal|scene|overlay|given] [--count N]
                 [--first I | --random] [--seed S] [--keep DIR] [--pipe] [--again]
                 [--no-recordings] PROGRAM [ARGS..]";

type Outcome = Result<ExitCode, Box<dyn std::error::Error>>;

fn main() -> ExitCode {
    let args: Vec<String> = std::env::args().skip(1).collect();
    let words: Vec<&str> = args.iter().map(String::as_str).collect();
    let result = match words[..] {
        ["normal"] => normal(),
        ["scene"] => scene(),
        ["overlay"] => overlay(),
        ["given", ref words @ ..] => ask_given(words),
        ["messages"] => messages(),
        ["cases"] => single_calls(),
        ["generate", seed, index] => generate(seed, index),
        ["boundaries"] => boundaries(),
        ["mix", name, size] => make_mix(name, size),
        ["bench", ref files @ ..] => time_all(files),
        ["compare", ref rest @ ..] => run_compare(rest),
        _ => Err(USAGE.into()),
    };
    result.unwrap_or_else(|error| {
        eprintln!("second: {error}");
        ExitCode::from(2)
    })
}

/// All of standard input, in large reads.
fn input() -> std::io::Result<Vec<u8>> {
    let mut bytes = Vec::with_capacity(1 << 20);
    std::io::stdin().lock().read_to_end(&mut bytes)?;
    Ok(bytes)
}

fn output(bytes: &[u8]) -> Outcome {
    let mut out = std::io::stdout().lock();
    out.write_all(bytes)?;
    out.flush()?;
    Ok(ExitCode::SUCCESS)
}

fn normal() -> Outcome {
    let mut out = Vec::new();
    let answer = fast::normal(&input()?, &mut out);
    output(&out)?;
    Ok(match answer {
        Ok(_) => ExitCode::SUCCESS,
        Err(refusal) => {
            eprintln!("{refusal}");
            ExitCode::FAILURE
        }
    })
}

fn scene() -> Outcome {
    output(text::scene_text(&read::read_recording(&input()?)).as_bytes())
}

fn overlay() -> Outcome {
    let (counts, refusal) = fast::overlay(&input()?);
    output(text::overlay_text(&counts, refusal).as_bytes())
}

fn ask_given(words: &[&str]) -> Outcome {
    match given::answer(&input()?, words) {
        Ok(answer) => output(answer.as_bytes()),
        Err(word) => {
            eprint!("{}", given::wrong_word(&word));
            Ok(ExitCode::FAILURE)
        }
    }
}

fn messages() -> Outcome {
    output(text::messages_text(&read::read_recording(&input()?)).as_bytes())
}

fn single_calls() -> Outcome {
    output(cases::answers(&String::from_utf8(input()?)?).as_bytes())
}

fn generate(seed: &str, index: &str) -> Outcome {
    let input = gen::generate(seed.parse()?, index.parse()?);
    output(&input.bytes)
}

fn boundaries() -> Outcome {
    let names = (0..gen::boundary_count()).map(|index| gen::generate(0, index).name + "\n");
    output(names.collect::<String>().as_bytes())
}

fn make_mix(name: &str, size: &str) -> Outcome {
    let megabytes: f64 = size.parse()?;
    let made = mix::make(name, (megabytes * 1e6) as usize);
    output(&made.ok_or_else(|| format!("no mix {name}; there are {}", mix::NAMES.join(", ")))?)
}

/// Without files, the made recordings and the real ones beside the repository.
fn time_all(files: &[&str]) -> Outcome {
    println!("{}", bench::heading());
    let mut paths: Vec<PathBuf> = files.iter().map(PathBuf::from).collect();
    if files.is_empty() {
        for name in mix::NAMES {
            let bytes = mix::make(name, 16_000_000).expect("the name is one of the list");
            println!("{}", bench::line(name, bytes.len(), &bench::time(&bytes)?));
        }
        paths = compare::recordings_in(&compare::recordings_folder());
    }
    for path in paths {
        let bytes = std::fs::read(&path)?;
        let name = path.file_name().unwrap_or_default().to_string_lossy().into_owned();
        println!("{}", bench::line(&name, bytes.len(), &bench::time(&bytes)?));
    }
    Ok(ExitCode::SUCCESS)
}

fn run_compare(args: &[&str]) -> Outcome {
    let options = compare_options(args)?;
    let start = std::time::Instant::now();
    let compare::Counts { inputs, differences } = compare::compare(&options)?;
    let seconds = start.elapsed().as_secs_f32();
    println!("{inputs} inputs, {differences} differences, {seconds:.1} s");
    Ok(if differences == 0 { ExitCode::SUCCESS } else { ExitCode::FAILURE })
}

fn no_options() -> Options {
    Options {
        mode: Mode::Normal,
        seed: 1,
        first: 0,
        count: 0,
        keep: Path::new(env!("CARGO_MANIFEST_DIR")).join("target/differences"),
        recordings: compare::recordings_in(&compare::recordings_folder()),
        pipe: false,
        again: false,
        program: Vec::new(),
    }
}

fn compare_options(args: &[&str]) -> Result<Options, Box<dyn std::error::Error>> {
    let mut options = no_options();
    let (mut count, mut random) = (None, false);
    let mut args = args.iter().copied();
    while let Some(arg) = args.next() {
        let mut value = || args.next().ok_or(format!("{arg} needs a value"));
        match arg {
            "--mode" => {
                let name = value()?;
                options.mode = Mode::of(name).ok_or(format!("no mode {name}"))?;
            }
            "--seed" => options.seed = value()?.parse()?,
            "--first" => options.first = value()?.parse()?,
            "--random" => random = true,
            "--count" => count = Some(value()?.parse()?),
            "--keep" => options.keep = value()?.into(),
            "--pipe" => options.pipe = true,
            "--again" => options.again = true,
            "--no-recordings" => options.recordings.clear(),
            program => {
                options.program.push(program.into());
                options.program.extend(args.by_ref().map(String::from));
            }
        }
    }
    let mode = options.mode;
    if options.program.is_empty() || options.again && mode != Mode::Normal {
        return Err(USAGE.into());
    }
    if random {
        options.first = mode.boundary_count();
    }
    options.count = count.unwrap_or(mode.boundary_count() + mode.random_count());
    Ok(options)
}
