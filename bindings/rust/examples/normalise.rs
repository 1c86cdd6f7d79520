//! `normalise RECORDING NORMAL`: writes the normal form of one file to another, or says the refusal and writes nothing.

use std::error::Error;
use std::process::ExitCode;
use std::{env, fs};

fn normalise_file() -> Result<(), Box<dyn Error>> {
    let names: Vec<_> = env::args_os().skip(1).collect();
    let [recording, normal] = &names[..] else {
        return Err("usage: normalise RECORDING NORMAL".into());
    };
    let bytes = fs::read(recording)?;
    let written = cobbrundle::normalise(&bytes)?;
    fs::write(normal, &written)?;
    println!("{} of {} bytes", written.len(), bytes.len());
    Ok(())
}

fn main() -> ExitCode {
    match normalise_file() {
        Ok(()) => ExitCode::SUCCESS,
        Err(error) => {
            eprintln!("{error}");
            ExitCode::FAILURE
        }
    }
}
