//! `reference replay DIR` prints a line for each call on the stored ring pages in DIR and on document 01's examples.
//! `reference divide DIR` prints how the runs of the stored transmit ring pages in DIR, and generated runs, are divided.

#![deny(warnings)]

use reference::{captures, divide, examples, replay as replaying};
use std::io::{self, Write};
use std::path::Path;
use std::process::ExitCode;

fn main() -> ExitCode {
    let arguments: Vec<String> = std::env::args().skip(1).collect();
    let [command, folder] = arguments.as_slice() else {
        return usage();
    };
    let root = Path::new(folder);
    let lines = match command.as_str() {
        "replay" => replay(root),
        "divide" => divide::lines(root),
        _ => return usage(),
    };
    match lines.and_then(print) {
        Ok(()) => ExitCode::SUCCESS,
        Err(error) => {
            eprintln!("reference: {folder}: {error}");
            ExitCode::FAILURE
        }
    }
}

fn usage() -> ExitCode {
    eprintln!("usage: reference replay|divide DIR");
    ExitCode::FAILURE
}

fn replay(root: &Path) -> io::Result<Vec<String>> {
    let mut rings = Vec::new();
    for folder in captures::folders(root)? {
        rings.push(captures::load(&folder)?);
    }
    rings.extend(examples::all());
    Ok(rings.iter().flat_map(replaying::lines).collect())
}

fn print(lines: Vec<String>) -> io::Result<()> {
    let mut out = io::stdout().lock();
    for line in lines {
        writeln!(out, "{line}")?;
    }
    out.flush()
}
