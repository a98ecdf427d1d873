// SPDX-License-Identifier: Apache-2.0 OR BSD-3-Clause
//! Replays calls: each line of a file or of the standard input is a call, and has one line in the standard
//! output.
//!
//! The exit status is 0 after the whole input, 1 if it cannot be read, and 2 if a write fails or the
//! arguments are wrong. Each failure has one line in the standard error.
#![forbid(unsafe_code)]

use divsharun::replay::{run, ReplayError};
use std::env;
use std::ffi::{OsStr, OsString};
use std::fs::File;
use std::io::{self, Read, Write};
use std::path::Path;
use std::process::ExitCode;

const USAGE: &str = "usage: divsharun-replay [FILE]";
const HELP: &str = "usage: divsharun-replay [FILE]

Reads one call per line, and prints one result per line. Without a file, or if it is -, the calls are in the
standard input. After -- a file can have any name.

  --help     prints this
  --version  prints the version
";
const VERSION: &str = concat!("divsharun-replay ", env!("CARGO_PKG_VERSION"), "\n");

fn main() -> ExitCode {
    let words: Vec<OsString> = env::args_os().skip(1).collect();
    let bytes: Vec<&[u8]> = words.iter().map(|word| word.as_encoded_bytes()).collect();
    match bytes[..] {
        [] | [b"-"] => replay(io::stdin().lock(), "standard input"),
        [b"--help"] => print(HELP),
        [b"--version"] => print(VERSION),
        [[b'-', ..]] => fail(2, USAGE),
        [_] => replay_file(&words[0]),
        [b"--", _] => replay_file(&words[1]),
        _ => fail(2, USAGE),
    }
}

fn replay_file(file: &OsStr) -> ExitCode {
    let name = Path::new(file).display().to_string();
    match File::open(file) {
        Ok(lines) => replay(lines, &name),
        Err(error) => fail(1, &format!("divsharun-replay: {name}: {error}")),
    }
}

fn replay(lines: impl Read, name: &str) -> ExitCode {
    match run(lines, io::stdout().lock()) {
        Ok(()) => ExitCode::SUCCESS,
        Err(error @ ReplayError::Read) => fail(1, &format!("divsharun-replay: {name}: {error}")),
        Err(error) => fail(2, &format!("divsharun-replay: {error}")),
    }
}

fn print(text: &str) -> ExitCode {
    match io::stdout().write_all(text.as_bytes()) {
        Ok(()) => ExitCode::SUCCESS,
        Err(error) => fail(2, &format!("divsharun-replay: {error}")),
    }
}

/// Writes a line to the standard error. It can be closed, and that changes nothing.
fn fail(status: u8, line: &str) -> ExitCode {
    let _ = writeln!(io::stderr(), "{line}");
    ExitCode::from(status)
}
