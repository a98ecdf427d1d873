// SPDX-License-Identifier: Apache-2.0 OR BSD-3-Clause
//! Guards against lines that are split at the end of a read, and against results that are written twice, not at
//! all or to another line. The exit status is only of the program.

mod refusing;
mod rows;

use divsharun::replay::{run, ReplayError};
use refusing::refusing;
use rows::{Rows, CUT_LINES, FIRST_PROGRAM, PROGRAMS, PROGRAM_ERRORS, PROGRAM_IDS};
use std::fs::File;
use std::io::{self, ErrorKind, Read, Write};
use std::os::fd::OwnedFd;
use std::os::unix::net::UnixStream;
use std::process::{Command, Stdio};

const USAGE: &str = "usage: divsharun-replay [FILE]";

const HELP: &str = "usage: divsharun-replay [FILE]

Reads one call per line, and prints one result per line. Without a file, or if it is -, the calls are in the
standard input. After -- a file can have any name.

  --help     prints this
  --version  prints the version
";

/// The text of Linux for a file that is missing.
const MISSING: &str = "No such file or directory (os error 2)";

// REPLAY.md: "`space B S` | makes an allocator of the S addresses that start at B | `done`"
// REPLAY.md: "`first N A` | allocates N addresses at the lowest multiple of A that fits | `range
// START END`"
// REPLAY.md: "`last N A` | allocates N addresses at the highest multiple of A that fits | `range
// START END`"
// REPLAY.md: "`exact N A S` | allocates N addresses at S, a multiple of A | `range START END`"
// REPLAY.md: "`ids A B` | makes an allocator of the ids from A to B | `done`"
// REPLAY.md: "`id` | allocates the lowest free id | `id N`"
// REPLAY.md: "`manager A B BASE SIZE` | makes a manager of devices with these ids and addresses |
// `done`"
// REPLAY.md: "`device N A` | does `id` and `first N A` in the manager, both or neither | `device ID
// START END`"
// REPLAY.md: "`free START END` | frees the range | `done`"
// REPLAY.md: "`unid N` | frees the id | `id N`"
// REPLAY.md: "`has N` | checks if the id is allocated | `yes` or `no`"
// REPLAY.md: "`undevice ID` | frees the device's id and range | `done`"
/// Lines, and the result of each.
const LINES: [(&str, &str); 14] = [
    ("first 256 256", "error no-space"),
    ("space 4096 4096", "done"),
    ("first 256 256", "range 4096 4351"),
    ("last 1024 1024", "range 7168 8191"),
    ("exact 256 256 4096", "error state 4096 4351"),
    ("free 4096 4351", "done"),
    ("ids 5 23", "done"),
    ("id", "id 5"),
    ("has 6", "no"),
    ("unid 5", "id 5"),
    ("manager 5 23 4096 4096", "done"),
    ("device 4096 4096", "device 5 4096 8191"),
    ("undevice 5", "done"),
    ("undevice", "error line"),
];

/// Returns the lines of a table, each with a newline.
fn input_of(rows: &[(&str, &str)]) -> String {
    rows.iter().map(|(line, _)| format!("{line}\n")).collect()
}

/// Returns the results of a table, each with a newline.
fn output_of(rows: &[(&str, &str)]) -> String {
    rows.iter()
        .map(|(_, result)| format!("{result}\n"))
        .collect()
}

fn input() -> String {
    input_of(&LINES)
}

fn output() -> String {
    output_of(&LINES)
}

// REPLAY.md: "One space separates two words. A number has one to twenty decimal digits. It is at
// most 2^64 - 1, and an id at most 2^32 - 1."
#[test]
fn numbers_have_limits() {
    for (line, result) in [
        ("space 0 00000000000000000001", "done"),
        ("space 0 000000000000000000001", "error line"),
        ("space 0 ", "error line"),
        ("space  0 1", "error line"),
        ("space 18446744073709551615 1", "done"),
        ("space 18446744073709551616 1", "error line"),
        ("ids 0 4294967295", "done"),
        ("ids 0 4294967296", "error line"),
    ] {
        let mut written = Vec::new();
        assert_eq!(run(line.as_bytes(), &mut written), Ok(()));
        assert_eq!(String::from_utf8(written).unwrap(), format!("{result}\n"));
    }
}

/// A reader and a writer that fails.
struct Fails;

impl Read for Fails {
    fn read(&mut self, _bytes: &mut [u8]) -> io::Result<usize> {
        Err(io::ErrorKind::Other.into())
    }
}

impl Write for Fails {
    fn write(&mut self, _bytes: &[u8]) -> io::Result<usize> {
        Err(io::ErrorKind::Other.into())
    }

    fn flush(&mut self) -> io::Result<()> {
        Ok(())
    }
}

#[test]
fn each_line_has_one_result() {
    let mut written = Vec::new();
    assert_eq!(run(input().as_bytes(), &mut written), Ok(()));
    assert_eq!(String::from_utf8(written).unwrap(), output());
}

#[test]
fn failed_reads_and_writes_are_errors() {
    let mut written = Vec::new();
    let result = run(input().as_bytes().chain(Fails), &mut written);
    assert_eq!(result, Err(ReplayError::Read));
    assert_eq!(String::from_utf8(written).unwrap(), output());
    assert_eq!(run(input().as_bytes(), Fails), Err(ReplayError::Write));
    let texts = [ReplayError::Read, ReplayError::Write].map(|error| error.to_string());
    assert_eq!(texts, ["reading a line failed", "writing a result failed"]);
    let padded = format!("{:>24}", ReplayError::Read);
    assert_eq!(padded, "   reading a line failed");
}

/// Returns a text in pieces, and fails at one read. After the error it continues as if there was none.
struct Pieces<'a> {
    text: &'a [u8],
    longest: usize,
    reads: usize,
    failing: Option<(usize, ErrorKind)>,
}

impl<'a> Pieces<'a> {
    fn new(text: &'a str, longest: usize, failing: Option<(usize, ErrorKind)>) -> Self {
        Pieces {
            text: text.as_bytes(),
            longest,
            reads: 0,
            failing,
        }
    }
}

impl Read for Pieces<'_> {
    fn read(&mut self, bytes: &mut [u8]) -> io::Result<usize> {
        self.reads += 1;
        match self.failing {
            Some((read, fault)) if read == self.reads => Err(fault.into()),
            _ => self.text.read(&mut bytes[..self.longest.min(4096)]),
        }
    }
}

/// Accepts at most three bytes in a write. It counts writes and flushes, and fails at one write, or at each flush.
#[derive(Default)]
struct Sink {
    text: Vec<u8>,
    writes: usize,
    failing_write: Option<usize>,
    flushes: usize,
    failing_flush: Option<ErrorKind>,
}

impl Sink {
    fn text(&self) -> &str {
        std::str::from_utf8(&self.text).expect("results are UTF-8")
    }
}

impl Write for Sink {
    fn write(&mut self, bytes: &[u8]) -> io::Result<usize> {
        self.writes += 1;
        if self.failing_write == Some(self.writes) {
            return Err(ErrorKind::BrokenPipe.into());
        }
        self.text.write(&bytes[..bytes.len().min(3)])
    }

    fn flush(&mut self) -> io::Result<()> {
        self.flushes += 1;
        self.failing_flush.map_or(Ok(()), |fault| Err(fault.into()))
    }
}

/// Checks the output for an input in pieces of several lengths. There is one read for each piece, and one at the end.
fn expect_output(input: &str, output: &str, name: &str) {
    for longest in [1, 2, 3, 7, 64, 4096] {
        let (mut reader, mut writer) = (Pieces::new(input, longest, None), Sink::default());
        assert_eq!(run(&mut reader, &mut writer), Ok(()), "{name}, {longest}");
        assert_eq!(writer.text(), output, "{name}, {longest}");
        let reads = input.len().div_ceil(longest) + 1;
        let counts = (reader.reads, writer.flushes);
        assert_eq!(counts, (reads, 1), "{name}, {longest}");
    }
}

#[test]
fn each_program_has_its_output() {
    for (name, rows) in PROGRAMS {
        let (input, output) = (input_of(rows), output_of(rows));
        expect_output(&input, &output, name);
        expect_output(input.trim_end_matches('\n'), &output, name);
    }
}

/// Returns the result of a prefix of a line, which is the last line of the input. The line has this result.
fn result_of_prefix<'a>(line: &str, result: &'a str, prefix: &str) -> &'a str {
    if prefix == line {
        return result;
    }
    let cut = CUT_LINES
        .iter()
        .find(|row| (row.0, row.1) == (line, prefix));
    cut.map_or("error line", |row| row.2)
}

/// Ends the input after each byte.
#[test]
fn each_prefix_of_a_program_has_its_output() {
    let mut cut_lines = 0;
    for rows in [PROGRAM_ERRORS, PROGRAM_IDS] {
        for (number, (line, result)) in rows.iter().enumerate() {
            let (ended, results) = (input_of(&rows[..number]), output_of(&rows[..number]));
            expect_output(&ended, &results, "ended lines");
            for length in 1..=line.len() {
                let prefix = &line[..length];
                let last = result_of_prefix(line, result, prefix);
                let (input, output) = (format!("{ended}{prefix}"), format!("{results}{last}\n"));
                expect_output(&input, &output, prefix);
                cut_lines += usize::from(prefix != *line && last != "error line");
            }
        }
        expect_output(&input_of(rows), &output_of(rows), "all lines");
    }
    // One line is there twice.
    assert_eq!(cut_lines, CUT_LINES.len() + 3);
}

#[test]
fn long_lines_are_read_to_their_end() {
    let rows: Rows = &[("space 16 4", "done"), ("first 1 1", "range 16 16")];
    for length in [119, 120, 121, 122, 4096, 9000, 100_000] {
        let line = format!("first {}", "0".repeat(length - 6));
        expect_output(&line, "error line\n", "a long line alone");
        let input = format!("{line}\n{}", input_of(rows));
        let output = format!("error line\n{}", output_of(rows));
        expect_output(&input, &output, "a long line");
    }
}

/// An error of any kind ends the run at once, also an error that asks for a retry.
#[test]
fn a_failed_read_leaves_the_results_of_the_ended_lines() {
    let input = input_of(FIRST_PROGRAM);
    for (longest, fault) in [1, 2, 3, 7, 64].into_iter().flat_map(|longest| {
        [ErrorKind::Other, ErrorKind::Interrupted].map(|fault| (longest, fault))
    }) {
        for read in 1..=input.len().div_ceil(longest) + 1 {
            let mut reader = Pieces::new(&input, longest, Some((read, fault)));
            // The flush would fail too.
            let mut writer = Sink {
                failing_flush: Some(fault),
                ..Sink::default()
            };
            assert_eq!(run(&mut reader, &mut writer), Err(ReplayError::Read));
            let counts = (reader.reads, writer.flushes);
            assert_eq!(counts, (read, 0), "{fault:?} at read {read} of {longest}");
            let prefix = &input[..input.len().min((read - 1) * longest)];
            let ended = prefix.matches('\n').count();
            assert_eq!(writer.text(), output_of(&FIRST_PROGRAM[..ended]));
        }
    }
}

#[test]
fn a_failed_write_or_flush_ends_the_run() {
    // More results than the buffer holds.
    let input = input_of(FIRST_PROGRAM) + &"x\n".repeat(1000);
    let mut writer = Sink::default();
    assert_eq!(run(input.as_bytes(), &mut writer), Ok(()));
    let output = output_of(FIRST_PROGRAM) + &"error line\n".repeat(1000);
    assert_eq!(writer.text(), output);
    let writes = writer.writes;
    for write in (1..100).chain([writes / 2, writes - 1, writes]) {
        let mut writer = Sink {
            failing_write: Some(write),
            ..Sink::default()
        };
        let result = run(input.as_bytes(), &mut writer);
        assert_eq!((result, writer.flushes), (Err(ReplayError::Write), 0));
        assert_eq!(writer.writes, write);
    }
    for fault in [ErrorKind::Other, ErrorKind::Interrupted] {
        let mut writer = Sink {
            failing_flush: Some(fault),
            ..Sink::default()
        };
        let result = run(input.as_bytes(), &mut writer);
        assert_eq!((result, writer.flushes), (Err(ReplayError::Write), 1));
        assert_eq!(writer.text(), output);
    }
}

#[test]
fn results_before_a_failed_read_are_written() {
    for count in [0, 1, 366, 367, 368, 1000] {
        let mut writer = Sink::default();
        let input = "x\n".repeat(count);
        let result = run(input.as_bytes().chain(Fails), &mut writer);
        assert_eq!((result, writer.flushes), (Err(ReplayError::Read), 0));
        assert_eq!(writer.text(), "error line\n".repeat(count));
    }
}

/// A writer that keeps the number of bytes that were written before the last flush.
#[derive(Default)]
struct Flushes {
    written: usize,
    flushed: Option<usize>,
    fails: bool,
}

impl Write for Flushes {
    fn write(&mut self, bytes: &[u8]) -> io::Result<usize> {
        self.written += bytes.len();
        Ok(bytes.len())
    }

    fn flush(&mut self) -> io::Result<()> {
        self.flushed = Some(self.written);
        if self.fails {
            return Err(io::ErrorKind::Other.into());
        }
        Ok(())
    }
}

#[test]
fn the_output_is_flushed_at_the_end_of_the_input() {
    let mut writer = Flushes::default();
    assert_eq!(run(input().as_bytes(), &mut writer), Ok(()));
    assert_eq!(writer.flushed, Some(output().len()));
    writer = Flushes::default();
    let result = run(input().as_bytes().chain(Fails), &mut writer);
    assert_eq!((result, writer.flushed), (Err(ReplayError::Read), None));
    writer = Flushes {
        fails: true,
        ..Flushes::default()
    };
    assert_eq!(
        run(input().as_bytes(), &mut writer),
        Err(ReplayError::Write)
    );
}

/// A writer that counts writes.
struct Writes(usize);

impl Write for Writes {
    fn write(&mut self, bytes: &[u8]) -> io::Result<usize> {
        self.0 += 1;
        Ok(bytes.len())
    }

    fn flush(&mut self) -> io::Result<()> {
        Ok(())
    }
}

/// Lines that leave the objects as they were allocate nothing. The buffer for results has 4,096 bytes, and a
/// result at most 61.
#[test]
fn results_are_written_together_and_without_memory() {
    let objects = "space 0 64\nids 0 9\nid\nid\nunid 0\nmanager 0 9 0 64\ndevice 4 1\ndevice 4 1\nundevice 0\n";
    let calls = "first 4 1\nexact 4 1 8\nlast 4 1\nfirst 65 1\nfree 0 3\nfree 8 11\nfree 60 63\n\
                 id\nhas 0\nunid 0\ndevice 4 1\nundevice 0\nx\n";
    let cost = |count| {
        let (text, mut writes) = (objects.to_owned() + &calls.repeat(count), Writes(0));
        let (answer, requests) = refusing(0, || run(text.as_bytes(), &mut writes));
        assert_eq!(answer, Ok(()));
        (requests, writes.0)
    };
    let [(few, _), (many, writes)] = [1, 1000].map(cost);
    assert_eq!(many, few);
    assert!(writes <= 13 * 1000 * 20 / 4000, "{writes} writes");
}

/// Programs, and their results if the allocation of a number fails: first if none fails, then the first one, and so
/// on. Commas stand for the ends of lines.
///
/// A space is one leaf, and a split of a leaf with room allocates nothing. A manager makes lists of devices and of
/// their starts, and a list of freed ids as an allocator of ids does. The first entry of a list allocates a leaf, and
/// memory for its entries.
const REFUSED: [(&str, &[&str]); 3] = [
    (
        "space 16 4,first 1 1,first 3 1,free 16 16,",
        &[
            "done,range 16 16,range 17 19,done,",
            "error memory,error no-space,error no-space,error no-space,",
        ],
    ),
    (
        "ids 5 9,id,id,unid 5,has 5,unid 5,id,id,",
        &[
            "done,id 5,id 6,id 5,no,error already-released 5,id 5,id 7,",
            "done,id 5,id 6,error memory,yes,id 5,id 5,id 7,",
            "done,id 5,id 6,error memory,yes,id 5,id 5,id 7,",
        ],
    ),
    (
        "manager 0 1 0 16,device 4 1,undevice 0,device 4 1,",
        &[
            "done,device 0 0 3,done,device 0 0 3,",
            "error memory,error no-manager,error no-manager,error no-manager,",
            "done,error memory,error never-allocated 0,device 0 0 3,",
            "done,error memory,error never-allocated 0,device 0 0 3,",
            "done,error memory,error never-allocated 0,device 0 0 3,",
            "done,error memory,error never-allocated 0,device 0 0 3,",
            "done,device 0 0 3,error memory,device 1 4 7,",
            "done,device 0 0 3,error memory,device 1 4 7,",
        ],
    ),
];

/// Runs a program in which the allocation of a number fails. Only the calls of its lines allocate. Returns its results
/// and the number of allocations.
fn run_refusing(number: u64, input: &str) -> (String, u64) {
    let (input, mut output) = (input.replace(',', "\n"), [0; 4096]);
    let mut rest = &mut output[..];
    let (result, requests) = refusing(number, || run(input.as_bytes(), &mut rest));
    assert_eq!(result, Ok(()));
    let written = 4096 - rest.len();
    let results = String::from_utf8(output[..written].to_vec()).unwrap();
    (results.replace('\n', ","), requests)
}

/// Fails each allocation of a program in turn.
fn expect_results(input: &str, outputs: &[String]) {
    let requests = outputs.len() as u64 - 1;
    assert_eq!(run_refusing(0, input), (outputs[0].clone(), requests));
    for (number, output) in outputs.iter().enumerate() {
        assert_eq!(run_refusing(number as u64, input).0, *output, "{number}");
    }
}

#[test]
fn a_failed_allocation_changes_nothing() {
    for (input, outputs) in REFUSED {
        let outputs: Vec<_> = outputs.iter().map(|output| output.to_string()).collect();
        expect_results(input, &outputs);
    }
}

/// A split of a leaf with 32 blocks, which is the whole tree, allocates a leaf, a root and a list of nodes.
#[test]
fn a_failed_split_of_a_full_leaf_changes_nothing() {
    let even = || (0..16).map(|number| 2 * number);
    let lines: String = even().map(|at| format!("exact 1 1 {at},")).collect();
    let ranges: String = even().map(|at| format!("range {at} {at},")).collect();
    let input = format!("space 0 4096,{lines}last 1 1,last 1 1,first 2 1,free 30 30,first 1 1,");
    let later = "range 31 32,done,range 1 1,";
    let split = format!("done,{ranges}range 4095 4095,range 4094 4094,{later}");
    let refused = format!("done,{ranges}error memory,range 4095 4095,{later}");
    let no_space = format!("error memory,{}", "error no-space,".repeat(21));
    let each = [refused.clone(), refused.clone(), refused];
    expect_results(&input, &[&[split, no_space][..], &each].concat());
}

/// Runs the program. Returns its exit status, its output and its standard error.
fn program(arguments: &[&str], input: Stdio, output: Stdio) -> (Option<i32>, String, String) {
    program_with(arguments, input, output, Stdio::piped())
}

fn program_with(
    arguments: &[&str],
    input: Stdio,
    output: Stdio,
    errors: Stdio,
) -> (Option<i32>, String, String) {
    let mut program = Command::new(env!("CARGO_BIN_EXE_divsharun-replay"));
    program.args(arguments).stdin(input).stdout(output);
    let child = program.stderr(errors).spawn().unwrap();
    let done = child.wait_with_output().unwrap();
    let text = |bytes| String::from_utf8(bytes).unwrap();
    (done.status.code(), text(done.stdout), text(done.stderr))
}

fn full_device() -> Stdio {
    File::options()
        .write(true)
        .open("/dev/full")
        .unwrap()
        .into()
}

/// Returns the line with an error, or nothing if there is none. The usage is a whole line.
fn line_of(error: &str) -> String {
    match error {
        "" => String::new(),
        USAGE => format!("{USAGE}\n"),
        _ => format!("divsharun-replay: {error}\n"),
    }
}

/// Writes a file of lines. Returns its path.
fn file_of(name: &str, lines: &str) -> String {
    let path = format!("{}/{name}", env!("CARGO_TARGET_TMPDIR"));
    std::fs::write(&path, lines).unwrap();
    path
}

// REPLAY.md: "The status is 0 after the whole input, 1 if it cannot be read, and 2 if a write fails
// or the arguments are wrong."
#[test]
fn the_program_reads_its_input_or_a_file() {
    let (lines, file) = (file_of("lines", &input()), file_of("a file", "undevice\n"));
    let (file, output) = (&file[..], &output()[..]);
    let version = concat!("divsharun-replay ", env!("CARGO_PKG_VERSION"), "\n");
    // The arguments, and the status, the output and the error that they lead to.
    for (arguments, status, output, error) in [
        (&[][..], 0, output, ""),
        (&["-"], 0, output, ""),
        (&[file], 0, "error line\n", ""),
        (&["--", file], 0, "error line\n", ""),
        (&["--version"], 0, version, ""),
        (&["--help"], 0, HELP, ""),
        (&["--unknown"], 2, "", USAGE),
        (&[file, file], 2, "", USAGE),
        (&[file, "--"], 2, "", USAGE),
        (&["--help", file], 2, "", USAGE),
        (&["--version", file], 2, "", USAGE),
        (&["-h"], 2, "", USAGE),
        (&["--"], 2, "", USAGE),
        (&["--", file, file], 2, "", USAGE),
        (&[""], 1, "", &format!(": {MISSING}")),
        (&["no such"], 1, "", &format!("no such: {MISSING}")),
        (&["--", "-"], 1, "", &format!("-: {MISSING}")),
        (&["/"], 1, "", "/: reading a line failed"),
    ] {
        let input = || File::open(&lines).unwrap().into();
        let (code, printed, errors) = program(arguments, input(), Stdio::piped());
        let result = (code, &printed[..], &errors[..]);
        assert_eq!(
            result,
            (Some(status), output, &line_of(error)[..]),
            "{arguments:?}"
        );
        let (code, _, _) = program_with(arguments, input(), Stdio::null(), full_device());
        assert_eq!(code, Some(status), "{arguments:?}");
    }
}

#[test]
fn the_program_reports_a_failed_write() {
    for (argument, error) in [
        ("-", "writing a result failed"),
        ("--help", "No space left on device (os error 28)"),
        ("--version", "No space left on device (os error 28)"),
    ] {
        let input = || File::open(file_of("lines to a full device", &input())).unwrap();
        let (code, _, errors) = program(&[argument], input().into(), full_device());
        assert_eq!((code, errors), (Some(2), line_of(error)));
        let (code, _, _) = program_with(&[argument], input().into(), full_device(), full_device());
        assert_eq!(code, Some(2));
    }
}

#[test]
fn the_program_prints_the_results_before_a_failed_read() {
    // If one end of a socket is closed with unread bytes, the other end fails after its lines.
    let (mut near, mut far) = UnixStream::pair().unwrap();
    far.write_all(b"unread").unwrap();
    near.write_all(input().as_bytes()).unwrap();
    drop(near);
    let (code, printed, errors) = program(&[], OwnedFd::from(far).into(), Stdio::piped());
    assert_eq!((code, printed), (Some(1), output()));
    assert_eq!(errors, line_of("standard input: reading a line failed"));
}
