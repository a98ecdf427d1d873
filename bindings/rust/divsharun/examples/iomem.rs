// SPDX-License-Identifier: Apache-2.0 OR BSD-3-Clause
//! Checks the memory map of a machine, and draws it as SVG.
//!
//! It reads the lines `start-end : name` of `/proc/iomem` or `/proc/ioports` from the standard input. A line is the
//! window of the lines after it that are indented deeper. The report on the standard error lists ranges that overlap
//! or are outside their window, and the gaps of windows that are longer than the argument. The picture on the standard
//! output has a row for each range in use, and for each gap. A bus is free except for its devices.
//!
//!     sudo cat /proc/iomem | cargo run --example iomem -- 0x100000 > iomem.svg
//!
//! Only root can read the addresses. `divsharun/examples/q35.iomem` has those of a q35 guest with 4 GiB.

use divsharun::{AddressAllocator, AllocPolicy, Constraint, RangeInclusive};
use std::fmt;
use std::io;
use std::process::ExitCode;

/// The error of an input without addresses, such as those that the kernel shows to a user who is not root.
const ALL_ZERO: &str =
    "all addresses are 0: read the file as root, or use divsharun/examples/q35.iomem";

/// A line of the input. Its depth is at least 1.
struct Line<'a> {
    depth: usize,
    range: RangeInclusive,
    name: &'a str,
}

impl fmt::Display for Line<'_> {
    fn fmt(&self, f: &mut fmt::Formatter<'_>) -> fmt::Result {
        write!(f, "{} : {}", self.range, self.name)
    }
}

/// Reads a line, which is at most one step deeper than the line before it.
fn parse(line: &str, depth_before: usize) -> Option<Line<'_>> {
    let entry = line.trim_start();
    let steps = (line.len() - entry.len()) / 2;
    let (range, name) = entry.split_once(" : ")?;
    Some(Line {
        depth: 1 + steps.min(depth_before),
        range: range.parse().ok()?,
        name,
    })
}

/// Reads the lines. The first one is the window of all lines of the input.
fn read(input: &str) -> Result<Vec<Line<'_>>, String> {
    let mut lines: Vec<Line<'_>> = Vec::new();
    for text in input.lines() {
        let depth_before = lines.last().map_or(0, |line| line.depth);
        let line = parse(text, depth_before);
        lines.push(line.ok_or_else(|| format!("this is not `start-end : name`: {text}"))?);
    }
    let ends = lines.iter().map(|line| line.range.end());
    let end = ends.max().filter(|end| *end > 0);
    let end = end.ok_or(ALL_ZERO)?;
    let (depth, name) = (0, "all addresses");
    let range = RangeInclusive::new(0, end).map_err(|error| error.to_string())?;
    lines.insert(0, Line { depth, range, name });
    Ok(lines)
}

/// Allocates a range. The error is the reason why it cannot be allocated.
fn allocate(space: &mut AddressAllocator, range: RangeInclusive) -> Result<(), String> {
    let policy = AllocPolicy::ExactMatch(range.start());
    let request = Constraint::new(range.len(), 1, policy).map_err(|error| error.to_string())?;
    match (space.conflict(request), space.allocate_constraint(request)) {
        (Some(conflict), _) => Err(conflict.to_string()),
        (None, allocated) => allocated.map(drop).map_err(|error| error.to_string()),
    }
}

/// Reports children of a window that cannot be allocated in it, and its gaps that are longer than `limit`.
fn report(window: &Line<'_>, after: &[Line<'_>], limit: u64) {
    let inside = after.iter().take_while(|line| line.depth > window.depth);
    let mut children = inside
        .filter(|line| line.depth == window.depth + 1)
        .peekable();
    if children.peek().is_none() {
        return;
    }
    let mut space = AddressAllocator::over(window.range);
    for child in children {
        if let Err(reason) = allocate(&mut space, child.range) {
            eprintln!("{child}: {reason}");
        }
    }
    for gap in space.gaps().filter(|gap| gap.len() > limit) {
        eprintln!("{gap} : a gap of {:#x} in {window}", gap.len());
    }
}

/// Returns the ranges in use: the lines that are not a bus, without those inside them. The names of lines with the same
/// range are joined, such as those of a device and its driver.
fn ranges_in_use(lines: &[Line<'_>]) -> Vec<(RangeInclusive, String)> {
    let (mut ranges, mut depth_in_use) = (Vec::new(), usize::MAX);
    for (at, line) in lines.iter().enumerate() {
        if line.depth > depth_in_use {
            continue;
        }
        depth_in_use = usize::MAX;
        if !line.name.starts_with("PCI Bus") {
            depth_in_use = line.depth;
            let same = lines[at..]
                .iter()
                .take_while(|next| next.range == line.range);
            let names: Vec<_> = same.map(|line| line.name).collect();
            ranges.push((line.range, names.join(", ")));
        }
    }
    ranges
}

/// Reads a number, which is hexadecimal after `0x`.
fn number(text: &str) -> Result<u64, String> {
    let number = match text.strip_prefix("0x") {
        Some(digits) => u64::from_str_radix(digits, 16),
        None => text.parse(),
    };
    number.map_err(|_| format!("this is not a number: {text}"))
}

/// Writes the report, and returns the picture.
fn picture() -> Result<String, String> {
    let limit = std::env::args().nth(1);
    let limit = limit.map_or(Ok(0), |text| number(&text))?;
    let input = io::read_to_string(io::stdin()).map_err(|error| error.to_string())?;
    let lines = read(&input)?;
    for (at, window) in lines.iter().enumerate() {
        report(window, &lines[at + 1..], limit);
    }
    let ranges = ranges_in_use(&lines[1..]);
    let mut space = AddressAllocator::over(lines[0].range);
    for (range, _) in &ranges {
        // If it overlaps another range, the report has it, and the picture has the first one.
        let _ = allocate(&mut space, *range);
    }
    let names = ranges.iter().map(|(range, name)| (*range, name.as_str()));
    Ok(space.layout().named(names).svg())
}

fn main() -> ExitCode {
    match picture() {
        Ok(picture) => {
            print!("{picture}");
            ExitCode::SUCCESS
        }
        Err(reason) => {
            eprintln!("iomem: {reason}");
            ExitCode::FAILURE
        }
    }
}
