// SPDX-License-Identifier: Apache-2.0 OR BSD-3-Clause
//! Makes the same calls with divsharun and with `vm-allocator` 0.1.4, compares the results, and
//! measures both.
//!
//!     cargo run --release [-- [SEED] [HISTORIES]]
//!
//! It counts each difference by its number in docs/DIFFERENCES.md. A difference without a number is
//! printed, and the exit status is 1.

mod costs;
mod difference;
mod histories;
#[path = "../../tests/packed/mod.rs"]
mod packed;
mod plain;
#[path = "../../tests/refusing/mod.rs"]
mod refusing;
mod saved;
#[path = "../../benches/workload/mod.rs"]
mod workload;

use difference::Tally;
use plain::Plain;
use refusing::peak_of;
use std::process::ExitCode;
use std::time::SystemTime;
use workload::{library, Cache, Call, Devices};

library!(Port, divsharun);
library!(Rust, vm_allocator);

/// The number of rounds of a measurement, and of one with millions of ranges.
const ROUNDS: u64 = 11;
const LONG_ROUNDS: u64 = 3;

fn main() -> ExitCode {
    let mut arguments = std::env::args()
        .skip(1)
        .map(|word| word.parse().expect("a number"));
    let seed: u64 = arguments.next().unwrap_or_else(seed_of_the_clock);
    let histories: u64 = arguments.next().unwrap_or(4000);
    println!("seed {seed}, {histories} histories of addresses and of ids each");
    let mut tally = Tally::default();
    for history in 0..histories {
        histories::compare_addresses(seed.wrapping_add(history), &mut tally);
        histories::compare_ids(seed.wrapping_add(history), &mut tally);
    }
    saved::compare_damaged(&mut tally);
    println!("{tally}");
    costs::measure();
    measure(&mut tally);
    measure_millions(&mut tally);
    match tally.unnamed() {
        0 => ExitCode::SUCCESS,
        _ => ExitCode::FAILURE,
    }
}

fn seed_of_the_clock() -> u64 {
    let now = SystemTime::now().duration_since(SystemTime::UNIX_EPOCH);
    now.map_or(1, |time| time.as_nanos() as u64)
}

/// Measures the libraries and compares their results. Prints nanoseconds per call of divsharun, and
/// those of `vm-allocator` and of an ordered map.
fn measure(tally: &mut Tally) {
    println!("| call | 10 | 100 | 1,000 | 10,000 | 100,000 ranges |\n|---|---|---|---|---|---|");
    let devices = [10, 100, 1_000, 10_000, 100_000].map(Devices::new);
    for (call, cache) in Call::ALL
        .into_iter()
        .flat_map(|call| Cache::ALL.map(|cache| (call, cache)))
    {
        let cells: Vec<String> = devices
            .iter()
            .map(|devices| measure_call(call, cache, devices, ROUNDS, tally))
            .collect();
        println!("| {call}, {cache:?} | {} |", cells.join(" | "));
    }
    let cells: Vec<String> = devices.iter().map(bytes_per_range).collect();
    println!("| bytes per range | {} |", cells.join(" | "));
}

/// Measures the calls that look for one address, in spaces with millions of ranges in a random order.
fn measure_millions(tally: &mut Tally) {
    println!("| call | 1,000,000 | 10,000,000 ranges |\n|---|---|---|");
    let devices = [1_000_000, 10_000_000].map(Devices::new);
    for call in [Call::Exact, Call::Free] {
        let cells = devices
            .each_ref()
            .map(|devices| measure_call(call, Cache::Warm, devices, LONG_ROUNDS, tally));
        println!("| {call} | {} |", cells.join(" | "));
    }
}

fn measure_call(
    call: Call,
    cache: Cache,
    devices: &Devices,
    rounds: u64,
    tally: &mut Tally,
) -> String {
    let port = devices.measure::<Port>(call, cache, rounds);
    let [rust, plain] = [
        devices.measure::<Rust>(call, cache, rounds),
        devices.measure::<Plain>(call, cache, rounds),
    ]
    .map(|other| {
        for (answer, port_answer) in other.answers.iter().zip(&port.answers) {
            if answer != port_answer {
                tally.unnamed_difference(&format!("{call}: {answer:?} and {port_answer:?}"));
            }
        }
        other.nanoseconds
    });
    format!("{:.0} ({rust:.0}, {plain:.0})", port.nanoseconds)
}

/// Returns the bytes of a space per allocated range, and those of the others.
fn bytes_per_range(devices: &Devices) -> String {
    let [port, rust, plain] = [
        peak_of(|| devices.full::<Port>()).1,
        peak_of(|| devices.full::<Rust>()).1,
        peak_of(|| devices.full::<Plain>()).1,
    ]
    .map(|bytes| bytes as f64 / devices.count() as f64);
    format!("{port:.0} ({rust:.0}, {plain:.0})")
}
