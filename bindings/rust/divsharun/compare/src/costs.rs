// SPDX-License-Identifier: Apache-2.0 OR BSD-3-Clause
//! Measures saving and restoring a space with both libraries: the time, and the memory at its peak.

use crate::packed;
use crate::refusing::peak_of;
use crate::workload::{Library, Place};
use crate::{Port, Rust};
use serde::de::DeserializeOwned;
use serde::Serialize;
use std::hint::black_box;
use std::time::{Duration, Instant};

/// The minimum number of rounds. Both libraries take turns, and the shortest time counts.
const ROUNDS: u64 = 15;

/// A format of saved spaces.
trait Format {
    const NAME: &'static str;
    type Saved;

    fn save<T: Serialize>(space: &T) -> Self::Saved;
    fn restore<T: DeserializeOwned>(saved: &Self::Saved) -> T;
}

struct Json;

impl Format for Json {
    const NAME: &'static str = "JSON";
    type Saved = String;

    fn save<T: Serialize>(space: &T) -> String {
        serde_json::to_string(space).expect("it is written")
    }

    fn restore<T: DeserializeOwned>(saved: &String) -> T {
        serde_json::from_str(saved).expect("it is read")
    }
}

/// A format without names.
struct Packed;

impl Format for Packed {
    const NAME: &'static str = "packed";
    type Saved = Vec<u8>;

    fn save<T: Serialize>(space: &T) -> Vec<u8> {
        packed::to_bytes(space).expect("it is written")
    }

    fn restore<T: DeserializeOwned>(saved: &Vec<u8>) -> T {
        packed::from_bytes(saved.iter().copied()).expect("it is read")
    }
}

/// The costs of one library.
struct Costs {
    out: Duration,
    into: Duration,
    // The peak of a call that saves a space and then restores it.
    bytes: usize,
}

impl Costs {
    fn new() -> Self {
        Costs {
            out: Duration::MAX,
            into: Duration::MAX,
            bytes: 0,
        }
    }

    /// Saves and restores a space once more.
    fn measure<F: Format, T: Serialize + DeserializeOwned>(&mut self, space: &T) {
        // The C library joins small freed blocks when a large one is allocated. Those of the other library
        // are joined here, and not in a measured call.
        drop(black_box(Vec::<u8>::with_capacity(1 << 16)));
        let start = Instant::now();
        let saved = black_box(F::save(space));
        self.out = self.out.min(start.elapsed());
        let start = Instant::now();
        let again: T = black_box(F::restore(&saved));
        self.into = self.into.min(start.elapsed());
        drop((saved, again));
        self.bytes = peak_of(|| F::restore::<T>(&F::save(space))).1;
    }
}

/// Returns a space with this number of pages allocated in ascending order, each with a gap after it.
fn pages<L: Library>(count: u64) -> L::Space {
    let mut space = L::space(0, count * 0x2000);
    for page in 0..count {
        let start = Place::Exact(page * 0x2000);
        L::allocate(&mut space, 0x1000, 0x1000, start).expect("it is clear");
    }
    space
}

/// Prints the costs of divsharun in both formats, and those of `vm-allocator` divided by them.
pub fn measure() {
    println!("| format, ranges | save | restore | peak of both |\n|---|---|---|---|");
    for count in [1_000, 100_000, 1_000_000] {
        measure_format::<Json>(count);
        measure_format::<Packed>(count);
    }
}

fn measure_format<F: Format>(count: u64) {
    let (rust_space, port_space) = (pages::<Rust>(count), pages::<Port>(count));
    let (mut rust, mut port) = (Costs::new(), Costs::new());
    for _ in 0..ROUNDS.max(400_000 / count) {
        rust.measure::<F, <Rust as Library>::Space>(&rust_space);
        port.measure::<F, <Port as Library>::Space>(&port_space);
    }
    let time = |port: Duration, rust: Duration| {
        let ratio = rust.as_secs_f64() / port.as_secs_f64();
        let milliseconds = port.as_secs_f64() * 1e3;
        format!("{milliseconds:.2} ms ({ratio:.2})")
    };
    let (out, into) = (time(port.out, rust.out), time(port.into, rust.into));
    let bytes = port.bytes as f64 / 1e6;
    let ratio = rust.bytes as f64 / port.bytes as f64;
    println!(
        "| {}, {count} | {out} | {into} | {bytes:.1} MB ({ratio:.2}) |",
        F::NAME
    );
}
