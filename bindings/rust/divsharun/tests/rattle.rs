// SPDX-License-Identifier: Apache-2.0 OR BSD-3-Clause
//! Guards against boxes and lists with other results than Rust's library.
//! If an allocation fails, a call must change nothing, and lose neither its argument nor a block.

extern crate alloc;

#[allow(dead_code, unused_imports, clippy::len_without_is_empty)]
#[path = "../src/rattle/mod.rs"]
mod rattle;
mod refusing;

use rattle::{AllocFailed, Box, Global, Vec};
use refusing::{blocks, refusing};

#[test]
fn boxes() {
    let refused = refusing(1, || Box::new(Global, 7)).0.err().unwrap();
    assert_eq!(refused.value, 7);
    let before = blocks();
    let (mut boxed, requests) = refusing(0, || Box::new(Global, 7).unwrap());
    *boxed += 1;
    assert_eq!((*boxed, requests, blocks()), (8, 1, before + 1));
    drop(boxed);
    assert_eq!(blocks(), before);
}

/// Makes a call with its first allocation failing, then with its second, and so on, until it
/// succeeds. Returns the result and the number of failures.
fn until_allowed<T, E>(
    mut call: impl FnMut() -> Result<T, E>,
    mut failed: impl FnMut(E),
) -> (T, u64) {
    for number in 1.. {
        match refusing(number, &mut call).0 {
            Ok(result) => return (result, number - 1),
            Err(error) => failed(error),
        }
    }
    unreachable!()
}

/// Checks vectors that grow by pushed and by inserted values.
#[test]
fn vectors() {
    let (mut pushed, mut inserted) = (Vec::new(Global), Vec::new(Global));
    let mut failures = 0;
    for value in 0..1000 {
        let failed = |AllocFailed { value: back }| assert_eq!(back, value);
        failures += until_allowed(|| pushed.push(value), failed).1;
        failures += until_allowed(|| inserted.insert(0, value), failed).1;
        assert!(inserted.capacity() <= inserted.len() * 9 / 8 + 4);
    }
    assert!((10..100).contains(&failures), "{failures} failures");
    assert!(pushed.iter().copied().eq(0..1000));
    assert!(inserted.iter().rev().copied().eq(0..1000));
    let (clone, _) = until_allowed(|| inserted.clone(), |_| {});
    assert_eq!((clone.capacity(), clone == inserted), (1000, true));
    let (empty, _) = until_allowed(|| Vec::<u64>::with_capacity(Global, 7), |_| {});
    assert_eq!((empty.capacity(), empty.len()), (7, 0));
}

/// Checks that a vector is divided and joined again, and that a failed allocation changes neither part.
#[test]
fn parts_of_vectors() {
    let mut whole = Vec::new(Global);
    let (_, _) = until_allowed(|| whole.extend_from_slice(&[0, 1, 2, 3, 4]), |_| {});
    let (mut upper, failures) = until_allowed(|| whole.split_off(2), |_| {});
    assert_eq!(
        (failures, whole.as_slice(), upper.as_slice()),
        (1, &[0, 1][..], &[2, 3, 4][..])
    );
    let (_, failures) = until_allowed(|| upper.append(&mut whole), |_| {});
    assert_eq!(
        (failures, whole.as_slice(), upper.as_slice()),
        (1, &[][..], &[2, 3, 4, 0, 1][..])
    );
}
