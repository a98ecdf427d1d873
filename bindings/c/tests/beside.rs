// SPDX-License-Identifier: Apache-2.0 OR BSD-3-Clause
//! Another Rust library in the same program. It catches its own panic.

use std::panic;

#[unsafe(no_mangle)]
pub extern "C" fn catches_its_panic() -> bool {
    panic::set_hook(Box::new(|_| {}));
    panic::catch_unwind(|| panic!("this is caught")).is_err()
}
