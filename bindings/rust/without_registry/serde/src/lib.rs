// SPDX-License-Identifier: Apache-2.0 OR BSD-3-Clause
// divsharun enables `derive`, and tests without the feature `serde` use nothing of this crate.
#[cfg(feature = "derive")]
compile_error!("this serde is empty: the feature `serde` needs a registry, and no `--config`");
