// SPDX-License-Identifier: Apache-2.0 OR BSD-3-Clause
//! Guards against messages of rustc that name types of the proved code, which are private.

use std::fs;
use std::path::Path;
use std::process::Command;

/// Functions with a mistake.
const MISTAKES: [&str; 6] = [
    "fn f() -> Result<()> { AddressAllocator::try_new(0, 1)?; Ok(()) }",
    "fn f() -> core::result::Result<(), ListError> { AddressAllocator::new(0, 1)?; Ok(()) }",
    "fn f() -> RangeInclusive { (0..=7).into() }",
    "fn f(window: RangeInclusive) -> AddressAllocator { window.into() }",
    "fn f(range: RangeInclusive) -> Conflict { range.into() }",
    "fn f(request: Constraint) { request.within(4096); }",
];

/// Compiles a library in a folder, and returns the messages of rustc.
fn compile(folder: &Path, file: &Path, name: &str) -> String {
    let output = Command::new("rustc")
        .args(["--edition=2021", "--crate-type=lib", "--emit=metadata"])
        .args(["--cap-lints=allow", "--crate-name", name, "--extern"])
        .arg(format!("divsharun={}/libdivsharun.rmeta", folder.display()))
        .arg("--out-dir")
        .args([folder, file])
        .output()
        .expect("rustc starts");
    String::from_utf8(output.stderr).expect("messages are text")
}

#[test]
fn messages_name_only_public_types() {
    let folder = Path::new(env!("CARGO_TARGET_TMPDIR"));
    let library = Path::new(env!("CARGO_MANIFEST_DIR")).join("src/lib.rs");
    assert_eq!(compile(folder, &library, "divsharun"), "");
    let [.., messages] = MISTAKES.map(|function| {
        let file = folder.join("mistake.rs");
        fs::write(&file, format!("use divsharun::*; pub {function}")).expect("a file is written");
        let messages = compile(folder, &file, "mistake");
        let names_proved = messages.contains("proved::");
        assert!(messages.contains("E0277") && !names_proved, "{messages}");
        messages
    });
    assert!(
        messages.contains("a window is a range of `u64`"),
        "{messages}"
    );
}
