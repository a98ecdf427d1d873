#!/usr/bin/env python3
"""Checks that the eraser rejects edits of the sources that Rattle or Rust could read in another way.

    hostile_edits.py PROJECT

There is one edit for each error of the eraser that protects a proved property, and it must be rejected with exactly
this error. The prover, rustc or the second eraser rejects what is no item, statement or clause, so no edit is of that
kind. The exit status is 1 if an edit is accepted, if its text is not found, or if a table of the eraser has a name that
no library has."""
import os
import pathlib
import re
import shutil
import subprocess
import sys
import tempfile

import erase

# Each edit is an item above this one, or a statement of a function there. The crate needs no other crate.
RANGE, IMPL = "crates/vm_ranges/src/range.rt", "impl RangeInclusive {"
PROGRAM = "program: vm_ranges\n"
SECOND = pathlib.Path(__file__).with_name("second_eraser.py")

ITEMS = [
    ("// How many.\rfn f() {}", "a carriage return"),
    ("ghost use X\n\nfn f() {};", "a ghost of this form"),
    ("#[inline] ghost use X;", "'ghost' in code"),
    ('#[derive(Error)] enum X { #[error("{name}")] A }', "a text of this form"),
    ("impl Eq for X { fn f() requires { f } { 1 } }", "a 'requires' of 'f', which anyone may call"),
    ("fn f(x: u64 requires { g }) { 1 }", "a clause outside of a signature"),
    ("struct X { pub a: u64, ghost b: { f }, }", "a public field of 'X', which has ghosts"),
    ("struct X(u64);", "a type without braces"),
    ("struct X<T = u64> { x: T }", "parameters of this form"),
    ("struct X { f: fn(u64) }", "an item 'fn' in code"),
    ("struct X { x: String }", "a type 'String' that is in no table"),
    ("struct Box {}", "a definition of 'Box'"),
    ("impl From<u64> for [X] {}", "an impl of this form"),
    ("impl Deref for X {}", "an impl of 'Deref'"),
    ("impl X { type Y = u64; }", "an item 'type'"),
    ("unsafe X {}", "an item 'unsafe'"),
    ("trait X: Eq {}", "a trait of this form"),
    ("trait X: Copy { fn f(&self) -> u64 { 1 } }", "a function of this form"),
    ("mod inside {}", "a module of this form"),
    ("mod missing;", "no file for the module 'missing'"),
    ("#[cfg(any())]", "an attribute 'cfg'"),
    ("#[derive(Clone, Deref)] struct X {}", "a derive of 'Deref'"),
    ("//! A page.", "documentation of the file behind an item"),
    ("fn law() {}\nfn f() { law(); 1 }", "a function 'law' that is in no table"),
    ("fn f() -> u64 ensures { g -- } { 1 }", "'-' in a clause"),
    ("use std::cmp::Reverse as Other;", "an import under another name"),
    ("use core::cmp::max;", "an import from 'core'"),
    ("use super::*;", "a definition of '*'"),
    ("impl Model for X { fn f() {} }", "a member of Model that is no ghost"),
]
STATEMENTS = [
    ("thiserror::Error;", "'thiserror' in code"),
    ("unsafe;", "'unsafe' in code"),
    ("1 + ghost x = { f };", "'ghost' in code"),
    ("#[inline]", "an attribute in code"),
    ("static;", "an item 'static' in code"),
    ("1.5 + self.len()", "text that begins with '1.5 + self.l'"),
    ("/*+1*/ self.len()", "text that begins with '/*+1*/ self.'"),
    ("json!(1);", "a macro 'json'"),
    ("std::cmp::Reverse;", "'std::cmp::Reverse' is in no table"),
    ("std::mem::take;", "'std::mem' is in no table"),
    ("self.end.pow(1);", "a method 'pow' that is in no table"),
    ("swap(self.end);", "a function 'swap' that is in no table"),
    ("u64::MIN(self.end);", "a path 'u64::MIN' that is in no table"),
    ("self.end as RangeInclusive;", "'as RangeInclusive'"),
    ("// Proof: a fact.\n        let _x = self.next();", "a statement for the prover of this form"),
]
OF_TESTS = [
    ("#[test] fn f(x: u64) {}", "other parameters than 'rt'"),
    ("fn f() { x.expect(y, z) }", "'expect' without 'rt'"),
]


def write_crates(project, program):
    pathlib.Path(project, "crates.txt").write_text(f"vm_ranges: serde_json thiserror\n{program}", "utf-8")


def error_of(project, code, is_of_tests=False):
    """Returns the error of the eraser for an item in a crate that a program needs, or that only tests need."""
    source, text = pathlib.Path(project, RANGE), pathlib.Path(project, RANGE).read_bytes().decode()
    source.write_bytes(text.replace(IMPL, f"{code}\n{IMPL}").encode())
    write_crates(project, "" if is_of_tests else PROGRAM)
    try:
        erase.Project(project, is_of_tests)
    except erase.Refused as refused:
        return str(refused).split(": ", 1)[1]
    finally:
        source.write_bytes(text.encode())
    return "it is accepted"


def faults_of_program(project, out):
    """Returns what is wrong with erase.py as a program: its status and message for an edit, and a module that no
    source has any more."""
    source, old = pathlib.Path(project, RANGE), pathlib.Path(out, "vm_ranges", "old", "old.rs")
    write_crates(project, PROGRAM)
    text, command = source.read_text("utf-8"), [sys.executable, erase.__file__, project, out]
    source.write_text(text.replace(IMPL, f"struct X(u64);\n{IMPL}"), "utf-8")
    refused = subprocess.run(command, text=True, capture_output=True, check=False)
    line = text[:text.index(IMPL)].count("\n") + 1
    faults = [] if refused.returncode == 1 and f"{RANGE}:{line}: a type without braces" in refused.stderr else [
        f"erase.py ends with {refused.returncode} and {refused.stderr!r}"]
    source.write_text(text, "utf-8")
    old.parent.mkdir(parents=True)
    old.touch()
    erased = subprocess.run(command, text=True, capture_output=True, check=False)
    faults += ["an old module remains"] * (erased.returncode != 0 or old.parent.exists())
    return faults + faults_of_second(project, pathlib.Path(out, "vm_ranges"))


def faults_of_second(project, folder):
    """Returns the edits of a written module that second_eraser.py accepts, and an output that it rejects."""
    wrong = []
    for name, old, new in [("range.rs", "", ""), ("range.rs", "self.end", "self.start"), ("range.rs", "}\n", "}\nfn more() { 1 }\n"),
                           ("range.rs", "use ", "use core::cmp::max;\nuse "), ("error.rs", "is not in", "is in"),
                           ("error.rs", "{field_0}-{field_1}", "{field_1}-{field_0}"), ("../mod.rs", "pub mod", "mod")]:
        plain = folder / name
        text = plain.read_text("utf-8")
        plain.write_text(text.replace(old, new, 1), "utf-8")
        second = subprocess.run([sys.executable, SECOND, project, folder.parent], capture_output=True, check=False)
        if second.returncode != int(old != new):
            wrong.append(f"second_eraser.py ends with {second.returncode} for {new!r} in {name}, or that has no {old!r}")
        plain.write_text(text, "utf-8")
    return wrong


def unused(project):
    """Returns the names of the tables that no library has. Each must be compared with Rust, so none is there in advance."""
    paths = pathlib.Path(project).glob("crates/*/src/**/*.rt")
    sources = "".join(path.read_text("utf-8") for path in paths if not re.search("tests/", str(path)))
    used = set(re.findall(r"\.\w+(?=\()|\w+!|[\w:]+\w", re.sub("//.*", "", sources)))
    names = {f".{name}" for name in erase.METHODS} | {f"{name}!" for name in erase.MACROS} | erase.ASSOCIATED
    return sorted(names - used)


def main():
    if len(sys.argv) != 2:
        sys.exit(__doc__)
    with tempfile.TemporaryDirectory() as project:
        crate = os.path.join("crates", "vm_ranges")
        shutil.copytree(os.path.join(sys.argv[1], crate), os.path.join(project, crate))
        source = pathlib.Path(project, RANGE)
        if not source.exists() or source.read_text("utf-8").count(IMPL) != 1:
            sys.exit(f"hostile edits: {RANGE} must have {IMPL!r} once: name another place")
        edits = [*ITEMS, *((f"fn f(&self) -> u64 {{\n    {code}\n    1\n}}", error) for code, error in STATEMENTS)]
        found = [(code, error_of(project, code), error) for code, error in edits]
        found += [(code, error_of(project, code, True), error) for code, error in OF_TESTS]
        wrong = faults_of_program(project, os.path.join(project, "out"))
    wrong += [f"{code}: {error}, instead of: {expected}" for code, error, expected in found if error != expected]
    wrong += [f"{name} is in a table of the eraser, and no library has it" for name in unused(sys.argv[1])]
    print(*wrong, f"{len(found)} hostile edits, {len(wrong)} faults", sep="\n")
    sys.exit(len(wrong) > 0)


if __name__ == "__main__":
    main()
