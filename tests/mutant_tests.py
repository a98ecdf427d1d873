#!/usr/bin/env python3
"""Makes the mutants of tests/mutants, and runs the check that must notice each.

    mutant_tests.py PROJECT SCRATCH [MUTANT ..]

No clause excludes these mutants. The first line of one names the check and parts of its output, as in
`CHECK: TEXT & TEXT`. The check is error_rule, count_rule, pages, or a test of divsharun: memory, calls or replay. The
rest are files, each with the text to replace (-), which it has once in any layout, and the new text (+). The exit status
is 1 if a mutant is not noticed, or if a test fails without one."""
import collections
import glob
import os
import pathlib
import re
import shutil
import subprocess
import sys

TOP = os.path.dirname(os.path.dirname(os.path.abspath(__file__)))
PROJECT, SCRATCH = (os.path.abspath(argument) for argument in sys.argv[1:3])
COPY, DIVSHARUN = os.path.join(SCRATCH, "project"), os.path.join(SCRATCH, "rust", "divsharun")
RULES = ("count_rule", "error_rule", "pages")
# A backtrace would take longer than the test.
ENVIRONMENT = dict(os.environ, CARGO_TARGET_DIR=os.path.join(SCRATCH, "target"), RUST_BACKTRACE="0")


def run(*command, folder=DIVSHARUN):
    done = subprocess.run(command, cwd=folder, env=ENVIRONMENT, text=True, capture_output=True, check=False)
    return done.returncode, done.stdout + done.stderr


def make(mutant):
    """Edits the copy of the sources. Returns what is wrong with the mutant, or nothing."""
    for path, old, new in re.findall(r"^(\w\S*)\n((?:-.*\n)+)((?:\+.*\n)+)", pathlib.Path(mutant).read_text("utf-8"), re.M):
        source = pathlib.Path(COPY, path)
        if not source.exists():
            return f"there is no {path}: name the file of today"
        pattern = r"\s+".join(map(re.escape, re.sub(r"^-", "", old, flags=re.M).split()))
        text, count = re.subn(pattern, lambda _: re.sub(r"^\+", "", new, flags=re.M).strip(), source.read_text("utf-8"))
        if count != 1:
            return f"{path} has {old!r} {count} times: name the text of today"
        source.write_text(text, "utf-8")
    return ""


def output_of(check, mutant=None):
    """Makes a mutant in a copy of the sources. Returns the status and the output of a check."""
    shutil.rmtree(COPY, ignore_errors=True)
    # The rule on pages reads all files of a repository, but must not read this mutant. The others read sources.
    others = {"target", "build", "out"} | ({".git", "mutants"} if check == "pages" else {"must-fail", "proofs", "specs"})
    below, rule = ("", COPY) if check == "pages" else ("crates", TOP)
    shutil.copytree(os.path.join(PROJECT, below), os.path.join(COPY, below), ignore=shutil.ignore_patterns(*others))
    shutil.copy(os.path.join(PROJECT, "crates.txt"), COPY)
    run("git", "init", "-q", COPY)
    if mutant and (wrong := make(mutant)):
        return 1, wrong
    if check in RULES:
        return run(os.path.join(rule, "tests", check), COPY)
    status, output = run(os.path.join(TOP, "bindings/erase/erase.py"), COPY, "src/proved")
    return (status, output) if status else run("cargo", "test", "-q", "--offline", f"--test={check}",
                                               "--config=../without_registry/config.toml")


def main():
    bindings, folder = os.path.join(PROJECT, "bindings/rust"), os.path.join(PROJECT, "tests/mutants")
    shutil.copytree(bindings, os.path.dirname(DIVSHARUN), ignore=shutil.ignore_patterns("target"))
    mutants = [*map(os.path.abspath, sys.argv[3:])] or sorted(glob.glob(os.path.join(folder, "*.txt")))
    checks, wrong = collections.defaultdict(dict), []
    for mutant in mutants:
        check, texts = pathlib.Path(mutant).read_text("utf-8").split("\n")[0].split(": ", 1)
        checks[check][mutant] = texts.split(" & ")
    for check, texts in checks.items():
        if check not in RULES and output_of(check)[0]:
            wrong.append(f"{check}.rs fails without a mutant")
        for mutant in texts:
            status, output = output_of(check, mutant)
            wrong += [f"{mutant}: {check} does not print '{text}': {output[-1500:]}"
                      for text in texts[mutant] if not status or text not in output]
    print(*wrong, f"{len(mutants)} mutants, {len(wrong)} faults", sep="\n")
    sys.exit(len(wrong) > 0)


if __name__ == "__main__":
    main()
