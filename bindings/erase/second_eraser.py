#!/usr/bin/env python3
"""A second eraser, which checks the output of the first one and shares only a table of crates with it.

    second_eraser.py PROJECT PROVED

It removes the pieces of each source that only the prover uses, one after the other, and replaces paths. The
rest must be the tokens that the first eraser has written to PROVED, without comments. Imports and modules can
be fewer, because the compiler finds a name that is missing. Of a file that imports serde_json, only the
modules are left. The texts of errors must be the same, and mod.rs must have the modules of all crates. The exit
status is 1 if there is a difference."""
import os
import pathlib
import re
import sys

from erase import INNER, WIDE

TOKEN = re.compile(r"""//[^\n]*|r\#".*?"\#|b?"(?:[^"\\]|\\.)*"|b?'(?:[^'\\]|\\.)'|\w+|[^\w\s]""", re.DOTALL)
# Texts that the first eraser changes, in this order. NAME is the crate.
CHANGED = [
    (r"(?m)^ *// Proof:.*\n(?: *let _\w.*;\n)+", ""),
    (r"pub\(crate\)", "pub(in crate::proved::NAME)"),
    (r"\bcrate::(?!proved)", "crate::proved::NAME::"),
    (r"(?<![\w:])(vm_\w+)::", r"crate::proved::\1::"),
    (r"\bstd::alloc::", "crate::rattle::"),
    (r"\bstd::(cmp|fmt|mem|result)\b", r"core::\1"),
    (r"(fn fmt)<W: Write>(.*Formatter<)W>", r"\1\2'_>"),
    (r"(fn clone\(&self\) -> )Result<Self, AllocError>( \{\s+)Ok\(((?:.|\n)*?)\)(?=\s+\}\n\})", r"\1Self\2\3"),
    (r"\.clone\(\)\?(?=,\n)", ".clone()"),
    (r"(trait \w+): Drop\b", r"\1: Sized"),
    (r"(?::| \+) Drop\b", ""),
    (r"(#\[derive\(.*?)(?:, )?\bDrop\b", r"\1"),
    (r"(#\[derive\(.*?)(?:, )?\bError\b", r"\1"),
    (r"#\[derive\((?:, )?(.*?)\)\]", r"#[derive(\1)]"),
    (r"#\[derive\(\)\]", ""),
]
# Texts that the first eraser adds: attributes of types that serde saves and of code that divsharun does not reach,
# and what the derive of `Error` stands for.
ADDED = re.compile(
    r"#\[cfg_attr\(feature = \"serde\", derive\(serde::Serialize, serde::Deserialize\)\)\]\s(?=pub enum (?:AllocPolicy|NodeState)\b)"
    r"|#\[allow\(dead_code\)\] (?=pub fn align_(?:down|up)\(|pub fn (?:set\(&mut self, address|longest_gap_after\()|Overlap\(|pub enum ValueError\b)"
    r"|impl core::fmt::Display for \w+ \{\s+"
    r"fn fmt\(&self, f: &mut core::fmt::Formatter<'_>\) -> core::fmt::Result \{\s+"
    r"match self \{\s+(?:\w+::\w+(?:\(field_0(?:, field_1)?\))? => write!\(f, \".*\"\),\s+)+\}\s+\}\s+\}\s+"
    r"impl core::error::Error for \w+ \{\}")
# An error and its text, in a source and as written.
ERROR = re.compile(r'#\[error\("(.*)"\)\]\s+(?:///.*\s+)*(\w+)')
WRITTEN_ERROR = re.compile(r'\w+::(\w+)(?:\(field_0(?:, field_1)?\))? => write!\(f, "(.*)"\)')
# Imports that only the first eraser writes.
PRELUDE = {"crate::rattle::Box", "crate::rattle::Vec"}


def tokens_of(text):
    return [token for token in TOKEN.findall(text) if not token.startswith("//")]


def behind(tokens, index, opening, closing):
    """Returns the index behind the brackets that open at or after an index."""
    depth = 0
    while True:
        depth += (tokens[index] == opening) - (tokens[index] == closing)
        index += 1
        if depth == 0 and tokens[index - 1] == closing:
            return index


def piece_end(tokens, index):
    """Returns the index behind the piece at an index, if it is one that only the prover uses. Otherwise it
    returns the index."""
    def at(*texts):
        return tokens[index:index + len(texts)] == list(texts)

    if at("requires") or at("ensures"):
        return behind(tokens, index, "{", "}")
    if at("ghost", "use"):
        return tokens.index(";", index) + 1
    if at("ghost"):
        end = behind(tokens, index, "{", "}")
        return end + (tokens[end] in (";", ","))
    if at("#", "[", "tactic") or at("#", "[", "cycle") or at("#", "!", "[", "tactic") or at("#", "[", "error"):
        return behind(tokens, index, "[", "]")
    if at("#", "[", "cfg", "(", "test", ")", "]"):
        return item_end(tokens, index)
    end = tokens.index("{", index) if "{" in tokens[index:] else len(tokens)
    head = " ".join(tokens[index:end]) if at("impl") or at("fn") else ""
    if re.match(r"impl( <.*>)? Model for \w+", head):
        return item_end(tokens, index)
    if re.match(r"fn \w+ (?:< [^()]+ > )?\( \)(?! ->)", head):
        place = tokens.index(")", index) + 1
        while tokens[place] == "ensures":  # a law has no `requires`
            place = behind(tokens, place, "{", "}")
        return place + 2 if tokens[place:place + 2] == ["{", "}"] else index
    return index


def item_end(tokens, index):
    """Returns the index behind an item without clauses."""
    while tokens[index] not in (";", "{"):
        index += 1
    return index + 1 if tokens[index] == ";" else behind(tokens, index, "{", "}")


def parted(tokens, is_of_values=False):
    """Returns the tokens without pieces for the prover, imports and modules, and these."""
    kept, named, index = [], set(), 0
    while index < len(tokens):
        end = piece_end(tokens, index)
        if end > index:
            index = end
        elif tokens[index] in ("use", "mod"):
            end = tokens.index(";", index)
            named |= names_of(tokens[index:end])
            while kept[-1:] and kept[-1] not in ("}", ";", "]"):
                kept.pop()  # its visibility
            index = end + 1
        else:
            kept.append(tokens[index])
            index += 1
    rest = re.sub(r"(^| )impl \w+ { }(?= |$)", "", " ".join([] if is_of_values else kept))
    return rest.split(), named


def names_of(tokens):
    """Returns each path of an import, or the name of a module."""
    path = "".join(tokens[1:])
    front, _, names = path.partition("{")
    return {front + name for name in names.strip("}").split(",") if name} if names else {path}


def compare(source, plain, crate):
    """Prints the first difference of a file. Returns `true` if there is none."""
    text = source.read_text(encoding="utf-8") if source.exists() else ""
    is_of_values = "\nuse serde_json::" in text
    for old, new in CHANGED:
        text = re.sub(old, new.replace("NAME", crate), text)
    if crate in INNER:
        text = re.sub(r"\bpub (?!\()", "pub(in crate::proved) ", text)
    text = re.sub(r"\bpub (?=(?:const )?fn \w+[^{}]*\brequires\b)", "pub(in crate::proved) ", text)
    written = plain.read_text(encoding="utf-8")
    want, wanted = parted(tokens_of(text), is_of_values)
    have, named = parted(tokens_of(ADDED.sub("", written)))
    want += [] if is_of_values else [word for error, name in ERROR.findall(text) for word in (name, error)]
    have += [word.replace("{field_", "{") for pair in WRITTEN_ERROR.findall(written) for word in pair]
    if want == have and named <= wanted | PRELUDE:
        return True
    at = next((place for place, pair in enumerate(zip(want, have)) if pair[0] != pair[1]), 0)
    print(f"{plain}: expected {want[at:at + 9]}, written {have[at:at + 9]} and {named - wanted}")
    return False


def has_all_modules(proved):
    """Returns `true` if mod.rs has a module for each folder, and nothing else but comments and attributes. A module
    is public unless only proved modules use it, and depends on the feature `std` if it reads and writes."""
    want = ""
    for folder in sorted(path for path in proved.iterdir() if path.is_dir()):
        needs_std = any("use std::io::" in path.read_text(encoding="utf-8") for path in folder.rglob("*.rs"))
        want += '#[cfg(feature = "std")]\n' * needs_std + "#[allow(dead_code)]\n" * (folder.name in WIDE) + "pub " * (folder.name not in INNER) + f"mod {folder.name};\n"
    have = re.sub(r"(?m)^(?://.*|#!\[.*)?\n", "", (proved / "mod.rs").read_text(encoding="utf-8"))
    if have != want:
        print(f"mod.rs: expected {want}, written {have}")
    return have == want


def main():
    if len(sys.argv) != 3:
        sys.exit(__doc__)
    project, proved = map(pathlib.Path, sys.argv[1:])
    files = [path for path in sorted(proved.rglob("*.rs")) if path != proved / "mod.rs"]
    same = 0
    for path in files:
        crate, *rest = path.relative_to(proved).with_suffix(".rt").parts
        source = project / "crates" / crate / "src" / os.path.join(*rest)
        same += compare(source.with_name("lib.rt") if rest == ["mod.rt"] else source, path, crate)
    print(f"{same} of {len(files)} files have the tokens of their sources")
    sys.exit(not has_all_modules(proved) or same < len(files))


if __name__ == "__main__":
    main()
