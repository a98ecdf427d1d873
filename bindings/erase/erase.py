#!/usr/bin/env python3
"""Writes the proved libraries of a project as modules of a plain Rust crate, by removing everything that only
the prover uses.

    erase.py PROJECT OUT [--tests]

PROJECT/crates.txt names the crates and their dependencies. Each library that a program or a caller needs is
written to OUT/NAME, and the module of all of them is OUT/mod.rs. The crate has it as `proved`, and `rattle` next to it.
Of a file that imports serde_json, only the modules are written. With --tests, every library is written as a
whole, with its tests, and the crate also needs the modules `testing` and `value`.

README.md lists what the eraser removes, what it changes, and what it rejects: an error names the file, the
line and the text. The compiler checks the names that tests use."""
import collections
import os
import pathlib
import re
import sys
import types

# ---- Names that mean the same in Rust ----

# Folders of libraries: the replacement of each, and the names that may be used. None: imports are removed.
FOLDERS = {
    "std": ("core", {"mem"}),
    "std::alloc": ("crate::rattle", {"AllocError", "AllocFailed", "Global"}),
    "std::cmp": ("core::cmp", {"Ordering"}),
    "std::fmt": ("core::fmt", {"Debug", "Formatter", "Result", "Write"}),
    "std::io": ("std::io", {"Read", "Write"}),
    "std::marker": (None, {"Model"}),
    "std::result": ("core::result", {"Result"}),
    "serde_json": ("crate::value", {"Value", "json"}),
    "thiserror": (None, {"Error"}),
}
FOLDERS_OF_TESTS = {
    "std::fmt": ("core::fmt", {"Debug", "Display", "Formatter", "Result", "Write"}),
    "std::process": ("crate::testing", {"Abort"}),
}
LIBRARIES = {folder.split("::")[0] for folder in FOLDERS}
# Libraries whose items only proved modules can use. They alone can also use a public function of another library
# that has a precondition.
INNER = {"vm_commands", "vm_leaf", "vm_list", "vm_space", "vm_tree"}
# A library of which the others do not use everything.
WIDE = {"vm_tree"}
# Libraries that callers in Rust and C need, and no program.
FOR_CALLERS = {"vm_range_map"}
# Names of Rattle's prelude that Rust's prelude does not have or defines differently. `rattle` has them.
PRELUDE = {"Box", "Vec"}
# Names of both preludes, and further names of libraries.
NAMES = {"Copy", "Err", "None", "Ok", "Option", "Result", "Some"}
NUMBERS = {"u8", "u32", "u64", "u128", "usize"}
ASSOCIATED = {
    "Box::into_inner", "Box::new", "Ord::cmp",
    "Ordering::Equal", "Ordering::Greater", "Ordering::Less", "Value::Null", "Value::as_u64", "Value::from",
    "Value::try_from_str", "Vec::new", "Vec::with_capacity", "mem::replace", "mem::swap", "u128::from", "u32::MAX", "u32::try_from",
    "u32::from", "u64::MAX", "u64::from", "usize::from",
}
# Methods of types of other crates. Each was compared with the method of Rust.
METHODS = set("""and_then append as_array as_object as_slice as_str as_u64 capacity checked_add checked_mul
    checked_sub clone cmp contains copied copy_from_slice copy_within debug_list entries enumerate
    extend_from_slice fill finish first flush get ilog2 insert into is_ascii_digit is_empty is_err is_none
    is_null is_ok is_power_of_two is_some iter last len max min next next_back ok ok_or partition_point pop
    pop_first position push range read remove reserve rotate_left rotate_right saturating_add saturating_sub
    split_at split_at_mut split_first split_last split_off swap_remove swap_with_slice take trailing_zeros truncate unwrap
    write_all write_str""".split())
MACROS = {"json", "matches", "unreachable"}
DERIVES = {"Clone", "Copy", "Debug", "Default", "Drop", "Eq", "Error", "Hash", "Ord", "PartialEq", "PartialOrd"}
TRAITS = {"Clone", "Debug", "DoubleEndedIterator", "Eq", "ExactSizeIterator", "From", "Iterator", "Ord", "PartialEq", "PartialOrd"}
# Names that no item of a crate may have, because the tables mean the items of the libraries.
TAKEN = (PRELUDE | NAMES | NUMBERS | TRAITS | {path.split("::")[0] for path in ASSOCIATED}) - {"Result"}
ATTRIBUTES = {"allow", "cold", "default", "error", "inline"}
KEYWORDS = set("_ as bool break else false for if in let match mut pub return str true while Self".split())
PATHS = {"crate", "self", "super"}
REFUSED_WORDS = set("""async await become box char decreases dyn extern f32 f64 gen ghost i8 i16 i32 i64
    i128 invariant isize macro_rules prove prove_eq try union unsafe where yield""".split())
CLAUSES = {"ensures", "requires"}

# ---- Text that is added ----

ORIGIN = "// Written by bindings/erase from {}: do not edit.\n"
MODULES = ORIGIN.format("crates.txt") + """
//! The proved code, without its contracts.
#![forbid(unsafe_code)]
// Names are public in Rattle, and some proofs need another form than these lints or a statement that is removed.
#![allow(clippy::enum_variant_names, clippy::wrong_self_convention)]
#![allow(clippy::large_enum_variant, clippy::needless_range_loop, clippy::only_used_in_recursion)]
#![allow(clippy::needless_match, clippy::question_mark, clippy::too_many_arguments, clippy::while_let_on_iterator)]
#![allow(unused_imports, unused_variables)]
"""
ATTRIBUTES_WITH_TESTS = "#![allow(dead_code, unused_assignments, unused_variables)]\n"
# Code that only readers of values, the library for C or callers in Rattle reach, in files that the package has, and an error that no call returns.
UNREACHED = re.compile(r"^ *(?=(?:pub fn align_(?:down|up)|Overlap)\(|pub fn (?:set\(&mut self, address|longest_gap_after\()|pub enum ValueError\b)",
                       re.MULTILINE)
# Types of the package that serde saves.
SAVED = re.compile(r"^(?=pub enum (?:AllocPolicy|NodeState)\b)", re.MULTILINE)
PRELUDE_OF_TESTS = "use crate::testing::*;\nuse crate::testing::{assert, assert_eq};\n"
RUNTIME = "{\n    let rt = HostRuntime;"
DISPLAY = """

impl core::fmt::Display for {name} {{
fn fmt(&self, f: &mut core::fmt::Formatter<'_>) -> core::fmt::Result {{ match self {{ {arms} }} }} }}

impl core::error::Error for {name} {{}}"""

# ---- Tokens ----

TOKEN = re.compile(r"""(?P<blank>\s+|//(?![/!])[^\n]*|////[^\n]*)
 |(?P<doc>//[/!][^\n]*)
 |(?P<literal>b?"(?:[^"\\]|\\[nrt0\\"'\n]|\\x[0-9a-fA-F]{2}|\\u\{[0-9a-fA-F]+\})*"
    |r\#"(?:[^"]|"(?!\#))*"\#
    |b?'(?:[^'\\\n]|\\[nrt0\\"']|\\x[0-9a-fA-F]{2}|\\u\{[0-9a-fA-F]+\})')
 |(?P<lifetime>'[a-z_]\w*)
 |(?P<word>[A-Za-z_]\w*(?![\w"'\#]))
 |(?P<number>(?:0x[0-9a-fA-F_]+|0b[01_]+|[0-9][0-9_]*)(?:u8|u32|u64|u128|usize)?(?!\w|\.[0-9]))
 |(?P<mark>::|->|=>|==|!=|<=|>=|&&|\|\||\.\.=|\.\.|[-+*/%&|^]=|<<|>>|[{}()\[\]<>,;:.=+\-*/%&|^!?\#])""",
                   re.VERBOSE | re.ASCII)
CLAUSE_HEAD = re.compile(r"\*?\s+(?:[a-z_]\w*\s*)?(?=\{)")
GHOST_USE = re.compile(r" use (?:[^;\"\n]|\n(?!\n))*?;")
GHOST_MEMBER = re.compile(r" [A-Za-z_]\w*(:| =) (?=\{)")
# A comment for the prover, and statements under it that only read: a field, or a method of the table.
FOR_PROOF = re.compile(r"// Proof: [^\n]*\n *let _\w")
READS = re.compile(r"// Proof: [^\n]*(?:\n *let _\w+(?:: &\w+)? = &?\w+(?:\.(?:end|height|len|size)\(\)|\.\w+(?!\())*;)+")
# A text with fields by their numbers. `write!` and the derive of `Error` mean the same by it.
TEXT_OF_ERROR = re.compile(r'"(?:[^"\\{}]|\{[0-9](?::\?)?\})*"')
OPENING, CLOSING = {"(", "[", "{"}, {")", "]", "}"}
Token = collections.namedtuple("Token", "kind text start end")


class Refused(Exception):
    """An error of the eraser, with the place of the unknown text."""


class Tokens:
    """The tokens of a file. Clauses and ghosts are removed at once, because their text is not Rust."""

    def __init__(self, path, text):
        self.path, self.text, self.tokens = path, text, []
        self.cuts = []  # (start, end, replacement)
        self.signature, self.depth = None, 0  # the index of the `fn` of the current signature
        self.asking = {}  # the index of a `fn` with a `requires`, and the position of that
        if "\r" in text:
            self.fail("a carriage return", text.index("\r"))
        position = 0
        while position < len(text):
            position = self.read(position)
        self.tokens.append(Token("end", "", position, position))

    def fail(self, why, start):
        line = self.text.count("\n", 0, start) + 1
        raise Refused(f"{self.path}:{line}: {why}")

    def read(self, start):
        """Reads a token, a clause or a ghost. Returns its end."""
        found = TOKEN.match(self.text, start)
        if not found or self.text.startswith("/*", start):
            self.fail(f"text that begins with {self.text[start:start + 12]!r}", start)
        kind, word = found.lastgroup, found.group()
        if FOR_PROOF.match(self.text, start):
            return self.reads(start)
        if kind == "blank":
            return found.end()
        if word in CLAUSES:
            return self.clauses(start)
        if word == "ghost":
            return self.ghost(start, found.end())
        if kind == "word" and self.tokens and self.tokens[-1].text == "fn":
            self.signature, self.depth = len(self.tokens) - 1, 0
        elif word in ("{", ";") and self.depth == 0:
            self.signature = None
        elif kind == "mark":
            self.depth += (word in OPENING) - (word in CLOSING)
        self.tokens.append(Token(kind, word, start, found.end()))
        return found.end()

    def reads(self, start):
        """Removes statements that only read what the prover is to know, and the comment above them."""
        found = READS.match(self.text, start) or self.fail("a statement for the prover of this form", start)
        self.cuts.append((start, found.end(), ""))
        return found.end()

    def clauses(self, start):
        """Removes all clauses of a function, up to its body, or to its end in a trait."""
        if self.signature is None or self.depth != 0:
            self.fail("a clause outside of a signature", start)
        position = start
        while not self.text.startswith(("{", ";"), position):
            found = TOKEN.match(self.text, position)
            word = found.group() if found else ""
            if word in CLAUSES:
                head = CLAUSE_HEAD.match(self.text, found.end()) or self.fail("a clause of this form", position)
                if word == "requires":
                    self.asking.setdefault(self.signature, position)
                position = self.behind_braces(head.end())
            elif found and found.lastgroup == "blank":
                position = found.end()
            else:
                self.fail("clauses without a body", position)
        self.cuts.append((self.tokens[-1].end, position, " " if self.text.startswith("{", position) else ""))
        return position

    def behind_braces(self, start):
        depth = 0
        for position, letter in enumerate(self.text[start:], start):
            if letter in "\"'`" or self.text[position:position + 2] in ("--", "//", "/*", "{-"):
                self.fail(f"{letter!r} in a clause", position)
            depth += (letter == "{") - (letter == "}")
            if depth == 0:
                return position + 1
        self.fail("a clause without end", start)

    def ghost(self, start, behind):
        """Removes `ghost use ..;`, `ghost member = {..};`, `ghost member: {..};` or `ghost field: {..},`."""
        last = self.tokens[-1] if self.tokens else Token("doc", "", 0, 0)
        at_an_item = last.text in ("{", "}", ";", ",") or last.kind == "doc"
        if not at_an_item and not (last.text == "]" and self.text[start - 1] == "\n"):
            self.fail("'ghost' in code", start)
        imported, member = GHOST_USE.match(self.text, behind), GHOST_MEMBER.match(self.text, behind)
        if imported and imported.group().count("{") == imported.group().count("}"):
            end = imported.end()
        else:
            end = self.behind_braces(member.end()) + 1 if member else len(self.text)
            if not member or self.text[end - 1:end] not in (";" if member[1] == " =" else ",;"):
                self.fail("a ghost of this form", start)
        self.cuts.append((start, end, ""))
        return end


# ---- Items ----

class File(Tokens):
    """A source file: the text to remove, and the names that it defines and uses."""

    def __init__(self, crate, path, of_tests):
        super().__init__(os.path.relpath(path, crate.project.folder), pathlib.Path(path).read_bytes().decode())
        self.crate, self.of_tests, self.is_root = crate, of_tests, path == crate.root
        self.children = os.path.dirname(path) if self.is_root else path[:-len(".rt")]
        self.generics, self.imported, self.from_prelude = set(), {}, set()
        self.uses, self.public_fields = [], []  # (position, kind of name, name), (position, name of the type)
        self.imports = []  # (the first index, the index after the last, the indices of the names)
        self.first_kept = None
        self.is_of_values = "\nuse serde_json::" in self.text and not crate.project.with_tests
        crate.of_values |= {path[:-len(".rt")]} if self.is_of_values else set()
        end = self.items(self.head(), None)
        self.refuse_if(self.tokens[end].kind != "end", "a brace that closes nothing", end)

    def at(self, index, *texts):
        """Returns `true` if these tokens are at an index."""
        return [token.text for token in self.tokens[index:index + len(texts)]] == list(texts)

    def start_of(self, index):
        return self.tokens[index].start

    def refuse_if(self, condition, why, index):
        """Raises an error for the text at an index if a condition is true."""
        if condition:
            self.fail(why, self.tokens[index].start)

    def cut(self, first, behind, instead=""):
        self.cuts.append((self.start_of(first), self.tokens[behind - 1].end, instead))

    def matching(self, index):
        """Returns the index after the bracket that closes the one at an index."""
        depth = 0
        for place, token in enumerate(self.tokens[index:], index):
            depth += (token.text in OPENING) - (token.text in CLOSING)
            if depth == 0:
                return place + 1
        self.fail("a bracket without end", self.start_of(index))

    def next_of(self, index, *texts):
        """Returns the index of the first of these marks at or after an index, outside of brackets that open
        there."""
        while not any(self.at(index, text) for text in texts):
            if self.tokens[index].kind == "end":
                self.fail("an item without end", len(self.text))
            index = self.matching(index) if self.tokens[index].text in OPENING else index + 1
        return index

    def head(self):
        """Returns the index after the documentation and the attributes of the file. Sections of the documentation
        are about contracts, so they are removed."""
        index = 0
        while self.tokens[index].text.startswith("//!"):
            index += 1
        sections = [place for place in range(index) if self.tokens[place].text.startswith("//! # ")]
        if sections:
            self.cut(sections[0] - 1, index)
        while self.at(index, "#", "!", "[", "tactic"):
            self.cut(index, self.matching(index + 2))
            index = self.matching(index + 2)
        return index

    def items(self, index, owner):
        """Reads items up to the end of the file or of the braces of an impl: of a trait, or of "impl"
        itself."""
        while self.tokens[index].text not in ("}", ""):
            item = types.SimpleNamespace(start=index, owner=owner, public=False)
            item.of_tests = item.is_test = item.is_error = False
            index = self.visibility(item, self.attributes(item))
            if item.of_tests and not self.crate.project.with_tests or self.is_of_values and not self.at(index, "mod"):
                end = self.next_of(index, ";") if self.at(index, "use") else self.next_of(index, ";", "{")
                behind, kept = self.matching(end), False
            else:
                behind, kept = self.item(item, index)
            if not kept:
                self.cut(item.start, behind)
            elif self.first_kept is None:
                self.first_kept = self.start_of(item.start)
            index = behind
        return index

    def item(self, item, index):
        """Reads an item by its keyword. Returns its end, and whether it is kept."""
        item.keyword = index
        words = FORMS if item.owner is None else ("fn", "const") if item.owner == "impl" else ("fn", "type")
        words = ("fn",) if item.owner == "trait" else words
        self.refuse_if(self.tokens[index].text not in words, f"an item {self.tokens[index].text!r}", index)
        return FORMS[self.tokens[index].text](self, item)

    def attributes(self, item):
        """Reads documentation and attributes. Returns the index after them."""
        index = item.start
        while self.tokens[index].kind == "doc" or self.at(index, "#"):
            self.refuse_if(self.tokens[index].text.startswith("//!"), "documentation of the file behind an item", index)
            first, index = index, self.matching(index + 1) if self.at(index, "#") else index + 1
            if self.at(first, "#"):
                self.attribute(item, first, index)
        return index

    def attribute(self, item, index, behind):
        words = [token.text for token in self.tokens[index + 2:behind - 1]]
        if words[:1] in (["cycle"], ["tactic"]):
            self.cut(index, behind)
        elif words == ["cfg", "(", "test", ")"]:
            item.of_tests = True
        elif words == ["test"] and self.of_tests:
            item.is_test = True
        elif words[:1] == ["derive"]:
            self.derive(item, [word for word in words[1:] if word not in "(),"], index, behind)
        elif words != ["repr", "(", "C", ")"]:
            self.refuse_if(not words or words[0] not in ATTRIBUTES, f"an attribute {''.join(words[:1])!r}", index)

    def derive(self, item, names, index, behind):
        for name in names:
            self.refuse_if(name not in DERIVES, f"a derive of {name!r}", index)
        item.is_error = "Error" in names
        rest = [name for name in names if name not in ("Drop", "Error")]
        if rest != names:
            self.cut(index, behind, f"#[derive({', '.join(rest)})]" if rest else "")

    def visibility(self, item, index):
        """Reads `pub`, and the `const` of a function. Returns the index after them."""
        if self.at(index, "pub"):
            item.public = not self.at(index + 1, "(")
            index = index + 1 if item.public else self.matching(index + 1)
        return index + 1 if self.at(index, "const", "fn") else index

    def angles(self, index):
        """Reads the generic parameters of an item: lifetimes, and names with bounds. Returns the index
        after them."""
        if not self.at(index, "<"):
            return index
        behind, depth = index + 1, 1
        while depth > 0:
            token, before = self.tokens[behind], self.tokens[behind - 1].text
            if before in (":", "+") and token.text == "Drop":  # every type of Rust satisfies this bound
                self.cut(behind - 1, behind + 1)
            elif before in (":", "+", "<") and (depth > 1 or before != "<") and token.kind == "word":
                self.uses.append((token.start, "a bound" if before in (":", "+") else "a type", token.text))
            elif token.kind == "word" and token.text not in ("_", "const"):
                self.define(behind, self.generics)
            is_known = token.kind != "mark" or token.text in (",", ":", "+", "<", ">", ">>")
            self.refuse_if(not is_known, "parameters of this form", behind)
            depth += token.text.count("<") - token.text.count(">")
            behind += 1
        return behind

    def define(self, index, names):
        """Adds the name at an index to the names of the crate."""
        name = self.tokens[index].text
        self.refuse_if(self.tokens[index].kind != "word" or name in TAKEN, f"a definition of {name!r}", index)
        names.add(name)
        return name

    # One method per form. Each returns the end of its item, and whether the item is kept.
    def import_(self, item):
        first, end = item.keyword + 1, self.next_of(item.keyword, ";")
        folder, name, rest = self.folder_at(first)
        leaves = [index for index in range(rest, end)
                  if self.tokens[index + 1].text in (",", "}", ";") and self.tokens[index].text not in (",", "}")]
        for index in leaves:
            self.refuse_if(self.at(index - 1, "as") and (folder or not self.of_tests), "an import under another name", index)
            if folder:
                self.allow(folder, name, index)
                self.imported[self.tokens[index].text] = name
                self.crate.asks_for_std |= folder[0] == "std::io"
            else:
                self.import_of_crate(first, index)
        if folder and folder[0] and folder[0] != name:
            self.cut(first, rest - 1, folder[0])
        words = [token.text for token in self.tokens[first:end] if token.kind == "word" and token.text != "self"]
        if os.path.join(self.children, *words[:-len(leaves)]) in self.crate.of_values:
            return end + 1, False
        if not self.at(item.keyword - 1, "pub") and not self.at(item.keyword - 1, ")"):
            self.imports.append((item.start, end, leaves))
        return end + 1, not (folder and folder[0] is None)

    def import_of_crate(self, first, index):
        """Reads an import of one name, of this crate or of a dependency."""
        head = self.tokens[first].text
        if self.of_tests:
            return
        self.refuse_if(head not in self.crate.stands_on | self.crate.names | PATHS, f"an import from {head!r}", first)
        self.define(index, set())
        self.imported[self.tokens[index].text] = head

    def folder_at(self, first):
        """Returns the library folder at the start of a path, its name, and the index of the name that is
        used from it."""
        words, behind = [self.tokens[first].text], first + 1
        if words[0] not in LIBRARIES or not self.at(behind, "::"):
            return None, None, first
        while self.at(behind, "::") and self.tokens[behind + 1].kind == "word":
            words.append(self.tokens[behind + 1].text)
            behind += 2
        if not self.at(behind, "::"):
            words, behind = words[:-1], behind - 2
        name = "::".join(words)
        folder = FOLDERS_OF_TESTS.get(name) if self.of_tests else None
        folder = folder or FOLDERS.get(name) or self.fail(f"{name!r} is in no table", self.start_of(first))
        return folder, name, behind + 1

    def allow(self, folder, name, index):
        self.refuse_if(self.tokens[index].text not in folder[1], f"'{name}::{self.tokens[index].text}' is in no table", index)

    def module(self, item):
        self.refuse_if(not self.at(item.keyword + 2, ";"), "a module of this form", item.keyword)
        name = self.define(item.keyword + 1, self.crate.names)
        return item.keyword + 3, self.crate.read_module(self, name, item.of_tests or self.of_tests)

    def constant(self, item):
        """Reads `const`, `static` or `type`."""
        self.define(item.keyword + 1, self.crate.names)
        end = self.next_of(self.angles(item.keyword + 2), ";")
        self.audit(item.keyword + 2, end)
        return end + 1, True

    def type_(self, item):
        """Reads `struct` or `enum`."""
        name = self.define(item.keyword + 1, self.crate.names)
        index = self.angles(item.keyword + 2)
        self.refuse_if(not self.at(index, "{") and not self.of_tests, "a type without braces", item.keyword)
        behind = self.matching(index) if self.at(index, "{") else self.next_of(index, ";") + 1
        depth = 0
        for place in range(index, behind):
            depth += (self.tokens[place].text in OPENING) - (self.tokens[place].text in CLOSING)
            if depth == 1 and self.at(item.keyword, "enum") and self.tokens[place].kind == "word":
                self.define(place, self.crate.names)
            elif self.at(place, "pub") and not self.at(place + 1, "("):
                self.public_fields.append((self.start_of(place), name))
        if any(self.start_of(index) < cut[0] < self.start_of(behind - 1) for cut in self.cuts):
            self.crate.guarded.add(name)
        self.audit(index, behind, {"pub"})
        if item.is_error:
            self.display(name, index, behind)
        return behind, True

    def trait(self, item):
        """Reads a trait: functions without bodies."""
        self.define(item.keyword + 1, self.crate.names)
        index = self.angles(item.keyword + 2)
        if self.at(index, ":", "Drop"):  # a value has a size, and every type of Rust can be dropped
            self.cut(index + 1, index + 2, "Sized")
        index += 2 if self.at(index, ":") and self.tokens[index + 1].text in {"Copy", "Drop"} | self.crate.traits else 0
        self.refuse_if(not self.at(index, "{"), "a trait of this form", item.keyword)
        return self.items(index + 1, "trait") + 1, True

    def display(self, name, index, behind):
        """Turns the texts of the variants of an enum, `#[error("..")]`, into its `Display`."""
        arms = ""
        for place in [place for place in range(index, behind) if self.at(place, "#", "[", "error", "(")]:
            variant, text = place + 7, self.tokens[place + 4].text
            is_known = self.at(place + 5, ")", "]") and TEXT_OF_ERROR.fullmatch(text)
            self.refuse_if(not is_known, "a text of this form", place)
            text = text.replace("{", "{field_")
            fields = self.tokens[variant + 1:self.matching(variant + 1)] if self.at(variant + 1, "(") else []
            names = [f"field_{number}" for number in range(sum(token.kind == "word" for token in fields))]
            pattern = self.tokens[variant].text + (f"({', '.join(names)})" if names else "")
            arms += f"{name}::{pattern} => write!(f, {text}),\n"
            self.cut(place, variant)
        end = self.tokens[behind - 1].end
        self.cuts.append((end, end, DISPLAY.format(name=name, arms=arms)))

    def function(self, item):
        index = self.angles(item.keyword + 2)
        self.refuse_if(not self.at(index, "("), "a function of this form", item.keyword)
        body = self.next_of(index, "{", ";")
        self.refuse_if(self.at(body, "{") == (item.owner == "trait"), "a function of this form", item.keyword)
        behind = self.matching(body)
        nothing = body == index + 2 and behind == body + 2
        if nothing and not (item.public or item.is_test or item.owner):
            return behind, False  # a law: only its clauses matter
        name = self.define(item.keyword + 1, self.crate.functions)
        is_inner = self.of_tests or self.crate.name in INNER
        if item.owner not in (None, "impl") and item.keyword in self.asking and not is_inner:
            self.fail(f"a 'requires' of {name!r}, which anyone may call", self.asking[item.keyword])
        if item.is_test:
            self.take_runtime(index, body)
        self.audit(index, body, {"impl"})
        self.audit(body, behind)
        return behind, True

    def take_runtime(self, index, body):
        """Turns the parameter `rt` into a statement."""
        if self.at(index, "(", ")"):
            return
        self.refuse_if(not self.at(index, "(", "rt", ":", "HostRuntime", ")"), "other parameters than 'rt'", index)
        self.cut(index + 1, index + 4)
        self.cut(body, body + 1, RUNTIME)

    def implementation(self, item):
        index = self.angles(item.keyword + 1)
        behind = index + 1
        if self.at(self.next_of(index, "for", "{"), "for"):  # a trait can have type arguments
            behind = self.next_of(index, "for")
            if not self.of_tests:
                self.uses += [(token.start, "a type", token.text) for token in self.tokens[index + 1:behind] if token.kind == "word"]
        if self.tokens[index].text in self.crate.stands_on and self.at(index + 1, "::") and self.at(index + 3, "for"):
            index, behind = index + 2, index + 3  # a trait of another crate, by its path
        trait = self.tokens[index].text if self.at(behind, "for") else None
        index = behind + 1 if trait else index
        name = self.tokens[index].text
        self.uses.append((self.start_of(index), "a type", name))
        index = self.angles(index + 1)
        self.refuse_if(not self.at(index, "{"), "an impl of this form", item.keyword)
        if trait == "Model":
            self.crate.guarded.add(name)
            self.refuse_if(not self.at(index + 1, "}"), "a member of Model that is no ghost", index + 1)
            return index + 2, False
        known = TRAITS.union(*(crate.traits for crate in self.crate.and_below()))
        is_allowed = not trait or trait in known
        self.refuse_if(not is_allowed, f"an impl of {trait!r}", item.keyword)
        self.first_kept = self.first_kept or self.start_of(item.start)
        if trait == "Clone":  # what clones without memory: `Result<Self, AllocError>` is `Self`, and `Ok(..)` the value
            is_known = self.at(index + 7, "->", "Result", "<", "Self", ",", "AllocError", ">", "{", "Ok", "(")
            end = self.matching(index + 16)
            self.refuse_if(not is_known or not self.at(end, "}", "}"), "a 'clone' of this form", index)
            self.cut(index + 8, index + 14, "Self")
            self.cut(index + 15, index + 17)
            self.cut(end - 1, end)
            for place in range(index + 17, end - 1):  # the clone of a field is the same
                if self.at(place, "?"):
                    self.cut(place, place + 1)
        if trait == "Debug":
            is_known = self.at(index + 3, "<", "W", ":", "Write", ">") and self.at(index + 17, "<", "W", ">")
            self.refuse_if(not is_known, "a 'fmt' of this form", index)
            self.cut(index + 3, index + 8)
            self.cut(index + 18, index + 19, "'_")
        return self.items(index + 1, trait or "impl") + 1, True

    # ---- Names in code ----

    def audit(self, index, behind, allowed=()):
        """Checks every name after an index. An item is an error there, except for allowed words."""
        while index < behind:
            token = self.tokens[index]
            if token.text == "#":
                is_allowed = "pub" in allowed and self.tokens[index + 2].text in ATTRIBUTES  # of fields and variants
                self.refuse_if(not is_allowed, "an attribute in code", index)
                index = self.matching(index + 1)
            elif token.kind != "word" or self.at(index, "const", "{"):
                index += 1
            elif token.text in ITEM_WORDS and token.text not in allowed and not self.of_tests:
                self.fail(f"an item {token.text!r} in code", token.start)
            else:
                index = self.path_of_names(index)

    def path_of_names(self, first):
        """Checks the path at an index. Returns the index after it."""
        word, last = self.tokens[first].text, first
        while self.at(last + 1, "::") and self.tokens[last + 2].kind == "word":
            last += 2
        if word in LIBRARIES and last > first:
            folder, name, index = self.folder_at(first)
            self.allow(folder, name, index)
            if folder[0] != name:
                self.cut(first, index - 1, folder[0] or self.fail(f"{name!r} in code", self.start_of(first)))
        elif self.of_tests:
            self.name_in_tests(first)
        elif word in REFUSED_WORDS or self.at(last + 1, "::") and not self.at(last + 1, "::", "<"):
            self.fail(f"{word!r} in code", self.start_of(first))
        else:
            self.name(first, last)
        return last + 1

    def name_in_tests(self, index):
        """Checks the function of a path. Only `expect` differs: it receives the runtime, to end the test."""
        if self.at(index - 1, ".") and self.tokens[index].text in ("expect", "expect_err"):
            runtime = index + 3 if self.at(index + 2, "&") else index + 2
            self.refuse_if(not self.at(runtime, "rt", ","), "'expect' without 'rt'", index)
            self.cuts.append((self.start_of(index + 2), self.start_of(runtime + 2), ""))

    def name(self, first, last):
        start, head = self.start_of(first), self.tokens[first].text
        name = "".join(token.text for token in self.tokens[first:last + 1])
        called = self.at(last + 1, "(")
        if head in PRELUDE:
            self.from_prelude.add(head)
        if self.at(last + 1, "!") and self.tokens[last + 2].text in OPENING:
            is_other = name == "json" and self.imported.get(name) != "serde_json"
            self.refuse_if(name not in MACROS or is_other, f"a macro {name!r}", first)
        elif self.at(first - 1, "."):
            self.uses += [(start, "a method", name)] if called else []
        elif self.at(first - 1, "as") and name not in NUMBERS:
            self.fail(f"'as {name}'", start)
        elif head not in PATHS and name not in KEYWORDS and name not in NUMBERS:
            kind = "a path" if last > first else "a function" if called else "a type"
            self.uses += [(start, kind, name)] if kind != "a type" or name[0].isupper() else []

    def check(self):
        """Checks what needs all files, and removes unused imports."""
        self.cut_unused_imports()
        for start, kind, name in self.uses:
            if not self.is_known(kind, name):
                self.fail(f"{kind} {name!r} that is in no table", start)
        for start, name in self.public_fields:
            if name in self.crate.guarded and not self.of_tests and self.crate.name not in INNER:
                self.fail(f"a public field of {name!r}, which has ghosts", start)

    def is_known(self, kind, name):
        crate, head = self.crate, name.split("::")[0]
        if kind == "a method":
            return name in METHODS or any(name in other.functions for other in crate.and_below())
        if head in crate.names | self.generics | crate.stands_on | {"Self"}:
            return True
        if kind == "a path":
            return name in ASSOCIATED or self.imported.get(head) in crate.stands_on
        if kind == "a function":
            return name in NAMES or name in crate.functions or self.imported.get(head) in crate.stands_on
        of_tests = TRAITS | {"Drop"} if self.of_tests else ()  # the module `testing` has a trait `Drop`
        bounds = TRAITS if kind == "a bound" else ()
        return any(name in table for table in (NAMES, PRELUDE, NUMBERS, self.imported, of_tests, bounds))

    # ---- Output ----

    def cut_unused_imports(self):
        """Removes imports of names that the kept code does not use. Modules below this one can use its
        imports."""
        gone = bytearray(len(self.text) + 1)
        for start, end in [cut[:2] for cut in self.cuts if not cut[2]] + [
                (self.start_of(first), self.start_of(end)) for first, end, _ in self.imports]:
            gone[start:end] = b"x" * (end - start)
        named = {token.text for token in self.tokens if not gone[token.start]} | {"*"}
        if self.of_tests or "mod" in named:
            named |= {self.tokens[leaf].text for _, _, leaves in self.imports for leaf in leaves}
        for first, end, leaves in self.imports:
            names = [self.tokens[leaf].text for leaf in leaves if self.tokens[leaf].text in named]
            if not names:
                self.cut(first, end + 1)
            elif len(names) < len(leaves):
                if not self.at(leaves[0] - 1, "{") or leaves != list(range(leaves[0], leaves[-1] + 1, 2)):
                    self.fail("an import of this form, of which not all is used", self.start_of(first))
                self.cut(leaves[0] - 1, end, in_braces(names))

    def plain(self):
        """Returns the text of the file in Rust."""
        inserted = PRELUDE_OF_TESTS if self.of_tests else ""
        if self.from_prelude and not self.of_tests:
            inserted = f"use crate::rattle::{in_braces(sorted(self.from_prelude))};\n"
        at = self.first_kept if self.first_kept is not None else len(self.text)
        self.cuts += self.modules_of_crates()
        text, last = "", 0
        for start, end, instead in sorted(self.outer_cuts() + [(at, at, inserted)]):
            text += self.text[last:start]
            if not instead and start < end and text.rstrip(" ").endswith("\n") and self.text.startswith("\n", end):
                end += 1  # nothing else is on these lines
            text, last = text + instead, max(end, last)
        text = UNREACHED.sub(r"\g<0>#[allow(dead_code)] ", text + self.text[last:])
        text = SAVED.sub('#[cfg_attr(feature = "serde", derive(serde::Serialize, serde::Deserialize))]\n', text)
        return ORIGIN.format(self.path) + "\n" + text.strip("\n") + "\n"

    def modules_of_crates(self):
        """Returns the replacements of the names of crates by their modules."""
        for index, token in enumerate(self.tokens):
            begins_path = self.at(index - 1, "use") or self.at(index + 1, "::") and not self.at(index - 1, "::")
            if token.text == "crate":
                yield token.start, token.end, f"{'' if begins_path else 'in '}crate::proved::{self.crate.name}"
            elif begins_path and token.text in self.crate.stands_on:
                yield token.start, token.start, "crate::proved::"
            elif token.text == "pub" and not self.at(index + 1, "(") and self.is_inner(index):
                yield token.start, token.end, "pub(in crate::proved)"

    def is_inner(self, index):
        """Returns `True` if only proved modules can use the item of this `pub`."""
        return self.crate.name in INNER or index + 1 in self.asking or index + 2 in self.asking

    def outer_cuts(self):
        """Returns the cuts that are not inside another one."""
        outer = []
        for cut in sorted(self.cuts, key=lambda cut: (cut[0], -cut[1])):
            if not outer or cut[0] >= outer[-1][1]:
                outer.append(cut)
            elif cut[1] > outer[-1][1]:
                self.fail("two pieces to cut that overlap", cut[0])
        return outer


FORMS = {
    "use": File.import_, "mod": File.module, "const": File.constant, "static": File.constant, "type": File.constant,
    "struct": File.type_, "enum": File.type_, "fn": File.function, "impl": File.implementation,
    "trait": File.trait,
}
ITEM_WORDS = set(FORMS) | {"pub"}

class Crate:
    """The files of a crate, and the names that they define."""

    def __init__(self, project, name, of_tests):
        self.project, self.name, self.of_tests = project, name, of_tests
        self.stands_on = project.libraries[name]
        self.folder = os.path.join(project.folder, "crates", name, "src")
        self.asks_for_std = False
        self.root = os.path.join(self.folder, "lib.rt")
        self.names, self.functions = set(), set()
        texts = [path.read_text(encoding="utf-8") for path in pathlib.Path(self.folder).rglob("*.rt")]
        self.traits = set(re.findall(r"^pub trait (\w+)", "\n".join(texts), re.M))  # also modules before it implement them
        self.guarded = set()  # types with ghosts
        self.files, self.of_values = {}, set()  # of_values: files that import serde_json, without `.rt`
        self.files[self.root] = File(self, self.root, of_tests)
        for file in self.files.values():
            file.check()

    def read_module(self, parent, name, of_tests):
        """Reads the file of a module. Returns `true` if anything of it is kept."""
        path = os.path.join(parent.children, name + ".rt")
        if not os.path.exists(path):
            raise Refused(f"{parent.path}: no file for the module {name!r}")
        file = File(self, path, of_tests)
        kept = file.first_kept is not None
        self.files.update({path: file} if kept else {})
        return kept

    def and_below(self):
        """Returns the crate and its dependencies, because a crate can re-export the type of a dependency."""
        return [self, *(self.project.crate(name) for name in sorted(self.stands_on))]

    def texts(self):
        """Returns the text of each file, by its path below the folder of modules."""
        names = {path: os.path.relpath(path, self.folder)[:-len(".rt")] for path in self.files}
        names[self.root] = "mod"
        return {os.path.join(self.name, f"{names[path]}.rs"): file.plain() for path, file in self.files.items()}


class Project:
    """The crates of a project. The libraries that are needed are written, or with tests all libraries."""

    def __init__(self, folder, with_tests=False):
        self.folder, self.with_tests = os.path.abspath(folder), with_tests
        table = pathlib.Path(folder, "crates.txt").read_text(encoding="utf-8").splitlines()
        lines = [line.split(":") for line in table if line.strip() and not line.startswith("#")]
        self.libraries = {name.strip(): set(below.split()) - LIBRARIES for name, below in lines}
        programs = {name for name in self.libraries if not os.path.exists(f"{folder}/crates/{name}/src/lib.rt")}
        direct = FOR_CALLERS.intersection(self.libraries).union(*(self.libraries[name] for name in programs))
        self.needed, self.crates = direct.union(*(self.libraries[name] for name in direct)), {}
        for name in sorted((set(self.libraries) if with_tests else self.needed) - programs):
            self.crate(name)

    def crate(self, name):
        if name not in self.crates:
            self.crates[name] = Crate(self, name, name not in self.needed)
        return self.crates[name]


def in_braces(names):
    """Returns the end of an import of these names."""
    return "{" + ", ".join(names) + "}" if len(names) > 1 else names[0]


def write(path, text):
    """Writes a file unless it has this text already, so that builds by modification times do not repeat."""
    path = pathlib.Path(path)
    path.parent.mkdir(parents=True, exist_ok=True)
    if not path.exists() or path.read_bytes() != text.encode():
        path.write_bytes(text.encode())


def erase(folder, out, with_tests):
    """Writes the crates of a project as modules, and removes other files of these modules. Returns the crates."""
    project = Project(folder, with_tests)
    texts = {"mod.rs": MODULES + (ATTRIBUTES_WITH_TESTS if with_tests else "") + "\n"}
    for name, crate in sorted(project.crates.items()):
        texts["mod.rs"] += '#[cfg(feature = "std")]\n' * crate.asks_for_std + "#[allow(dead_code)]\n" * (name in WIDE) + f"{'' if name in INNER else 'pub '}mod {name};\n"
        texts |= crate.texts()
    for path in [path for name in project.libraries for path in pathlib.Path(out, name).rglob("*.rs")]:
        if str(path.relative_to(out)) not in texts:
            path.unlink()
            if not any(path.parent.iterdir()):
                os.removedirs(path.parent)
    for path, text in texts.items():
        write(os.path.join(out, path), text)
    return project.crates


def main():
    arguments = [word for word in sys.argv[1:] if word != "--tests"]
    if len(arguments) != 2 or any(word.startswith("-") for word in arguments):
        sys.exit(__doc__)
    try:
        for name, crate in erase(*arguments, "--tests" in sys.argv).items():
            print(f"{name}: {len(crate.files)} files")
    except Refused as refused:
        sys.exit(f"rejected: {refused}. bindings/erase/README.md says what is allowed")


if __name__ == "__main__":
    main()
