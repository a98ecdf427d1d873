#!/usr/bin/env python3
# SPDX-License-Identifier: Apache-2.0 OR BSD-3-Clause
"""Compares the prototypes of the header with the definitions in Rust: the names and types of the parameters, except for
the name of the object that a call is on, and whether a call can change that object.

    prototypes.py DECLARATIONS SOURCE ..

DECLARATIONS is divsharun.cdef, which the Makefile writes. The calls that each kind of object has are defined by
`object_calls`, and tests/every_call.h makes them all."""
import re
import sys

NUMBERS = {"u64": "uint64_t", "u32": "uint32_t", "usize": "size_t", "c_char": "char"}


def type_in_c(text):
    """Returns the type of C that a type in Rust stands for."""
    text = re.sub(r"\s+|\w+::(?=\w)", "", text)
    for pattern, form in ((r"In<(.*)>", "const {} *"), (r"Out<(.*)>", "{} *"), (r"\*const(.*)", "const {} *"),
                          (r"\*mut(.*)", "{} *"), (r"\((.*)\)", "{}")):
        found = re.fullmatch(pattern, text)
        if found:
            return form.format(type_in_c(found[1])).replace("* *", "**")
    return NUMBERS.get(text, text)


def parameters(text):
    """Returns the names and types of the parameters of a definition."""
    pairs = [part.split(":", 1) for part in re.split(r",(?![^<]*>)", text) if part.strip()]
    return [(name.strip(), type_in_c(kind)) for name, kind in pairs]


def defined(sources):
    """Returns the parameters of each call, by its name. The first one is the object if it has no name."""
    calls = {}
    form = re.compile(r"^ *(reads|changes|takes) (dvs_\w+)\(([^;)]*)(; request)?\)\s*"
                      r"(?:-> (\w+): ([^,\[{]+?))?(?:, (failed) of \w+)?\s*(\[refusal\])?\s*\{", re.M)
    visit = re.compile(r"^ *(dvs_\w+)\(\w+: (\w+)((?:, \w+: \w+)*)\) of (\w+) ?(\[refusal\])?\s*\{", re.M)
    plain = re.compile(r'^pub (?:unsafe )?extern "C" fn (dvs_\w+)\(([^)]*)\)', re.M)
    for text in sources:
        for match in form.finditer(text):
            does, name, given, request, result, written, failed, refusal = match.groups()
            found = parameters(given)
            body = text[match.end():text.index("\n    }", match.end() - 1)] if does == "takes" else ""
            if does == "changes" or ".get_mut()" in body:
                found[0] = (found[0][0], found[0][1].replace("const ", ""))
            if does != "takes":
                found[0] = (None, found[0][1])
            found += [("request", "const dvs_request *")] * bool(request)
            found += [(result, (type_in_c(written) + " *").replace("* *", "**"))] if result else []
            found += [(failed, "size_t *")] * bool(failed) + [("refusal", "dvs_refusal *")] * bool(refusal)
            calls[name] = found
        for name, handle, given, item, refusal in visit.findall(text):
            visitor = f"{item.replace('u32', 'dvs_id')}_visitor *"
            calls[name] = ([(None, f"const {handle} *")] + parameters(given.strip(", ")) +
                           [("visitor", visitor), ("context", "void *")] +
                           [("refusal", "dvs_refusal *")] * bool(refusal))
        for name, given in plain.findall(text):
            calls[name] = parameters(given)
    return calls


def declared(text):
    """Returns the parameters of each prototype, by its name."""
    calls = {}
    for name, given in re.findall(r"(?<!int )\b(dvs_\w+)\(([^()]*)\) ?;", re.sub(r"\s+", " ", text)):
        parts = [re.fullmatch(r"(.*?)(\w+)", part.strip()) for part in given.split(",")]
        calls[name] = [(part[2], part[1].strip()) for part in parts if part and part[2] != "void"]
    return calls


def main():
    declarations, *sources = [open(path, encoding="utf-8").read() for path in sys.argv[1:]]
    expected, found = defined(sources), declared(declarations)
    faults = []
    for name, wanted in expected.items():
        given = found.get(name, [])
        # The name of an object that is made, and the names for a space and a value, are plainer in the header.
        same = len(given) == len(wanted) and all(
            kind == other and (word in (None, "made", "ends", "valued") or word == called)
            for (word, kind), (called, other) in zip(wanted, given))
        if not same:
            faults.append(f"{name}: the header has {given}, the definition has {wanted}")
    print(*faults, f"{len(expected)} prototypes, {len(faults)} faults", sep="\n")
    sys.exit(1 if faults or len(expected) < 70 else 0)


if __name__ == "__main__":
    main()
