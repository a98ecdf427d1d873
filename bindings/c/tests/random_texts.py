#!/usr/bin/env python3
# SPDX-License-Identifier: Apache-2.0 OR BSD-3-Clause
"""Reads random texts by the C library, and compares the results with those of Python's reader of JSON.

    random_texts.py [--texts N] [--seed N] PROGRAM ..

PROGRAM is the command that runs read.c. It guards against a reader that accepts a text that is not valid, rejects
a valid one, or reads another object. Each text is from a list below, or encodes an object of VALID, with fields in
any order, any blanks, and damage in most cases. Three results are wrong:

- another status than `NOT_JSON` if and only if Python does not read the text,
- an error for a text without damage, or without a field although an object with known fields is read,
- an object with other parts than the text, or a text with a field that no object has.

The seed is printed. The exit status is 1 at the first text with a wrong result."""
import argparse
import json
import random
import re
import subprocess
import sys

OK, NOT_JSON, NOT_A_STATE = 0, 16, 17
MAX, LAST_ID, DEEPEST = 2**64 - 1, 2**32 - 1, 128
PIECES = [
    b"{", b"}", b"[", b"]", b",", b":", b'"', b"\\", b" ", b"\t", b"null", b"true", b"0", b"-", b".", b"e9",
    b"1e999", b"\\u0066", b"\\ud83d\\ude00", b"\\ud83d", b"\\u+123", b"\x00", b"\xff", b"\xc3\xa9",
    b"\xef\xbb\xbf", b"NaN", b"1", b"18446744073709551615", b"18446744073709551616", b"Free", b"Allocated", b"/",
    b"7", b"-0", b"1.0", b"00"]
MALFORMED = [
    b"", b" ", b"{", b"}", b"[1,]", b"[,1]", b'{"a":1,}', b'{"a"}', b"{a:1}", b'{"a":1 "b":2}', b"'a'", b"01",
    b"+1", b"1.", b".5", b"1.e5", b"1e", b"1e+", b"--1", b"-", b"0x1", b"nul", b"nulls", b"True", b'"\t"',
    b'"\\x"', b'"\\u12"', b'"\\u12g4"', b'"\\ud800"', b'"\\ud800\\u0041"', b'"\\ud83d\\de00"', b'"\\ud83dude00"',
    b'"\\udc00"', b'"', b'"\\', b"[1] 2",
    b"/**/1", b"\xc3", b"\xed\xa0\x80", b"1e309", b"-1e309", b"1.7976931348623159e308", b"9" * 400, b"NaN", b"[" * 129 + b"]" * 129, b"[" * 100000,
    b'{"a":' * 100000, b"\xef\xbb\xbf1", b"1\x00", b"\x0b1", b"[1\xc2\xa0]", b"{}\xc2\xa0", b"\xe2\x80\xa8{}"]
WELL_FORMED = [
    b"0", b"-0", b"1.5e-3", b"null", b" true ", b'"\\ud83d\\ude00\\/\\b\\f\\n\\r\\t"', b"[" * 128 + b"]" * 128,
    b"{}", b"[]", b'{"a":1,"a":2}', b"\r\n[\t1 , 2 ]\n", b'"\xe2\x82\xac"', b"1E+2", b"18446744073709551616",
    b"0.0", b"-1.7976931348623157e308", b"1e-999"]
# Each byte between tokens, at both ends, in a string and in an escape, and each end of the surrogates.
PLACES = (b"[1?,2]", b"?0", b"{}?", b'"?"', b'"\\?"')
EACH_BYTE = [place.replace(b"?", bytes([byte])) for byte in range(256) for place in PLACES]
SURROGATES = [f'"\\u{one}\\u{other}"'.encode() for one in ("d7ff", "d800", "dbff", "dc00", "dfff", "e000")
              for other in ("dbff", "dc00", "dfff", "e000")]
NUMBER = re.compile(rb"(?<!\w)\d+")
NODE = {"key", "node_state", "left", "right", "height"}
FIELDS = [
    {"start", "end"}, NODE, {"root"}, {"address_space", "interval_tree"}, {"id", "mmio_range"},
    {"range_base", "next_id", "range_end", "freed_ids"}, {"version", "id_allocator", "mmio_allocator", "slots"}]


# The fields of the outermost object that each reader reads.
OUTERMOST = {"s": FIELDS[3], "r": FIELDS[3], "i": FIELDS[5], "d": FIELDS[6]}


class Wrong(Exception):
    """Raised for a word that is a number in Python and not in JSON, and for a value that encodes no object."""


class Object(list):
    """The fields of an object: pairs of a name and a value."""

    def fields(self):
        found = dict(self)
        if len(found) < len(self) or set(found) not in FIELDS:
            raise Wrong
        return found


def refuse(_word):
    raise Wrong


def other_number(text):
    number = float(text)
    return refuse(text) if number in (float("inf"), float("-inf")) else number


def whole_number(text):
    return int(text) if not text.startswith("-") and len(text) <= 20 and int(text) <= MAX else other_number(text)


def depth(value):
    items = [item for _, item in value] if isinstance(value, Object) else value if isinstance(value, list) else []
    return 1 + max(map(depth, items), default=0)


def parsed(text):
    """Returns a list with the value of a text, or None if the text is not JSON."""
    try:
        value = json.loads(text.decode("utf-8"), object_pairs_hook=Object, parse_int=whole_number,
                           parse_float=other_number, parse_constant=refuse)
        json.dumps(value, ensure_ascii=False).encode("utf-8")
    except (ValueError, Wrong, RecursionError):
        return None
    return [value] if depth(value) <= DEEPEST else None


def names_field(reader, text):
    """Returns whether an error of this text has a field."""
    [value] = parsed(text) or [None]
    return isinstance(value, Object) and {name for name, _ in value} <= OUTERMOST[reader]


def blocks_in(node, is_strict):
    """Returns the blocks of a tree in order, and its height. A tree to repair has only its allocated ranges."""
    if node is None:
        return [], 0
    fields = node.fields() if isinstance(node, Object) else {}
    if set(fields) != NODE:
        raise Wrong
    (left, low), (right, high) = (blocks_in(fields[side], is_strict) for side in ("left", "right"))
    if is_strict and (abs(low - high) > 1 or repr(fields["height"]) != repr(1 + max(low, high))):
        raise Wrong
    block = (parts(fields["key"], is_strict), fields["node_state"])
    is_kept = is_strict or block[1] != "Free"
    return left + [block] * is_kept + right, 1 + max(low, high)


def parts(value, is_strict):
    """Returns the parts of the object that a value encodes, with each tree as the list of its blocks."""
    if isinstance(value, Object):
        return [(name, blocks_in(inner, is_strict)[0] if name == "root" else parts(inner, is_strict))
                for name, inner in sorted(value.fields().items())]
    return [parts(item, is_strict) for item in value] if isinstance(value, list) else value


def parts_of(reader, text):
    """Returns the parts of a text as a string, in which 1 and 1.0 differ, or None if it encodes no object."""
    try:
        [value] = parsed(text) or refuse(text)
        return repr(parts(value, reader != "r"))
    except Wrong:
        return None


def node(start, end, state, left=None, right=None):
    key = {"start": start, "end": end}
    height = 1 + max(child["height"] if child else 0 for child in (left, right))
    return {"key": key, "node_state": state, "left": left, "right": right, "height": height}


def space(start, end, root):
    return {"address_space": {"start": start, "end": end}, "interval_tree": {"root": root}}


def ids(first, following, last, freed):
    return {"range_base": first, "next_id": following, "range_end": last, "freed_ids": freed}


def manager(*slots):
    """Returns the manager of SPACE with these devices: pairs of an id and the start of one of its three ranges."""
    following = 6 + max(number for number, _ in slots)
    freed = [number for number in range(5, following) if number not in dict(slots)]
    devices = [{"id": number, "mmio_range": {"start": start, "end": start + 7}} for number, start in slots]
    return {"version": 1, "id_allocator": ids(5, following, 23, freed), "mmio_allocator": SPACE, "slots": devices}


SPACE = space(0, 63, node(
    32, 39, "Allocated", node(16, 23, "Allocated", node(0, 15, "Free"), node(24, 31, "Free")),
    node(48, 55, "Allocated", node(40, 47, "Free"), node(56, 63, "Free"))))
SPACES = [SPACE, space(0, MAX - 1, node(0, MAX - 1, "Free")), space(MAX - 8, MAX, node(
    MAX - 8, MAX - 1, "Allocated", None, node(MAX, MAX, "Free"))), space(7, 7, node(7, 7, "Allocated"))]
# The valid objects of each reader. Those of `r` also have a missing node, and wrong heights.
VALID = {
    "s": SPACES,
    "r": SPACES + [space(0, 63, None), space(0, 63, {**node(16, 23, "Allocated"), "height": MAX}), space(
        1, MAX, {**node(16, 23, "Free", node(2, 3, "Allocated"), node(40, 47, "Allocated")), "height": 0})],
    "i": [ids(5, 9, 23, [6, 7]), ids(5, 5, 5, []), ids(0, 1, LAST_ID, [0]), ids(7, None, LAST_ID, [LAST_ID])],
    "d": [manager((5, 16), (6, 32), (7, 48)), manager((6, 48), (7, 16), (10, 32))],
}


def shuffled(value):
    """Returns the same value with its fields in random order."""
    if isinstance(value, list):
        return [shuffled(item) for item in value]
    if isinstance(value, dict):
        return {name: shuffled(value[name]) for name in random.sample(list(value), len(value))}
    return value


def valid_text(reader):
    text = json.dumps(shuffled(random.choice(VALID[reader])), indent=random.choice([None, None, 1]),
                      separators=random.choice([None, (",", ":"), (" ,\t", "\r:")]))
    return (text.replace("e", "\\u0065").replace("A", "\\u0041") if random.random() < 0.2 else text).encode()


def damaged(text):
    for _ in range(random.choice([1, 1, 1, 2, 5])):
        first = random.randrange(len(text) + 1)
        second = min(len(text), first + random.choice([0, 1, 1, 4, 60]))
        piece = random.choice([b"", text[first:second] * 2, random.choice(PIECES), bytes([random.randrange(256)])])
        text = text[:first] + piece + text[second:]
    return text


def with_other_number(text):
    """Replaces one number of a text, mostly by another value in JSON."""
    found = random.choice(list(NUMBER.finditer(text)))
    number = int(found[0])
    forms = '-{0} {0}.0 {0}e0 {0}E+0 {0}e-0 0{0} +{0} {0}. {0}e "{0}" null [] 0'.split()
    others = [number + 1, max(number - 1, 0), number + MAX + 1, number + LAST_ID + 1]
    other = random.choice([*map(str, others), *(form.format(number) for form in forms)])
    return text[:found.start()] + other.encode() + text[found.end():]


def fault(reader, valid, text, answer):
    """Returns a description of a wrong result for a text, which can be a valid one with damage, or None."""
    status, offset, field, saved = answer.split(b" ", 3)
    status, is_json, have = int(status), parsed(text) is not None, parts_of(reader, text)
    if status not in ((OK, NOT_A_STATE) if is_json else (NOT_JSON,)):
        return f"status {status}"
    is_unnamed = status == NOT_A_STATE and field == b"-"
    if int(offset) > len(text) or not is_json and field != b"-" or is_unnamed and names_field(reader, text):
        return f"a fault at {int(offset)} in the field {field!r}"
    if status == OK and (have is None or have != parts_of(reader, saved)):
        return f"another object is read, and saved as {saved!r}"
    if status != OK and text == valid:
        return f"status {status}, although it is valid"
    return None


def main():
    parser = argparse.ArgumentParser(description=__doc__.split("\n", maxsplit=1)[0])
    parser.add_argument("program", nargs=argparse.REMAINDER)
    parser.add_argument("--texts", type=int, default=20_000)
    parser.add_argument("--seed", type=int, default=random.randrange(2**32))
    options = parser.parse_args()
    print(f"seed {options.seed}")
    random.seed(options.seed)
    listed = MALFORMED + WELL_FORMED + EACH_BYTE + SURROGATES
    asked = [(reader, None, text) for reader in "srid" for text in listed]
    for _ in range(options.texts):
        reader = random.choice("srid")
        valid = valid_text(reader)
        asked.append((reader, valid, random.choice([bytes, with_other_number, damaged, damaged])(valid)))
    data = b"".join(f"{reader}{len(text)}\n".encode() + text for reader, _, text in asked)
    done = subprocess.run(options.program, input=data, stdout=subprocess.PIPE, check=True)
    answers = done.stdout.splitlines()
    if len(answers) != len(asked):
        sys.exit(f"{len(answers)} results for {len(asked)} texts")
    for (reader, valid, text), answer in zip(asked, answers):
        if wrong := fault(reader, valid, text, answer):
            sys.exit(f"reader {reader}, {text!r}: {wrong}")
    statuses = [int(answer.split(b" ", 1)[0]) for answer in answers]
    counts = [statuses.count(status) for status in (OK, NOT_A_STATE, NOT_JSON)]
    print("{} valid texts, {} that encode no object, {} that are not JSON".format(*counts))
    if min(counts) < len(asked) // 20:
        sys.exit("too few texts of one kind")


if __name__ == "__main__":
    sys.setrecursionlimit(20000)
    main()
