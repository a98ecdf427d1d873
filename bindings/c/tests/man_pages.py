#!/usr/bin/env python3
# SPDX-License-Identifier: Apache-2.0 OR BSD-3-Clause
"""Checks that a man page has each word of its source, in order: a comment of a header, or a page in Markdown.

    man_pages.py PAGE SOURCE"""
import itertools
import re
import sys


def words(text):
    return re.findall(r"[\w#^*-]+", text.lower())


def of_page(text):
    """Returns the words of a man page after its synopsis."""
    lines = text.split(".SH DESCRIPTION\n", 1)[1].splitlines()
    kept = [re.sub(r"^\.(SH|\w+.*$)", "", line) for line in lines]
    return words(re.sub(r"\\f[BR]", "", "\n".join(kept)).replace("\\e", "\\"))


def of_source(text):
    """Returns the words that a source has for its page, without its name."""
    if text.startswith("/*"):
        lines = [re.sub(r"^ \* ?", "", line) for line in text[:text.index("\n */")].splitlines()]
        lines = lines[lines.index(""):]
    else:
        # Only the repository has the program ./replay.
        lines = [line for line in text.splitlines() if not line.startswith("In this repository")]
    kept, in_table = [], False
    for line in itertools.islice(lines, 1, None):
        if line.startswith("|-"):
            continue
        # The first cell of the head of a table is the title of a section.
        kept.append(line if in_table or not line.startswith("|") else line.split("|")[1])
        in_table = line.startswith("|")
    return words(re.sub(r"^- ", "", "\n".join(kept), flags=re.M).replace("`", ""))


def main():
    page, source = [open(path, encoding="utf-8").read() for path in sys.argv[1:]]
    pairs = itertools.zip_longest(of_page(page), of_source(source))
    for at, (found, wanted) in enumerate(pairs):
        if found != wanted:
            sys.exit(f"{sys.argv[1]}: word {at} is {found}, not {wanted}")
    sys.exit(0 if at > 200 else "the page is too short")


if __name__ == "__main__":
    main()
