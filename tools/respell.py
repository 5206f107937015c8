#!/usr/bin/env python3
"""Respells this repository's own definitions and lemmas once, behind the kit's port.py: words in snake case.

A name in camel case that a file of specs/ or proofs/ defines gets underscores, in .antt and .rt files, in must-fail edits and in the pages.
Types and modules keep their capitals, functions of src/, strings, inputs and outputs are left. Where a definition falls together with a lemma that
port.py gave underscores, the lemma has a hyphen again (LEMMAS). Run at the top of the repository: tools/respell.py
"""

import pathlib
import re

TOKEN = re.compile(r"[A-Za-z_][A-Za-z0-9_'\-]*")
CAMEL = re.compile(r"[a-z0-9'][A-Z]")
# lemmas, in files of proofs/ that are no function's own, that would fall together with a definition
LEMMAS = {"by_runs", "is_digit", "by_index", "by_one", "new_line", "number_by"}
# fields and local words in camel case
MORE = {"rowFrom", "rowTo", "columnFrom", "columnTo", "notOf", "ofRecord", "ofClaim", "markBytes", "placeCount"}


def snake(name):
    return re.sub(r"(?<=[a-z0-9'])([A-Z])", lambda m: "_" + m[1].lower(), name)


def files(pattern):
    return sorted(p for p in pathlib.Path(".").glob(pattern) if "out" not in p.parts)


def defined(paths):
    names = set()
    for path in paths:
        text = path.read_text()
        names.update(re.findall(r"^\s*(?:abbrev |unfoldable |pub |infix\w* )*([A-Za-z_][A-Za-z0-9_'\-]*)\s*:", text, re.M))
    return {n for n in names if n[0].islower() and CAMEL.search(n)}


def main():
    antt = files("crates/**/*.antt")
    names = defined(antt) | MORE
    respelled = {n: snake(n) for n in names}
    for path in antt:
        text = path.read_text()
        if path.parent.name == "proofs":
            text = TOKEN.sub(lambda m: m[0].replace("_", "-") if m[0] in LEMMAS else m[0], text)
        path.write_text(TOKEN.sub(lambda m: respelled.get(m[0], m[0]), text))
    pages = [p for p in files("docs/*.md") if p.name != "PORT.md"] + [pathlib.Path("README.md")]
    for path in files("crates/**/*.rt") + files("crates/*/must-fail/*.edit") + pages:
        text = path.read_text()
        path.write_text(TOKEN.sub(lambda m: respelled.get(m[0], m[0]), text))


if __name__ == "__main__":
    main()
