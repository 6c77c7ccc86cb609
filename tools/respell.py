#!/usr/bin/env python3
"""Turns the names of this repository's definitions and lemmas to snake case, and those of its types to camel case.

usage: python3 tools/respell.py        at the top, once, after the kit's port.py

It goes over the specs/ and proofs/ of every crate and over the ghost text of src/. A name is one that a file of specs/, or a lemma file right
in proofs/, declares. Names of the library and names that the check makes (goals, invariants, steps) stay, and so do strings, comments and code.
"""

import re
import sys
from pathlib import Path

TOP = Path(__file__).resolve().parents[1]
NAME = r"[^\W\d]['\w-]*"
WORDS = r"(?:abbrev|unfoldable|pub|let|mod|opaque)"
TYPED = re.compile(rf"\s*(?:{WORDS}\s+)*((?:{NAME}\s+)*{NAME})\s*:(?!=)")
MADE = re.compile(rf"\s*(?:{WORDS}\s+)*(?:record|data)\s+(?:pub\s+)?({NAME})")
BOUND = re.compile(rf"\blet\s+({NAME})\s*[:=]")
LEMMAS = {"De-twin", "Sa-b", "Sb-a"}
TOKEN = re.compile(rf"«[^»]*»|(?<!['\w-]){NAME}")


def files():
    """The files of definitions and lemmas, and all others in which their names stand."""
    own, rest = [], []
    for crate in sorted((TOP / "crates").iterdir()):
        own += sorted(crate.glob("specs/**/*.antt")) + sorted(crate.glob("proofs/*.antt"))
        rest += sorted(p for p in crate.glob("proofs/*/**/*.antt"))
        rest += sorted(crate.glob("src/**/*.rt"))
    return own, rest


def declared(own):
    """The names with a hyphen that the files declare."""
    names = set()
    for path in own:
        for line in path.read_text().splitlines():
            if line.strip().startswith("--"):
                continue
            for match in (TYPED.match(line), MADE.match(line)):
                if match:
                    names.update(match.group(1).split())
            names.update(BOUND.findall(line))
    return {name for name in names if "-" in name or "′" in name}


def respelt(name):
    """The name in today's spelling."""
    name = name.replace("′", "'")
    if name[0].isupper() and name not in LEMMAS:
        return "".join(word[:1].upper() + word[1:] for word in name.split("-"))
    return name.replace("-", "_")


def taken(text):
    """The names that the text takes from the library."""
    own = "|".join(crate.name for crate in (TOP / "crates").iterdir())
    lists = re.findall(rf"^use (?!Rattle\.(?:{own})\.)[^{{\n]*\{{([^}}]*)\}}", text, re.MULTILINE)
    return {name for names in lists for name in re.findall(NAME, names)}


def turn(text, names):
    """The text, its names turned, and its comments and strings left."""
    names = names - taken(text)

    def each(line):
        code, mark, said = line.partition("--")
        return TOKEN.sub(lambda m: respelt(m.group()) if m.group() in names else m.group(), code) + mark + said
    return "".join(each(line) for line in text.splitlines(keepends=True))


def turn_source(text, names):
    """The source text, with names turned in its ghost lines and clauses alone."""
    out, ghost = [], 0
    for line in text.splitlines(keepends=True):
        head = line.lstrip()
        if head.startswith("//"):
            out.append(line)
            continue
        starts = re.match(r"(ghost|pub ghost|ensures|requires|law)\b", head)
        if ghost or starts or "ghost " in line:
            line = TOKEN.sub(lambda m: respelt(m.group()) if m.group() in names else m.group(), line)
            ghost = max(0, ghost + line.count("{") - line.count("}"))
        out.append(line)
    return "".join(out)


def main():
    own, rest = files()
    names = declared(own)
    words = set()
    for path in own + rest:
        words.update(TOKEN.findall(path.read_text()))
    for name in sorted(names):
        if respelt(name) in words:
            print(f"falls together: {name} and {respelt(name)}")
    if "--look" in sys.argv:
        print(len(names), "names")
        return
    for path in own + rest:
        text = path.read_text()
        new = turn(text, names) if path.suffix == ".antt" else turn_source(text, names)
        if new != text:
            path.write_text(new)


main()
