#!/usr/bin/env python3
"""Brings the names of our definitions and lemmas to today's spelling: words in snake case, types and modules in camel case.

usage: python3 tools/port_names.py [--look]      at the top of the repository, once, after the kit's port.py

A name of specs/ or proofs/ that begins in lower case and has capitals is respelled, part by part between its dashes: `freeCount-falls`
becomes `free_count-falls`, and `getD`, which the library calls `get_or` now, is `get_or` in our names too. Functions of src/, exported
names, strings, inputs and outputs have no such names and stay. With --look nothing is written: it lists the names that would fall
together with another, and the files in which a new name already stands for something else.
"""

import collections
import glob
import os
import re
import sys

TOKEN = re.compile(r"[^\W\d][\w'′]*(?:-[\w'′]+)*")
DEFINED = re.compile(r"^(\s*)(?:(?:unfoldable|abbrev|pub|opaque|inline|field|constructor)\s+)*([^\s():{}]+(?: [^\s():{}=]+)*)\s*:\s", re.M)

# Names that port.py had respelled in the crates, as pages, tests and edits still have them.
TURNED = """answerOf bitAt blockOf classAt classOf effectOf fitParts frameOf isLast keptAt kindOf lentBy linesOf moveOf numberOf runAt setMem sideIn
sideOf sizeOf stepOf stepsOf sumAt turnOf u32At""".split()

# Two names of which one in snake case has another meaning already.
APART = {"flagWord": "flag_word_of", "inUse": "words_in_use", "headAt": "head_from"}


def snake(part):
    if part in APART:
        return APART[part]
    part = part.replace("getD", "get_or").replace("′", "'")
    part = re.sub(r"(?<=[a-z0-9])([A-Z])", lambda m: "_" + m.group(1).lower(), part)
    return part.lower()


def read(path):
    with open(path, encoding="utf-8") as f:
        return f.read()


def proofs():
    return sorted(glob.glob("crates/*/specs/**/*.antt", recursive=True) + glob.glob("crates/*/proofs/**/*.antt", recursive=True))


def texts():
    """Every text of the repository that may name a definition."""
    found = []
    for top in ("crates", "tests", "docs", "tools", "include", "."):
        for folder, dirs, files in os.walk(top):
            dirs[:] = [] if top == "." else sorted(d for d in dirs if d not in ("out", "target", ".git", "__pycache__", "data"))
            for name in sorted(files):
                if name.endswith((".rt", ".antt", ".edit", ".md", ".py", ".h", ".sh")) and name != "port_names.py":
                    found.append(os.path.join(folder, name))
    return found


def parts():
    """The parts, between dashes, of our names that begin in lower case and have capitals."""
    seen = set(TURNED)
    for path in proofs():
        for m in DEFINED.finditer(read(path)):
            for name in m.group(2).split(" "):
                for part in name.split("-"):
                    if re.match(r"[a-z][\w'′]*$", part) and (re.search(r"[A-Z]", part) or "′" in part):
                        seen.add(part)
    return seen


def respelled(text, known):
    def one(m):
        return "-".join(snake(p) if p in known else p for p in m.group(0).split("-"))

    return TOKEN.sub(one, text)


def look(known):
    new = collections.defaultdict(set)
    for path in proofs():
        for m in DEFINED.finditer(read(path)):
            for name in m.group(2).split(" "):
                new[respelled(name, known)].add(name)
    for name, olds in sorted(new.items()):
        if len(olds) > 1:
            print("falls together:", name, sorted(olds))
    for path in texts():
        here = set(TOKEN.findall(read(path)))
        for name in sorted(here):
            to = respelled(name, known)
            if to != name and to in here:
                print("stands already:", path, name, to)


def main():
    known = parts()
    if "--look" in sys.argv[1:]:
        look(known)
        return
    for path in texts():
        old = read(path)
        text = respelled(old, known)
        if text != old:
            with open(path, "w", encoding="utf-8") as f:
                f.write(text)
            print("respelled:", path)


main()
