#!/usr/bin/env python3
"""Holds docs/RULES.md to the sources. A row is `| number | rule | definition | function | theorem or case |`, and a cell says its names and right
behind them the file: `name`, `name` in `file`; then `; ` and the next. Files are below crates/, or begin with tests/. Each name is looked up in
that file and in no other:
  a definition in a specs/ file, as a public definition;
  a function in a src/ file, by its last part (its first is the crate), as fn, const, type, struct or enum;
  a theorem in a proofs/ file, as `NAME :`; a function that keeps its promise, in a src/ file, as a fn with an `ensures`; a case in a .rs file,
  as "NAME" or as fn; an edit is a file by itself.
Also: sections and rules are numbered one after the other, from 1 (rules of the section of answers: from 0, so that rule 5.n is answer n); the index
names every section; a rule that another one refers to is there; a cell is `-` only where the rule says that there is none; and every public
definition of a specs/ folder has a row, with its own file.
"""
import pathlib
import re
import sys

TOP = pathlib.Path(__file__).resolve().parent.parent
PAGE = TOP / "docs" / "RULES.md"
# crates whose specs/ say nothing of a rule: statements that theorems are of, and how a record or a state crosses a boundary
THEORY = ("queue", "safety", "host", "api", "rig", "bench", "cases", "beliefs")
# the section whose rules are numbered as the answers are, from 0
ANSWERS = 5
COLUMNS = ("definition", "function", "theorem")

wrong = []
texts = {}


def text_of(name):
    """The text of a file that a cell names, or None."""
    if name not in texts:
        path = TOP / name if name.startswith("tests/") else TOP / "crates" / name
        texts[name] = path.read_text(encoding="utf-8") if path.is_file() else None
    return texts[name]


def stands(pattern, name, file):
    return re.search(pattern % re.escape(name), text_of(file), re.M) is not None


def promises(parts, file):
    """Whether a source has a function of that name, of its type where the name has one, with a promise of its own."""
    text = text_of(file)
    if len(parts) > 2 and parts[-2][0].isupper():
        text = "\n".join(re.findall(r"^impl %s \{$.*?^\}$" % parts[-2], text, re.M | re.S))
    found = re.search(r"^( *)(?:pub(?:\(crate\))? )?fn %s\b.*?(?=^\1\{$)" % re.escape(parts[-1]), text, re.M | re.S)
    return found is not None and re.search(r"^ *ensures\b", found.group(0), re.M) is not None


def is_there(column, name, file):
    """What is wrong with a name that should stand in a file, or ''."""
    if column == "definition":
        if "/specs/" not in file:
            return "%s is no file of definitions" % file
        return "" if stands(r"^(?:abbrev |unfoldable )?pub (?:record |data )?%s(?=[\s:])", name, file) else "is not defined in %s" % file
    if column == "function":
        if "/src/" not in file:
            return "%s is no source file" % file
        parts = name.split("::")
        if parts[0] != file.split("/")[0] or len(parts) < 2:
            return "does not begin with the crate of %s" % file
        return "" if stands(r"^ *(?:pub(?:\(crate\))? )?(?:extern \"C\" )?(?:fn|const|type|struct|enum) %s\b", parts[-1], file) else "is not in %s" % file
    if "/src/" in file and file.endswith(".rt"):
        parts = name.split("::")
        if parts[0] != file.split("/")[0] or len(parts) < 2:
            return "does not begin with the crate of %s" % file
        return "" if promises(parts, file) else "is no function with a promise in %s" % file
    if file.endswith(".rs"):
        return "" if stands(r"\"%s\"", name, file) or stands(r"^ *fn %s\b", name, file) else "is no case of %s" % file
    if "/specs/" in file:  # one line of a statement that is proved as a whole
        return "" if stands(r"^ +pub %s :", name, file) else "is no line of a statement of %s" % file
    if "/proofs/" not in file:
        return "%s is no file of proofs" % file
    return "" if stands(r"^ *(?:abbrev |unfoldable )?pub %s(?: \{[^}]*\})* :", name, file) else "is not stated in %s" % file


def look_up(number, column, cell, defined):
    """Goes through a cell, part by part."""
    for part in cell.split("; "):
        m = re.fullmatch(r"(?:`([^`]+)`(?:, `[^`]+`)*) in `([^`]+)`", part)
        alone = re.fullmatch(r"`([^`]+\.edit)`", part)
        if alone and column == "theorem":
            if text_of(alone.group(1)) is None or not re.match(r"\w+/must-fail/|tests/(?:more|definition)-edits/", alone.group(1)):
                wrong.append("%s: there is no edit %s" % (number, alone.group(1)))
            continue
        if not m:
            wrong.append("%s: this is not `name` in `file`: %s" % (number, part))
            continue
        *names, file = re.findall(r"`([^`]+)`", part)
        if text_of(file) is None:
            wrong.append("%s: there is no file %s" % (number, file))
            continue
        for name in names:
            said = is_there(column, name, file)
            if said:
                wrong.append("%s: %s %s" % (number, name, said))
            if column == "definition":
                defined.add((name, file))


def main():
    lines = PAGE.read_text(encoding="utf-8").splitlines()
    rules, sections, defined, refers = [], [], set(), []
    bare = dict.fromkeys(COLUMNS, 0)
    expected = None
    for line in lines:
        head = re.match(r"## (\d+) (.+)", line)
        if head:
            if int(head.group(1)) != len(sections) + 1:
                wrong.append("section %s stands where %d should" % (head.group(1), len(sections) + 1))
            sections.append((int(head.group(1)), head.group(2)))
            expected = 0 if int(head.group(1)) == ANSWERS else 1
            continue
        if expected is None or not line.startswith("|") or line.startswith("|---") or line.startswith("| no. |"):
            continue
        cells = [c.strip() for c in line.strip()[1:-1].split(" | ")]
        if len(cells) != 2 + len(COLUMNS) or not line.endswith(" |") or not all(cells):
            wrong.append("a row has not five cells: %s" % line[:90])
            continue
        number, rule = cells[:2]
        if number != "%d.%d" % (sections[-1][0], expected):
            wrong.append("rule %s stands where %d.%d should" % (number, sections[-1][0], expected))
        expected += 1
        rules.append(number)
        refers += [(number, r) for part in re.findall(r"\brules? ((?:\d+\.\d+(?:, | and | to )?)+)", rule) for r in re.findall(r"\d+\.\d+", part)]
        for column, cell in zip(COLUMNS, cells[2:]):
            if cell != "-":
                look_up(number, column, cell, defined)
                continue
            bare[column] += 1
            if "no %s" % column not in rule:
                wrong.append("%s has no %s and does not say why" % (number, column))
    index = "\n".join(lines[: next((i for i, l in enumerate(lines) if l.startswith("## 1 ")), 0)])
    for n, title in sections:
        anchor = re.sub(r"[^\w -]", "", "%d %s" % (n, title)).lower().replace(" ", "-")
        if "[%d %s](#%s)" % (n, title, anchor) not in index:
            wrong.append("the index has no [%d %s](#%s)" % (n, title, anchor))
    for number in sorted({r for r in rules if rules.count(r) > 1}):
        wrong.append("there is more than one rule %s" % number)
    for number, other in refers:
        if other not in rules:
            wrong.append("%s refers to rule %s, which is not there" % (number, other))
    for path in sorted(TOP.glob("crates/*/specs/*.antt")):
        file = str(path.relative_to(TOP / "crates"))
        if file.split("/")[0] in THEORY:
            continue
        for name in re.findall(r"^(?:abbrev |unfoldable )?pub (?:record |data )?([^\s:]+)", text_of(file), re.M):
            if name != "mod" and (name, file) not in defined:
                wrong.append("%s of %s has no rule" % (name, file))
    for w in wrong:
        print(w)
    if not wrong:
        print("%d rules in %d sections, %d definitions; without: %s" % (len(rules), len(sections), len(defined), ", ".join("%s %d" % x for x in bare.items())))
    return 1 if wrong or not rules else 0


if __name__ == "__main__":
    sys.exit(main())
