#!/usr/bin/env python3
"""How many lines a reader must believe for each demand: those of every definition of a specs/ folder, and of every struct and enum, that
the statement mentions, and that these mention in turn. Blank lines, comments and `use` are not counted, nor is the kit's library.

usage: believed.py          the table, as docs/ARCHITECTURE.md has it
       believed.py NAME     the definitions behind one row, with their lines
"""
import pathlib
import re
import sys

TOP = pathlib.Path(__file__).resolve().parent.parent
CRATES = TOP / "crates"
TOKEN = re.compile(r"[^\s(){}\[\],;]+")

# a row: what is said, and where it is said: contracts of public functions (crate, function), or definitions (crate, file, name)
ROWS = {
    "demand 2": (
        "a guest write and a kind change answer and leave exactly what the rules say",
        [("guard", "guest_write"), ("guard", "guest_write_sound"), ("kinds", "kind_change"), ("kinds", "kind_change_sound")],
    ),
    "the controller": (
        "a step, a frame and an unguarded write do exactly what the rules say",
        [("controller", "step_by"), ("controller", "take_frame_by"), ("controller", "unguarded_write"), ("controller", "fresh")],
    ),
    "demand 3": ("safe in every order of events", [("safety", "Statement", "Safety"), ("safety", "Statement", "Soundness")]),
    "what follows": ("the clauses of `follows-always`", [("safety", "Follows", "Follows")]),
    "starred": (
        "the starred cases and the bench's example",
        [("cases", "Starred", "Starred"), ("cases", "Example", "example_in"), ("cases", "Example", "example_out")],
    ),
    "the bench": ("where no read and no write fails, all that it hands to the write is `replay` of all that it read", [("player", "replay_file")]),
    "beliefs": (
        "four false beliefs",
        [("beliefs", "Beliefs", n) for n in ("EmptyQueue", "LengthNow", "LateAppend", "OldCode")],
    ),
}


def plain(lines, mark):
    return [line for line in lines if line.strip() and not line.strip().startswith(mark)]


class Antt:
    """One file of definitions: its declarations by name, and what each name that it uses stands for."""

    def __init__(self, path):
        self.crate = path.relative_to(CRATES).parts[0]
        self.file = path.stem
        self.blocks = {}
        self.names = {}
        self.prefixes = {}
        block = []
        for line in path.read_text(encoding="utf-8").splitlines() + [""]:
            if line.startswith("use "):
                self.use(line)
            elif line.startswith(("pub mod", "pub use")):
                continue
            elif line.strip():
                block.append(line)
            elif block:
                self.add(plain(block, "--"))
                block = []

    def use(self, line):
        found = re.match(r"use (\S+?)\.\{(.*)\}$", line)
        if found:
            for item in found.group(2).split(","):
                name, _, local = item.strip().partition(" as ")
                self.names[local.strip() or name.strip()] = (found.group(1), name.strip())
            return
        found = re.match(r"use (\S+) as (\S+)$", line)
        if found:
            self.prefixes[found.group(2)] = found.group(1)

    def add(self, lines):
        if not lines:
            return
        found = re.match(r"(?:abbrev |unfoldable )?(?:pub )?(?:record |data )?(\S+)", lines[0])
        self.blocks[found.group(1)] = lines


def module(path, crate):
    """The crate and the file, or the declared type, of a module's path; nothing for the kit's library."""
    if not path.startswith("Rattle."):
        return None
    owner, *rest = path[len("Rattle."):].split(".")
    if not (CRATES / owner).is_dir():
        return None
    if "declared" in rest:
        # behind the modules that it stands in: a module's name begins small, a type's doesn't
        return (owner, "declared", next(name for name in rest[rest.index("declared") + 1 :] if name[:1].isupper()))
    if "specs" in rest:
        return (owner, rest[-1], None)
    raise SystemExit(f"{crate}: a definition cites {path}, which is no definition")


FILES = {(f.crate, f.file): f for f in (Antt(p) for p in sorted(CRATES.glob("*/specs/*.antt")) if p.stem != "Lib")}
SOURCES = {}
TYPES = {}
for path in sorted(CRATES.glob("*/src/*.rt")):
    crate = path.relative_to(CRATES).parts[0]
    text = path.read_text(encoding="utf-8")
    SOURCES.setdefault(crate, []).append(text)
    for found in re.finditer(r"^(?:pub )?(?:struct|enum) (\w+)[^;{]*(?:\{.*?^\}|;)|^(?:pub )?type (\w+) = .*?;", text, re.M | re.S):
        TYPES.setdefault(crate, {})[found.group(1) or found.group(2)] = plain(found.group(0).splitlines(), "//")


def used_in(text):
    """The names that a source uses, each with the crate that its path begins with."""
    for path, names in re.findall(r"^use ((?:\w+::)+)(\{[^}]*\}|\w+);", text, re.M):
        for name in re.findall(r"\w+", names):
            yield name, path.split("::")[0]


def owner_of(crate, name):
    """The crate whose struct, enum or array type a name stands for, seen from a crate."""
    if name in TYPES.get(crate, {}):
        return crate
    for text in SOURCES.get(crate, []):
        for used, owner in used_in(text):
            if used == name and name in TYPES.get(owner, {}):
                return owner
    return None


def lines_of(node):
    crate, file, name = node
    if file == "declared":
        return TYPES[crate][name]
    if file == "contract":
        return CONTRACTS[(crate, name)][0]
    return FILES[(crate, file)].blocks[name]


CONTRACTS = {}


def contract(crate, name):
    """The lines of a public function's contract, and the names that its file takes from definitions."""
    for text in SOURCES[crate]:
        found = re.search(r"^pub (?:extern \"C\" )?fn " + name + r"\b.*?(?=^\{)", text, re.M | re.S)
        if not found:
            continue
        names = {}
        for line in re.findall(r"^ghost use (\S+?)\.\{(.*)\};", text, re.M):
            for item in line[1].split(","):
                names[item.strip()] = (line[0], item.strip())
        CONTRACTS[(crate, name)] = (plain(found.group(0).splitlines(), "//"), names)
        return (crate, "contract", name)
    raise SystemExit(f"{crate} has no public function {name}")


def targets(node):
    crate, file, _ = node
    text = " ".join(lines_of(node))
    if file in ("declared", "contract"):
        for name in set(re.findall(r"\b[A-Z]\w*\b", text)):
            owner = owner_of(crate, name)
            if owner:
                yield (owner, "declared", name)
        if file == "declared":
            return
        names, own, prefixes = CONTRACTS[(crate, node[2])][1], {}, {}
    else:
        source = FILES[(crate, file)]
        names, own, prefixes = source.names, source.blocks, source.prefixes
    for token in set(TOKEN.findall(text)):
        head, dot, _ = token.partition(".")
        if token in own and token != node[2]:
            yield (crate, file, token)
        elif dot and head in prefixes:
            place = module(prefixes[head], crate)
            if place and place[1] == "declared":
                yield place
        elif token in names or head in names:
            path, name = names[token if token in names else head]
            place = module(path, crate)
            if place is None:
                continue
            if place[1] == "declared":
                yield place
            elif name in FILES[(place[0], place[1])].blocks:
                yield (place[0], place[1], name)


def behind(roots):
    met, todo = set(), [contract(*r) if len(r) == 2 else r for r in roots]
    while todo:
        node = todo.pop()
        if node in met:
            continue
        met.add(node)
        todo += [t for t in targets(node) if t not in met]
    return met


def count(nodes):
    return sum(len(lines_of(n)) for n in nodes)


def where(roots):
    """The files in which a row's statement stands."""
    return ", ".join(dict.fromkeys(f"{r[0]}/src" if len(r) == 2 else f"{r[0]}/specs/{r[1]}.antt" for r in roots))


def table():
    """For each row where it stands, what it says, its lines, and how many of them stand behind a guest write and a kind change."""
    guard = behind([("guard", "Guard", "guest_write"), ("kinds", "Kinds", "kind_change")])
    rows = ["| statement | where | says | lines | of them for guest write and kind change |", "|---|---|---|---|---|"]
    for name, (says, roots) in ROWS.items():
        nodes = behind(roots)
        rows.append(f"| {name} | {where(roots)} | {says} | {count(nodes)} | {count(nodes & guard)} |")
    return rows


if __name__ == "__main__":
    if len(sys.argv) > 1:
        for node in sorted(behind(ROWS[sys.argv[1]][1])):
            print("%5d  %s/%s %s" % (len(lines_of(node)), *node))
    else:
        print("\n".join(table()))
