"""A copy of the crates without their code: types, definitions and laws are kept, functions and the proofs of functions are not.

Theorems rest on definitions and on laws, never on a function, so they can be proved over such a copy; and a changed definition
is then refused by a law or a theorem, not by the function that was written to the old one.
"""
import pathlib
import re
import shutil

USE = re.compile(r"^(?:pub )?use Rattle\.(\w+)\.(specs|proofs)\.(\w+)", re.M)
# where an item begins that is left out, and one that is read for the names it brings
LEFT_OUT = re.compile(r"(?:pub )?(?:extern \"C\" )?(?:fn|impl)\b|(?:pub )?extern\b")
NAMES = re.compile(r"([\w:]+)::(?:\{([^}]*)\}|(\w+));")


def crates_of(repo):
    """Each crate with its dependencies, in the order of crates.txt."""
    out = {}
    for line in (repo / "crates.txt").read_text().splitlines():
        line = line.split("#")[0].strip()
        if line:
            name, _, deps = line.partition(":")
            out[name.strip()] = deps.split()
    return out


def items_of(text):
    """The items of a source file, each with its attributes and the comment above it, as lists of lines."""
    items, lines, depth = [], [], 0
    for line in text.splitlines():
        bare = re.sub(r"//.*|'.'", "", line)
        if not line.strip() and depth == 0:
            continue
        lines.append(line)
        depth += sum(bare.count(c) for c in "([{") - sum(bare.count(c) for c in ")]}")
        # a clause of a contract stands between a function's head and its body, so a line of its own never ends the item
        ends = bare.rstrip().endswith((";", "}")) and not bare.startswith("#[") and not line.startswith(" ")
        if depth == 0 and ends or bare.startswith("#!["):
            items.append(lines)
            lines = []
    return items


def types_of(text):
    """A source file without functions and modules, with the imports that its types and constants use."""
    kept, uses, ghosts = [], [], []
    for lines in items_of(text):
        first = next((line for line in lines if not line.startswith(("//", "#["))), lines[0])
        whole = " ".join(line.strip() for line in lines if not line.startswith("//"))
        if re.match(r"(?:pub )?use ", first):
            uses += [(path, name.strip()) for path, many, one in NAMES.findall(whole) for name in (many or one).split(",") if name.strip()]
        elif first.startswith("ghost use "):
            ghosts += [(path, name) for path, many in re.findall(r"ghost use ([\w.]+)\.\{([^}]*)\};", whole) for name in many.split(", ")]
        elif not LEFT_OUT.match(first) and not re.match(r"(?:pub )?mod ", first):
            kept += ["", *lines]
    body = "\n".join(kept)
    bare = re.sub(r"//.*", "", body)
    names = ["use %s::%s;" % (path, name) for path, name in uses if not path.startswith("crate") and re.search(r"\b%s\b" % re.escape(name), bare)]
    # what a fact in a type names
    facts = " ".join(re.findall(r"\{ (.*) \}", bare))
    names += ["ghost use %s.{%s};" % (path, name) for path, name in ghosts if name.strip("◌") in facts.split()]
    return body + "\n", names


def cut_source(source, target):
    """The types of lib.rt, and those of each module that has some: the module stays, and is asked for its types alone."""
    target.mkdir(parents=True)
    whole = (source / "lib.rt").read_text()
    body, uses = types_of(whole)
    modules = []
    for path in sorted(source.glob("*.rt")):
        kept, names = types_of(path.read_text())
        types = re.findall(r"^pub (?:struct|enum|type|const) (\w+)", kept, re.M)
        if path.name != "lib.rt" and types:
            (target / path.name).write_text("\n".join(names) + kept)
            modules.append("mod %s;" % path.stem)
            asked = {name for many, one in re.findall(r"^pub use %s::(?:\{([^}]*)\}|(\w+));" % path.stem, whole, re.M) for name in (many or one).split(", ")}
            modules += ["pub use %s::%s;" % (path.stem, name) for name in types if name in asked]
    at = body.index("#![tactic(auto)]") + len("#![tactic(auto)]")
    (target / "lib.rt").write_text(body[:at].lstrip("\n") + "\n\n" + "\n".join(modules + uses) + body[at:])


def laws_needed(repo, names, roots):
    """The law files that the proofs of the root crates reach."""
    todo = []
    for name in names:
        todo += [p for p in (repo / "crates" / name / "specs").glob("**/*.antt")]
    for name in roots:
        todo += [p for p in (repo / "crates" / name / "proofs").glob("*.antt") if p.name != "Lib.antt"]
    seen = set(todo)
    while todo:
        for crate, kind, module in USE.findall(todo.pop().read_text()):
            path = repo / "crates" / crate / kind / (module + ".antt")
            if path.exists() and path not in seen:
                seen.add(path)
                todo.append(path)
    return seen


def below(all_crates, roots):
    out, todo = set(), list(roots)
    while todo:
        name = todo.pop()
        if name not in out:
            out.add(name)
            # a crate of the kit has no line of its own
            todo += all_crates.get(name, [])
    return [name for name in all_crates if name in out]


def cut(repo, target, roots):
    """Writes the cut copy for the theorems of the root crates to target."""
    repo, target = pathlib.Path(repo), pathlib.Path(target)
    every = crates_of(repo)
    names = below(every, roots)
    needed = laws_needed(repo, names, roots)
    for name in names:
        old, new = repo / "crates" / name, target / "crates" / name
        cut_source(old / "src", new / "src")
        if (old / "specs").exists():
            shutil.copytree(old / "specs", new / "specs")
        if (old / "proofs").exists():
            laws = [p for p in sorted((old / "proofs").glob("*.antt")) if p in needed]
            if laws:
                (new / "proofs").mkdir()
                for path in laws:
                    shutil.copy(path, new / "proofs" / path.name)
                order = [l for l in (old / "proofs" / "Lib.antt").read_text().splitlines() if l.split()[-1:] and l.split()[-1] in {p.stem for p in laws}]
                (new / "proofs" / "Lib.antt").write_text("\n".join(order) + "\n")
    (target / "crates.txt").write_text("".join("%s: %s\n" % (n, " ".join(every[n])) for n in names))
    return names
