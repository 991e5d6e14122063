"""What the runners of edits share: more-edits/run.py, definition-edits/run.py, edits_check.py."""
import os
import re
import shutil
import subprocess

# where the prover or the front end refuses something, and what it says there; and the line that rt prints above all that it says of a crate
PLACE = re.compile(r"^(?:note: )?(?:\./)?(\S*):\d+:\d+: (error\b.*|it is not proved .*)|^== (\w+)$", re.M)
# what rt says of one edit that it tried: `rt: must-fail CRATE/NAME.edit: refused, as it must be: PLACE: REFUSAL`
TRIED = re.compile(r"^rt: must-fail (\w+)/(\S+)\.edit: (.*)$", re.M)
GOOD = "refused, as it must be"
# what only waits for something else that was refused
WAITS = re.compile(r"was not admitted|declarations? that depends? on|it calls `[^`]*`, which is not proved")
# the proof file no longer fits the code: an operation more or fewer, and no fact that fails
SHAPE = re.compile(r"has no (?:field )?`|that can be named from here")
# the edit is no program or no definition
ILL = re.compile(r"in scope|unknown|parse|expected a\b|unexpected|no such|not found|unresolved|mismatched types|expected type `\S*ℕ`.*`\S*ℤ`", re.I)


def workers():
    """How many to try at a time: RT_JOBS, else the processors, at most 4."""
    return int(os.environ.get("RT_JOBS") or min(os.cpu_count() or 1, 4))


def read_edit(path):
    """The rule in the comment line, the changes (one `file:`, `old:`, `new:` after another), and the other keys with their values."""
    rule, changes, other = "", [], {}
    name = old = ""
    for line in path.read_text(encoding="utf-8").splitlines():
        key, colon, value = line.partition(":")
        value = value[1:] if value.startswith(" ") else value
        if line.startswith("# "):
            rule = rule or line[2:]
        elif key == "file":
            name = value
        elif key == "old":
            old = value
        elif key == "new":
            changes.append((name, old, value))
        elif colon and key.isalpha():
            other[key] = value
    return rule, changes, other


def apply(changes, folder):
    """Makes the changes below a folder; what is wrong with the edit, or ''."""
    for name, old, new in changes:
        target = folder / name
        if not target.is_file():
            return "there is no file %s" % name
        text = target.read_text(encoding="utf-8")
        if not old or text.count(old) != 1:
            return "`%s` stands %d times in %s" % (old, text.count(old), name)
        target.write_text(text.replace(old, new), encoding="utf-8")
    return "" if changes else "it has no change"


def copy_crates(repo, target):
    """A copy of the crates and of what rt reads beside them, as the top of a repository of its own: without what checks made, and without edits."""
    (target / ".git").mkdir(parents=True)
    for crate in sorted((repo / "crates").iterdir()):
        if crate.is_dir():
            shutil.copytree(crate, target / "crates" / crate.name, ignore=shutil.ignore_patterns("out", "must-fail", "__pycache__"))
    for name in ("crates.txt", "HANDLES"):
        if (repo / name).is_file():
            shutil.copy(repo / name, target / name)


def run(command, folder, env):
    """The exit status of a command, and all that it printed."""
    done = subprocess.run(command, cwd=folder, env=env, stdout=subprocess.PIPE, stderr=subprocess.STDOUT, text=True, encoding="utf-8", errors="replace")
    return done.returncode, done.stdout


def errors_of(log):
    """Each refusal of its own, first things first: (crate or '', file in the crate, what is said)."""
    out, crate = [], ""
    for place, what, begins in PLACE.findall(log):
        if begins:
            crate = begins
        elif not WAITS.search(what):
            out.append((crate, place, what))
    return out


def no_fact(error):
    """Why a refusal is not the refusal of a fact, or ''."""
    _, file, what = error
    said = re.sub(r"^error(?:\[[\w-]+\])?: ", "", what)
    if SHAPE.search(said[:600]):
        return "the shape of the code changed, and no fact is refused: %s: %s" % (file, what[:300])
    if ILL.search(re.sub(r"^(?:`[^`]*`: )+", "", said)[:90]):
        return "the edit itself is ill-formed: %s: %s" % (file, what[:300])
    return ""


def tried(log):
    """What a log of `rt ci` or `rt must-fail` says of each edit: {(crate, name): what}."""
    return {(crate, name): said for crate, name, said in TRIED.findall(log)}


def judge(said):
    """Whether rt's word on an edit is that a fact was refused; where and why, or what is wrong."""
    if not said.startswith(GOOD):
        return False, said
    why = said[len(GOOD):]
    # `(only because a proof file names what the edit took away ..)`, `(only by a limit of the prover ..)`
    if not why.startswith(": "):
        return False, "it was not refused for a fact%s" % (why or ", and rt does not say why")
    errors = errors_of(why[2:])
    if not errors:
        return False, "no fact was refused, what is said only waits for another refusal: %s" % why[2:]
    wrong = no_fact(errors[0])
    return (False, wrong) if wrong else (True, "%s: %s" % (errors[0][1], errors[0][2]))


class Count:
    """Prints each test and counts it; the last line says how many."""

    def __init__(self):
        self.passed = self.failed = 0

    def add(self, name, good, text):
        self.passed, self.failed = self.passed + bool(good), self.failed + (not good)
        print("%s %s: %s" % ("ok" if good else "FAILED", name, text), flush=True)

    def finish(self):
        if self.passed + self.failed == 0:
            self.add("edits", False, "there was nothing to try")
        print("%d passed, %d failed" % (self.passed, self.failed), flush=True)
        return 1 if self.failed else 0
