#!/usr/bin/env python3
"""What can be told of the edits without trying them, and what rt ci's own log says of those in crates/*/must-fail.

usage: edits_check.py texts   each edit, of every folder, says its rule, changes src/ or specs/ and no proof, and belongs to a crate that is listed;
                              each crate with a public function has one in its must-fail folder
       edits_check.py logs    after rt ci, whose output stands in target/tests/rt-ci.log: each of the crates' must-fail edits was refused for a fact
One test each; last line 'N passed, M failed'.
"""
import pathlib
import re
import sys

sys.dont_write_bytecode = True
TOP = pathlib.Path(__file__).resolve().parent.parent
sys.path.insert(0, str(TOP / "tests"))
import edits


def report(count, name, wrong):
    count.add(name, not wrong, "".join("\n    " + w for w in wrong) if wrong else "all of them")


def texts(count):
    listed = {line.partition(":")[0].split()[0] for line in (TOP / "crates.txt").read_text(encoding="utf-8").splitlines() if line.partition("#")[0].strip()}
    fail = sorted(TOP.glob("crates/*/must-fail/*.edit"))
    more = sorted(TOP.glob("tests/more-edits/*/*.edit"))
    definitions = sorted(TOP.glob("tests/definition-edits/*.edit"))
    proofs, bare, lost, twice, stale = [], [], [], [], []
    for path in fail + more + definitions:
        rule, changes, _ = edits.read_edit(path)
        name = str(path.relative_to(TOP))
        crate = "" if path in definitions else path.parent.parent.name if path in fail else path.parent.name
        changed = {}
        for file, old, new in changes:
            # changes of one edit are made one after the other
            source = TOP / "crates" / crate / file
            text = changed.get(file) or (source.read_text(encoding="utf-8") if source.is_file() else "")
            if text.count(old) != 1:
                stale.append("%s: the line to change stands %d times in %s" % (name, text.count(old), file))
            changed[file] = text.replace(old, new, 1)
            # below a crate, or below crates/ in definition-edits
            part = file.split("/")[1 if path in definitions else 0]
            if part not in ("src", "specs"):
                proofs.append("%s changes %s" % (name, file))
        if not rule or not changes:
            bare.append("%s has no %s" % (name, "change" if rule else "rule in a first line `# ..`"))
    for path in fail + more:
        crate = path.parent.parent.name if path in fail else path.parent.name
        if crate not in listed:
            lost.append("%s: crates.txt has no %s, and nobody would try it" % (path.relative_to(TOP), crate))
        if path in fail and (TOP / "tests" / "more-edits" / crate / path.name).exists():
            twice.append("%s stands in tests/more-edits/%s as well" % (path.relative_to(TOP), crate))
    # a file with another ending, or in another place, is tried by nobody
    for path in [*TOP.glob("crates/*/must-fail/**/*"), *TOP.glob("tests/more-edits/**/*"), *TOP.glob("tests/definition-edits/**/*")]:
        if path.is_file() and path not in fail + more + definitions and path.suffix not in (".py", ".pyc"):
            lost.append("%s is no edit that is tried" % path.relative_to(TOP))
    without = []
    for path in sorted(TOP.glob("crates/*/src/lib.rt")):
        crate = path.parent.parent.name
        if re.search(r"^pub (?:extern \"C\" )?fn ", path.read_text(encoding="utf-8"), re.M) and not list((TOP / "crates" / crate / "must-fail").glob("*.edit")):
            without.append("%s has public functions and no must-fail edit" % crate)
    report(count, "an edit changes src/ or specs/, never a proof (%d edits)" % len(fail + more + definitions), proofs)
    report(count, "an edit quotes its rule and changes something", bare)
    report(count, "an edit is tried, and once", lost + twice)
    report(count, "the line that an edit changes stands once in its file", stale)
    report(count, "a crate with public functions has a must-fail edit", without)


def logs(count):
    paths = sorted(TOP.glob("crates/*/must-fail/*.edit"))
    log = TOP / "target" / "tests" / "rt-ci.log"
    tried = edits.tried(log.read_text(encoding="utf-8", errors="replace")) if log.is_file() else {}
    wrong = []
    for path in paths:
        crate = path.parent.parent.name
        good, said = edits.judge(tried.pop((crate, path.stem), "the log of rt ci does not name it"))
        if not good:
            wrong.append("%s/%s: %s" % (crate, path.stem, said))
    for crate, name in tried:
        wrong.append("%s/%s: the log of rt ci names it, and it is no edit" % (crate, name))
    report(count, "rt ci's must-fail edits were refused for a fact (%d edits)" % len(paths), wrong)


def main():
    count = edits.Count()
    if sys.argv[1:] == ["texts"]:
        texts(count)
    elif sys.argv[1:] == ["logs"]:
        logs(count)
    else:
        sys.exit(__doc__)
    return count.finish()


if __name__ == "__main__":
    sys.exit(main())
