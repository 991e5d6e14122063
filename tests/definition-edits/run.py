#!/usr/bin/env python3
"""Changes one definition at a time, each a hole that a filter could have, and expects a law or a theorem to refuse it.

The proofs run over a copy of the crates without their code (cut.py), so that the refusal is one of a fact about the definitions. That copy is
proved once; each edit is tried over what was proved there, so that only what it changed is proved anew.
An edit passes when the crates below still have well-formed definitions and some proof is refused; which one is printed.
An edit with a line `belief: NAME` is the hole that a false belief would leave. It is tried a second time, over what crates/beliefs stands on
alone, and there the refutation of that name must be refused.
usage: run.py [--why] [NAME ..]      all edits of this folder, or those whose file name begins so; --why prints the refusals too.
RT_JOBS edits at a time, else one for each processor, at most 4. Last line: 'N passed, M failed'.
"""
import concurrent.futures
import os
import pathlib
import re
import shutil
import sys
import tempfile
import time

sys.dont_write_bytecode = True
HERE = pathlib.Path(__file__).resolve().parent
sys.path.insert(0, str(HERE.parent))
import cut
import edits

REPO = HERE.parent.parent
# the crates whose theorems are asked: those about every sequence, and the refuted beliefs
ROOTS = {"theorems": ["queue", "safety"], "beliefs": ["beliefs"]}
WHY = "--why" in sys.argv
# a crate of which rt says in its summary neither that it is proved nor that it is not
NO_ANSWER = re.compile(r"^\w+: failed \((?!1\)).*", re.M)


def check(repo, at_once):
    """Proves the theorems of every crate of a cut copy; the exit status and all that was said."""
    return edits.run(["rt", "all", "check", "--jobs", str(at_once)], repo, os.environ)


def link_or_copy(source, target):
    """What was proved is linked, since rt replaces such a file and never writes into it; all else is copied."""
    if source.endswith(".oantt") or "/out/rlib/" in source:
        os.link(source, target)
    else:
        shutil.copy2(source, target)


def refused(status, log):
    """The refused proofs, as (name, crate/file), or what is wrong; and the refusals in full."""
    if status == 0:
        return [], "NOT REFUSED", ""
    errors = edits.errors_of(log)
    if status != 1 or not errors:
        return [], "no answer, exit status %d: %s" % (status, log[-300:]), ""
    no_answer = NO_ANSWER.search(log)
    if no_answer:
        return [], "no answer: %s" % no_answer.group(), ""
    for error in errors:
        wrong = edits.no_fact(error)
        if wrong or not error[1].startswith("proofs/"):
            return [], "%s/%s: %s" % (error[0], error[1], wrong or "the edit itself is ill-formed: " + error[2][:200]), ""
    laws = []
    for crate, file, what in errors:
        law = re.match(r"error: `([^`]+)`", what)
        said = (law.group(1) if law else "a law", "%s/%s" % (crate, pathlib.Path(file).stem))
        laws += [said] if said not in laws else []
    return laws, "", "".join("\n    %s: %s" % (e[1], e[2]) for e in errors) if WHY else ""


def try_edit(path, kind, base, work):
    """One edit over the copy for one kind of theorem: (name, whether it passed, what to say)."""
    rule, changes, other = edits.read_edit(path)
    name = path.stem if kind == "theorems" else "%s, the belief" % path.stem
    repo = work / ("%s-%s" % (path.stem, kind))
    shutil.copytree(base[kind], repo, symlinks=True, copy_function=link_or_copy)
    try:
        wrong = edits.apply(changes, repo / "crates")
        if wrong:
            return name, False, wrong
        status, log = check(repo, 1)
    finally:
        shutil.rmtree(repo)
    laws, wrong, why = refused(status, log)
    if wrong:
        return name, False, "%s: %s" % (wrong, rule)
    said = "refused by %s%s" % (", ".join("%s (%s)" % law for law in laws), why)
    if kind == "beliefs" and other["belief"] not in [law for law, _ in laws]:
        return name, False, "%s is not refused: %s" % (other["belief"], said)
    return name, True, said


def main():
    names = [a for a in sys.argv[1:] if a != "--why"]
    paths = [p for p in sorted(HERE.glob("*.edit")) if not names or any(p.name.startswith(a) for a in names)]
    items = [(p, "theorems") for p in paths] + [(p, "beliefs") for p in paths if "belief" in edits.read_edit(p)[2]]
    began, count = time.time(), edits.Count()
    with tempfile.TemporaryDirectory() as folder, concurrent.futures.ThreadPoolExecutor(edits.workers()) as pool:
        work = pathlib.Path(folder)
        base = {kind: work / kind for kind in {k for _, k in items}}
        for kind in base:
            cut.cut(REPO, base[kind], ROOTS[kind])
        for kind, (status, log) in zip(base, pool.map(lambda k: check(base[k], 2), base)):
            if status != 0:
                count.add(kind, False, "not proved over the definitions as they are: " + log[-2000:])
                return count.finish()
        print("unchanged definitions: proved in %d s" % (time.time() - began), flush=True)
        for answer in pool.map(lambda item: try_edit(*item, base, work), items):
            count.add(*answer)
    print("%d edits, %d s in all" % (len(paths), time.time() - began))
    return count.finish()


if __name__ == "__main__":
    sys.exit(main())
