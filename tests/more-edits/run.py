#!/usr/bin/env python3
"""Further wrong answers, beside those in crates/NAME/must-fail: each is applied to a copy, and the prover must refuse it.

The edits of this folder are laid into crates/NAME/must-fail of a copy of the crates, and rt tries them there as it tries a crate's own: each over
what a check of the crate as it stands proved, so that only what an edit changed is proved anew. An edit passes when rt refuses it for a fact:
not for a name that is gone, not for a text that cannot be read, and not for a limit of the prover.
usage: run.py [--why] [CRATE[/NAME] ..]   all edits of this folder, by `rt ci`, which takes the proofs that the gate just made;
                                          or those named, by `rt must-fail`, which begins with what `rt check` kept; --why prints the refusals too.
What was tried once on this machine is not tried again while nothing that it stands on changes. As many at a time as rt takes: RT_JOBS, else the processors.
Last line: 'N passed, M failed'.
"""
import os
import pathlib
import shutil
import sys
import tempfile
import time

sys.dont_write_bytecode = True
HERE = pathlib.Path(__file__).resolve().parent
REPO = HERE.parent.parent
sys.path.insert(0, str(HERE.parent))
import edits


def main():
    why = "--why" in sys.argv
    names = [a for a in sys.argv[1:] if a != "--why"]
    found = []
    for path in sorted(HERE.glob("*/*.edit")):
        crate = path.parent.name
        if not names or crate in names or "%s/%s" % (crate, path.stem) in names:
            found.append((crate, path))
    began, count = time.time(), edits.Count()
    with tempfile.TemporaryDirectory(prefix="more-edits-") as folder:
        repo = pathlib.Path(folder) / "repo"
        edits.copy_crates(REPO, repo)
        for crate, path in found:
            place = repo / "crates" / crate / "must-fail"
            place.mkdir(exist_ok=True)
            shutil.copy(path, place / path.name)
        command = ["rt", "must-fail", *sorted({crate for crate, _ in found})] if names else ["rt", "ci"]
        status, log = edits.run(command, repo, os.environ) if found else (0, "")
    tried = edits.tried(log)
    for crate, path in found:
        good, said = edits.judge(tried.get((crate, path.stem), "NOT TRIED"))
        if good:
            text = "refused at " + (said if why else said.split(": ")[0])
        else:
            text = "%s: %s" % (said, edits.read_edit(path)[0])
        count.add("%s/%s" % (crate, path.stem), good, text)
    if status != 0 and count.failed == 0 or len(tried) < len(found):
        count.add(" ".join(command), False, "exit status %d; the end of what it said:\n%s" % (status, log[-3000:]))
    print("%d edits, %d s in all" % (len(found), time.time() - began))
    return count.finish()


if __name__ == "__main__":
    sys.exit(main())
