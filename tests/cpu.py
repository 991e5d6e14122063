#!/usr/bin/env python3
"""CPU seconds of the prover, crate by crate, while a command runs; nothing is proved for it, and the kit runs as it is.

usage: cpu.py run NAME COMMAND ..   runs the command, and ten times a second reads from /proc how long each `rattle` below it has run;
                                    writes target/tests/cpu-NAME; its exit status is the command's
       cpu.py table                 prints what target/tests/cpu-rt-ci, cpu-more-edits and cpu-definition-edits hold
A process is missed for the last tenth of a second of its life at most. The sum that the system counted stands beside the table.
What rt keeps from earlier runs on this machine is not proved or tried again, and takes no time.
"""
import os
import pathlib
import subprocess
import sys
import time

FOLDER = pathlib.Path(__file__).resolve().parent.parent / "target" / "tests"
TICK = os.sysconf("SC_CLK_TCK")


def stat_of(pid):
    """The name, the parent, the start and the CPU seconds of a process, with those of its ended children; or None."""
    try:
        with open("/proc/%d/stat" % pid, encoding="utf-8", errors="replace") as f:
            head, _, tail = f.read().rpartition(")")
    except OSError:
        return None
    part = tail.split()
    return head.partition("(")[2], int(part[1]), part[19], sum(map(int, part[11:15])) / TICK


def is_below(pid, top):
    while pid > 1:
        if pid == top:
            return True
        stat = stat_of(pid)
        if stat is None:
            return False
        pid = stat[1]
    return False


def crate_of(pid):
    """The crate that a `rattle` works on, and whether for an edit that rt tries; or None."""
    try:
        words = pathlib.Path("/proc/%d/cmdline" % pid).read_bytes().decode("utf-8", "replace").split("\0")
        folder = os.readlink("/proc/%d/cwd" % pid)
    except OSError:
        return None
    if "--crate-name" not in words[:-1]:
        return None
    return words[words.index("--crate-name") + 1], "edit" if os.path.basename(folder).startswith("rt-edit-") else "proof"


def run(name, command):
    child = subprocess.Popen(command)
    seen = {}  # (pid, start): [crate and kind, seconds]
    usage = None
    while usage is None:
        pids = [int(p) for p in os.listdir("/proc") if p.isdigit()]
        for pid in pids:
            stat = stat_of(pid)
            if stat is None or stat[0] != "rattle":
                continue
            key = pid, stat[2]
            if key not in seen:
                what = crate_of(pid) if is_below(pid, child.pid) else None
                if what is None:
                    continue
                seen[key] = [what, 0]
            seen[key][1] = max(seen[key][1], stat[3])
        ended, status, now = os.wait4(child.pid, os.WNOHANG)
        if ended:
            usage, child.returncode = now, os.waitstatus_to_exitcode(status)
        else:
            time.sleep(0.1)
    sums = {}
    for what, seconds in seen.values():
        sums[what] = sums.get(what, 0) + seconds
    FOLDER.mkdir(parents=True, exist_ok=True)
    with open(FOLDER / ("cpu-" + name), "w", encoding="utf-8") as out:
        out.write("all all %.1f\n" % (usage.ru_utime + usage.ru_stime))
        for (crate, kind), seconds in sums.items():
            out.write("%s %s %.1f\n" % (crate, kind, seconds))
    return child.returncode if child.returncode >= 0 else 128 - child.returncode


def read(name):
    """{crate: {kind: seconds}}, and the sum that the system counted."""
    sums, whole = {}, 0.0
    path = FOLDER / ("cpu-" + name)
    for line in path.read_text(encoding="utf-8").splitlines() if path.is_file() else []:
        crate, kind, seconds = line.split()
        if kind == "all":
            whole = float(seconds)
        else:
            sums.setdefault(crate, {})[kind] = float(seconds)
    return sums, whole


def table():
    ci, ci_whole = read("rt-ci")
    more, more_whole = read("more-edits")
    definitions, definitions_whole = read("definition-edits")
    top = FOLDER.parent.parent
    names = [line.partition(":")[0].split()[0] for line in (top / "crates.txt").read_text(encoding="utf-8").splitlines() if line.partition("#")[0].strip()]
    names += sorted((set(ci) | set(more)) - set(names))
    form = "%-14s %14s %14s %6s %16s %8s"
    print(form % ("crate", "CPU s (proof)", "CPU s (edits)", "edits", "CPU s (further)", "further"))
    rows = []
    for name in names:
        proof = ci.get(name, {}).get("proof", 0.0)
        edits = ci.get(name, {}).get("edit", 0.0)
        own = len(list((top / "crates" / name / "must-fail").glob("*.edit")))
        further = sum(more.get(name, {}).values())
        rows.append((proof, edits, own, further, len(list((top / "tests" / "more-edits" / name).glob("*.edit")))))
        print(form % (name, "%.1f" % proof, "%.1f" % edits, own, "%.1f" % further, rows[-1][4]))
    sums = [sum(column) for column in zip(*rows)]
    print(form % ("all", "%.1f" % sums[0], "%.1f" % sums[1], sums[2], "%.1f" % sums[3], sums[4]))
    spent = sum(seconds for kinds in definitions.values() for seconds in kinds.values())
    print("changed definitions: %.1f CPU s for %d edits" % (spent, len(list((top / "tests" / "definition-edits").glob("*.edit")))))
    print("counted by the system, with the shells around: rt ci %.1f s, further edits %.1f s, changed definitions %.1f s" % (ci_whole, more_whole, definitions_whole))
    return 0


if __name__ == "__main__":
    if len(sys.argv) > 3 and sys.argv[1] == "run":
        sys.exit(run(sys.argv[2], sys.argv[3:]))
    if sys.argv[1:] == ["table"]:
        sys.exit(table())
    sys.exit(__doc__)
