#!/usr/bin/env python3
"""The trap handler's expected output, held to the second model. The output is a bench text whose comments are the guard's answers: packed
(tools/benchtext.py), it is replayed by second-calls (tests/second), and every number, effect and side must be the second model's.
usage: handler.py EXPECTED SECOND-CALLS. Last line 'N passed, M failed'."""
import pathlib
import re
import subprocess
import sys

sys.dont_write_bytecode = True
TOP = pathlib.Path(__file__).resolve().parent.parent.parent
sys.path.insert(0, str(TOP / "tools"))
import benchtext

EFFECTS = {"": "0", "plain": "1", "started": "2", "appended": "3"}
SIDES = {"": "0", "transmit": "1", "receive": "2"}
passed = failed = 0


def check(name, wrong):
    global passed, failed
    if wrong:
        failed += 1
        print("FAILED %s: %s" % (name, wrong))
    else:
        passed += 1
        print("ok %s" % name)


def main():
    text = pathlib.Path(sys.argv[1]).read_text(encoding="utf-8")
    said = []  # (record, number, effect, side) as the handler prints them
    for line in text.splitlines():
        if line.startswith(("GW ", "KC ")):
            record, _, comment = line.partition("#")
            words = comment.split() + ["", ""]
            said.append((record.strip(), words[0], EFFECTS.get(words[1]), SIDES.get(words[2])))
    log = subprocess.run([sys.argv[2]], input=benchtext.pack(text), capture_output=True, check=True).stdout.decode()
    model = []
    for line in log.splitlines():
        part = line.split()
        if part[0] == "W":
            model.append(("GW %08X %08X" % (int(part[1]), int(part[2])), *part[-3:]))
        elif part[0] == "K":  # an accepted kind change is plain at the face to C
            model.append(("KC %s %s" % (part[1], part[2]), part[-1], "1" if part[-1] == "0" else "0", "0"))
    wrong = ["%s: printed %s, the second model has %s" % (s[0], s[1:], m[1:]) for s, m in zip(said, model) if s != m]
    if len(said) != len(model):
        wrong.append("%d calls printed, %d replayed" % (len(said), len(model)))
    check("the second model gives each of the %d answers" % len(said), "; ".join(wrong[:3]))

    # what the header asks of a handler is in the scene, by the second model's answers
    header = (TOP / "include" / "gresomund.h").read_text(encoding="utf-8")
    tries = int(re.search(r"#define GRESOMUND_TRIES (\d+)u", header).group(1))
    runs, here = [], []  # calls of one HDP write after the other, with nothing but steps between
    for record, number, _, _ in model:
        if here and here[0] == record:
            here[1].append(number)
        else:
            here = [record, [number]]
            runs.append(here)
    asked = [numbers for record, numbers in runs if record.startswith("GW 4A100A00 ") or record.startswith("GW 4A100A20 ")]
    check("an early start is tried again, and accepted", "" if ["10", "0"] in asked else "no such start")
    check("a start that stays busy is tried %d times more" % tries, "" if ["10"] * (tries + 1) in asked else "no such start")
    four = [int(record.split()[1], 16) for record, number, _, _ in model if number == "4"]
    check("4 behind the channel registers, and elsewhere in the page", "" if len({0x4A100A80 <= a <= 0x4A100BFF for a in four}) == 2 else str(four))
    print("%d passed, %d failed" % (passed, failed))
    return failed != 0


sys.exit(main())
