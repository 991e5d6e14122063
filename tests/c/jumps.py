#!/usr/bin/env python3
"""The compiled rules jump: in the archive none of the walks calls itself or another walk, so no chain grows the stack.
usage: jumps.py ARCHIVE [OBJDUMP]. Last line 'N passed, M failed'."""
import re
import subprocess
import sys

WALKS = ["start_rule", "middle_rule", "receive_rule", "release_from", "take_chain", "walk_from", "note_from"]


def name_of(symbol):
    """The function's own name: the symbol without its crate and without an offset."""
    return symbol.split("+")[0].split("-0x")[0].split("::")[-1]


def calls_of(text):
    """Pairs (caller, callee) of every call in a disassembly with relocations."""
    pairs, here, pending = [], None, False
    for line in text.splitlines():
        start = re.match(r"^[0-9a-f]+ <(.*)>:$", line)
        if start:
            here, pending = name_of(start.group(1)), False
            continue
        moved = re.search(r"R_\S+\s+(\S+)", line)
        if moved:
            if pending:
                pairs.append((here, name_of(moved.group(1))))
            pending = False
            continue
        call = re.search(r"\s(call\S*|blx?)\s+(.*)$", line)
        pending = False
        if call:
            inner = re.search(r"<([^>]*)>", call.group(2))
            if inner is None:
                pairs.append((here, "a register"))
            else:
                pending = True
    return pairs, set(re.findall(r"^[0-9a-f]+ <(?:.*::)?([^>]*)>:$", text, re.M))


def main():
    archive = sys.argv[1]
    tool = sys.argv[2] if len(sys.argv) > 2 else "objdump"
    text = subprocess.run([tool, "-dr", archive], check=True, capture_output=True, text=True).stdout
    pairs, present = calls_of(text)
    passed = failed = 0
    for walk in WALKS:
        bad = [f"{a} calls {b}" for a, b in pairs if (a == walk and b in WALKS + ["a register"]) or (b == walk and a in WALKS)]
        where = "a function of its own" if walk in present else "compiled into its caller"
        if bad:
            failed += 1
            print(f"FAILED {walk}: {', '.join(sorted(set(bad)))}")
        else:
            passed += 1
            print(f"ok {walk}: {where}, no call among the walks")
    # a cycle of calls anywhere would grow the stack as well
    reach = {a: {b for c, b in pairs if c == a} for a, _ in pairs}
    for _ in reach:
        for a in reach:
            reach[a] |= set().union(*(reach.get(b, set()) for b in reach[a]), set())
    cycles = sorted(a for a in reach if a in reach[a])
    if cycles or not pairs:
        failed += 1
        print(f"FAILED functions that reach themselves by calls: {cycles}" if cycles else "FAILED no call was found at all")
    else:
        passed += 1
        print(f"ok no function reaches itself by calls ({len(pairs)} calls)")
    print(f"{passed} passed, {failed} failed")
    return failed != 0


sys.exit(main())
