#!/usr/bin/env python3
"""tools/benchtext.py: pack(unpack(x)) == x for every x, and the lines read as written. A batch of random files is one test.

    python3 tests/benchtext_test.py [FILE.bench ..]
"""

import os
import random
import struct
import subprocess
import sys

HERE = os.path.dirname(os.path.abspath(__file__))
TOOL = os.path.join(HERE, "..", "tools", "benchtext.py")
sys.path.insert(0, os.path.dirname(TOOL))
sys.dont_write_bytecode = True
import benchtext  # noqa: E402

passed = failed = 0


def check(name, ok):
    global passed, failed
    if ok:
        passed += 1
    else:
        failed += 1
        print("FAILED", name)


def some_file(rng):
    n = rng.choice([1, 4, 4, 7, 300, 0, 16384, 16385]) if rng.random() < 0.3 else rng.randint(1, 9)
    top = 4 if rng.random() < 0.95 else 9
    out = b"RM" + struct.pack("<H", n) + bytes(rng.randint(0, top) for _ in range(n))
    for _ in range(rng.randint(0, 60)):
        kind = rng.randrange(40)
        if kind < 20:
            out += b"GW" + struct.pack("<II", rng.getrandbits(32), rng.getrandbits(32))
        elif kind < 25:
            out += b"KC" + struct.pack("<HB", rng.getrandbits(16), rng.getrandbits(8))
        elif kind < 30:
            out += b"FR" + struct.pack("<H", rng.getrandbits(16))
        elif kind < 39:
            out += b"ST" + bytes([rng.randrange(5), rng.randint(1, 255)])
        else:
            out += rng.choice([b"XX", b"ST\x05\x01", b"ST\x01\x00", b"RM\x01\x00\x01", b"G", b"#\n"])
    if rng.random() < 0.3:
        out = out[:rng.randint(0, len(out))]
    if rng.random() < 0.2:
        out = bytearray(out)
        for _ in range(3):
            if out:
                out[rng.randrange(len(out))] = rng.getrandbits(8)
        out = bytes(out)
    return out


def main():
    example = "RM 0 1 2 3\nGW 4A100A04 00000000\nKC 1 2\n"
    data = b"RM\x04\x00\x00\x01\x02\x03GW\x04\x0a\x10\x4a\x00\x00\x00\x00KC\x01\x00\x02"
    check("pack 01's example", benchtext.pack(example) == data)
    check("unpack 01's example", benchtext.unpack(data) == example)
    commented = "# a comment\n\nRM 0 1 2 3 # kinds\n GW 4a100a04 0\nKC 1 2\n"
    check("comments and empty lines", benchtext.pack(commented) == data)
    steps = "RM 1\nST reset 1\nST transmit 255\nST receive 3\nST transmit-teardown 4\nST receive-teardown 5\nFR 65535\n"
    check("every engine", benchtext.unpack(benchtext.pack(steps)) == steps)
    check("damaged", benchtext.unpack(data + b"XXKC") == example + "raw 58584B43\n")
    check("empty", benchtext.unpack(b"") == "" and benchtext.pack("") == b"")
    for line in ["GW 1", "GW 1 2 3", "KC 1 256", "FR 65536", "ST engine 1", "raw 5", "XX 1", "RM 256"]:
        try:
            benchtext.pack(line)
            check("mistake " + line, False)
        except SystemExit:
            check("mistake " + line, True)

    rng = random.Random(1)

    def round_trips(name, files):
        """A batch of random files is one test."""
        files = list(files)
        wrong = [x.hex() for x in files if benchtext.pack(benchtext.unpack(x)) != x]
        check("round trips of %d %s: %s" % (len(files), name, wrong[:1]), not wrong)

    round_trips("generated files", (some_file(rng) for _ in range(1500)))
    round_trips("files of noise", (rng.randbytes(rng.randint(0, 40)) for _ in range(500)))
    for path in sys.argv[1:]:
        with open(path, "rb") as f:
            x = f.read()
        check(path, benchtext.pack(benchtext.unpack(x)) == x)

    def tool(verb, given):
        return subprocess.run([sys.executable, TOOL, verb], input=given, stdout=subprocess.PIPE, check=True).stdout

    files = [some_file(rng) for _ in range(5)]
    check("as a program", all(tool("pack", tool("unpack", x)) == x for x in files))
    print("%d passed, %d failed" % (passed, failed))
    return 1 if failed else 0


if __name__ == "__main__":
    sys.exit(main())
