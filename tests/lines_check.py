#!/usr/bin/env python3
"""No line of a source, of code, definition or proof, has more than 140 characters. Prints those that have, and exits with 1."""
import pathlib
import sys

TOP = pathlib.Path(__file__).resolve().parent.parent
MOST = 140
long = [
    f"{path.relative_to(TOP)}:{number}: {len(line)} characters"
    for part in ("src", "specs", "proofs")
    for path in sorted(TOP.glob(f"crates/*/{part}/**/*"))
    if path.suffix in (".rt", ".antt")
    for number, line in enumerate(path.read_text(encoding="utf-8").splitlines(), 1)
    if len(line) > MOST
]
print("\n".join(long) or f"no line has more than {MOST} characters")
sys.exit(1 if long else 0)
