#!/usr/bin/env python3
"""Bench files as readable text, and back.

    benchtext.py unpack < file.bench > file.txt
    benchtext.py pack   < file.txt   > file.bench

One record a line:

    RM 0 1 2 3                    the kinds, decimal
    GW 4A100A04 00000000          address and value, hexadecimal
    KC 1 2                        block and kind, decimal
    FR 60                         length, decimal
    ST transmit 3                 engine and count; engines: reset, transmit, receive,
                                  transmit-teardown, receive-teardown
    raw 5858                      bytes that are no record, hexadecimal

What follows a # is a comment; empty lines are passed over. unpack gives the good records
and, where the file is damaged, one raw line with the bytes from the first bad record to
the end, so that pack gives back the very same file.
"""

import struct
import sys

ENGINES = ["reset", "transmit", "receive", "transmit-teardown", "receive-teardown"]
MAX_BLOCKS = 16384


def read_record(data, at, first):
    """The line of the record at this offset and the offset after it; None where it is
    unknown, cut or unfit."""
    mark, fields = data[at:at + 2], data[at + 2:at + 10]
    if mark == b"RM" and first:
        if len(fields) < 2:
            return None
        (n,) = struct.unpack("<H", fields[:2])
        kinds = data[at + 4:at + 4 + n]
        if not 1 <= n <= MAX_BLOCKS or len(kinds) < n or max(kinds) > 4:
            return None
        return " ".join(["RM"] + [str(k) for k in kinds]), at + 4 + n
    if first:
        return None
    if mark == b"GW" and len(fields) >= 8:
        return "GW %08X %08X" % struct.unpack("<II", fields[:8]), at + 10
    if mark == b"KC" and len(fields) >= 3:
        return "KC %d %d" % struct.unpack("<HB", fields[:3]), at + 5
    if mark == b"FR" and len(fields) >= 2:
        return "FR %d" % struct.unpack("<H", fields[:2]), at + 4
    if mark == b"ST" and len(fields) >= 2:
        engine, count = fields[0], fields[1]
        if engine < len(ENGINES) and count > 0:
            return "ST %s %d" % (ENGINES[engine], count), at + 4
    return None


def unpack(data):
    lines, at = [], 0
    while at < len(data):
        found = read_record(data, at, at == 0)
        if found is None:
            lines.append("raw " + data[at:].hex().upper())
            break
        line, at = found
        lines.append(line)
    return "".join(line + "\n" for line in lines)


class Mistake(Exception):
    pass


def number(word, limit, base=10):
    try:
        value = int(word, base)
    except ValueError:
        raise Mistake("%r is no number" % word)
    if not 0 <= value <= limit:
        raise Mistake("%r does not fit" % word)
    return value


def pack_line(line):
    words = line.split("#", 1)[0].split()
    if not words:
        return b""
    mark, fields = words[0], words[1:]
    if mark == "raw":
        try:
            return bytes.fromhex("".join(fields))
        except ValueError:
            raise Mistake("raw wants hexadecimal digits, two a byte")
    counts = {"GW": 2, "KC": 2, "FR": 1, "ST": 2}
    if mark in counts and len(fields) != counts[mark]:
        raise Mistake("%s takes %d fields" % (mark, counts[mark]))
    if mark == "RM":
        kinds = bytes(number(f, 255) for f in fields)
        if len(kinds) > 65535:
            raise Mistake("too many kinds")
        return b"RM" + struct.pack("<H", len(kinds)) + kinds
    if mark == "GW":
        return b"GW" + struct.pack("<II", *(number(f, 0xFFFFFFFF, 16) for f in fields))
    if mark == "KC":
        return b"KC" + struct.pack("<HB", number(fields[0], 65535), number(fields[1], 255))
    if mark == "FR":
        return b"FR" + struct.pack("<H", number(fields[0], 65535))
    if mark == "ST":
        if fields[0] in ENGINES:
            engine = ENGINES.index(fields[0])
        else:
            engine = number(fields[0], 255)
        return b"ST" + bytes([engine, number(fields[1], 255)])
    raise Mistake("unknown line: %s" % mark)


def pack(text):
    out = bytearray()
    for i, line in enumerate(text.splitlines(), 1):
        try:
            out += pack_line(line)
        except Mistake as mistake:
            raise SystemExit("line %d: %s" % (i, mistake))
    return bytes(out)


def main(arguments):
    if arguments == ["pack"]:
        sys.stdout.buffer.write(pack(sys.stdin.read()))
    elif arguments == ["unpack"]:
        sys.stdout.write(unpack(sys.stdin.buffer.read()))
    else:
        raise SystemExit("usage: benchtext.py pack|unpack < in > out")


if __name__ == "__main__":
    main(sys.argv[1:])
