#!/usr/bin/env python3
"""Makes what the gate expects of listings, from the original's lookups (program `oracle`) and document 01 "Lister".

    lister.py program CRATE ORACLE   # CRATE has stdin and data/cache.sym, and gets stdout: what the lister must write
    lister.py cases CRATE ORACLE     # CRATE gets data/listing.cases and stdout; data/cache.sym of crates/lister, beside it, is the file most cases use

A good line's output is what the original's `list` says, a bad line's is ? and its number modulo 2^32. A refused file's number is the original's by `parse`,
or 12 where its starts do not ascend; 11 and 20 are document 01's. A case is a record of a container (oracle/FORMAT.md): whether the file is too long, the
number of the first line, the file's bytes, the input's (32 bits each); then the file, the input, and what is expected.
"""
import os
import re
import struct
import subprocess
import sys
import tempfile

MAX = 2**32 - 1


def ask(oracle, file, commands):
    """The oracle's answers to commands on a file."""
    with tempfile.NamedTemporaryFile() as cache:
        cache.write(file)
        cache.flush()
        script = "load %s\n%s" % (cache.name, "".join(c + "\n" for c in commands))
        said = subprocess.run([oracle], input=script.encode(), capture_output=True, check=True).stdout
    loaded, answers = said.split(b"\n", 1)
    assert loaded.startswith(b"ok"), said
    return answers


def lines_of(data):
    """"bytes after the last 0A, if any, are a line"."""
    lines = data.split(b"\n")
    return lines if lines[-1] else lines[:-1]


def is_good(line):
    return re.fullmatch(rb"[0-9A-Fa-f]{1,16}", line) is not None


def listing(oracle, file, data, number=1):
    """What is printed for a file that is not refused."""
    lines = lines_of(data)
    good = [line for line in lines if is_good(line)]
    answers = ask(oracle, file, ["list 0x" + line.decode() for line in good]).splitlines(keepends=True)
    # one lookup's lines: the first has frame number 0, or says that there is none
    lookups = []
    for answer in answers:
        if answer.split()[1] in (b"00000000", b"FFFFFFFF"):
            lookups.append(b"")
        lookups[-1] += answer
    assert len(lookups) == len(good)
    out = b""
    for at, line in enumerate(lines):
        out += lookups.pop(0) if is_good(line) else b"? %08X\n" % ((number + at) % 2**32)
    return out


def refusal(oracle, file):
    """The number that a file is refused with; 0 if it is not."""
    said = ask(oracle, file, ["parse"]).split()
    if said[0] == b"error":
        return int(said[1])
    if len(file) >= 66 and struct.unpack_from("<H", file, 64)[0] == 1:
        return 11
    return 12 if b"unordered" in said else 0


def program(crate, oracle):
    with open(crate + "/stdin", "rb") as f:
        data = f.read()
    with open(crate + "/data/cache.sym", "rb") as f:
        file = f.read()
    with open(crate + "/stdout", "wb") as out:
        out.write(listing(oracle, file, data))


def made_up(callers, starts=(0x1000,)):
    """A file without files and texts, with a function, and a location for each caller; the last of them belong to the starts."""
    rows = b"".join(struct.pack("<4I", MAX, 7 + i, 0, caller) for i, caller in enumerate(callers))
    head = struct.pack("<4sI32s6IH14s", b"SYMC", 9, bytes(32), 0, 0, 1, len(callers), len(starts), 0, 0, bytes(14))
    body = head + struct.pack("<4I", MAX, MAX, 0x1000, 2) + rows + b"".join(struct.pack("<I", s) for s in starts)
    return body + bytes(-len(body) % 8)


def all_cases(worked, stdin):
    def changed(at, new):
        return worked[:at] + new + worked[at + len(new):]

    two = b"1003\n1010\n"
    yield "the example of document 01", worked, two
    yield "the lister's stored input", worked, stdin
    yield "no input", worked, b""
    yield "a last line without 0A, good", worked, b"1003\n1008"
    yield "a last line without 0A, bad", worked, b"1003\nx"
    yield "empty lines, and a last one", worked, b"\n\n1003\n\n"
    yield "digits of either case", worked, b"00000000000abcdef\nabcdef\nABCDEF\naBcDeF\n1003\n"
    yield "16 and 17 digits", worked, b"0000000000001003\n00000000000001003\nffffffffffffffff\nfffffffffffffffff\n"
    yield "NUL, CR, blanks, bytes next to the digits", worked, b"10\x0003\n1003\r\n 1003\n1003 \n/\n:\n@\nG\n`\ng\n\xff\n0x10\n-1\n+1\n"
    yield "every boundary", worked, b"".join(b"%x\n" % a for a in (0, 0xFFF, 0x1000, 0x1001, 0x1002, 0x1005, 0x1006, 0x1007, 0x1008, 0x100F, 0x1010, MAX, MAX + 1))
    yield "a long chain", made_up([MAX] + list(range(300)), (0x1000,)), b"1000\nfff\n1001\n"
    yield "a chain that comes back", made_up([2, 0, 1], (0x1000,)), b"1000\n1000\n"
    yield "a chain that leaves the table", made_up([77, 0, 1], (0x1000,)), b"1000\n"
    yield "the empty mapping later in a chain", changed(204, b"\x05"), two
    yield "line numbers that wrap", worked, b"x\ny\n1003\nz\n\n1010\n?\n", 2**32 - 2
    yield "line numbers that wrap at a last line", worked, b"\nlast", 2**32 - 1
    yield "an empty file", b"", two
    yield "7 bytes", worked[:7], two
    yield "magic reversed", changed(0, worked[3::-1]), two
    yield "another magic", changed(0, b"X"), two
    yield "version 8", changed(4, b"\x08"), two
    yield "the header cut", worked[:79], two
    yield "the files cut", worked[:127], two
    yield "the functions cut", worked[:159], two
    yield "the locations cut", worked[:255], two
    yield "the ranges cut", worked[:275], two
    yield "more ranges than locations", changed(56, b"\x07"), two
    yield "the padding cut", worked[:279], two
    yield "the texts cut", worked[:304], two
    yield "variable header 1", changed(64, b"\x01"), two
    yield "variable header 1, and starts that do not ascend", changed(260, b"\x00\x10")[:64] + b"\x01" + changed(260, b"\x00\x10")[65:], two
    yield "starts that do not ascend", changed(260, b"\x00\x10"), two
    yield "starts that do not ascend, no input", changed(260, b"\x00\x10"), b""
    yield "bytes after the texts", worked + b"more", two


def cases(crate, oracle):
    with open(crate + "/../lister/data/cache.sym", "rb") as f:
        worked = f.read()
    with open(crate + "/../lister/stdin", "rb") as f:
        stdin = f.read()
    os.makedirs(crate + "/data", exist_ok=True)
    with open(crate + "/data/listing.cases", "wb") as out, open(crate + "/stdout", "w") as said:

        def put(file, data, number, expected, too_long):
            body = struct.pack("<4I", too_long, number, len(file), len(data)) + file + data + expected
            assert len(body) <= 65536
            out.write(struct.pack("<I", len(body)) + body)
            said.write("%d runs, 0 differ\n" % (1 if expected.startswith(b"REFUSED") else 2 * len(data) + 125))

        for name, file, data, *number in all_cases(worked, stdin):
            number = number[0] if number else 1
            refused = refusal(oracle, file)
            expected = b"REFUSED %02d\n" % refused if refused else listing(oracle, file, data, number)
            put(file, data, number, expected, 0)
        # too long, whatever the bytes are that fit
        put(worked, b"1003\n", 1, b"REFUSED 20\n", 1)
        put(b"", b"", 1, b"REFUSED 20\n", 1)


{"program": program, "cases": cases}[sys.argv[1]](*sys.argv[2:])
