#!/usr/bin/env python3
"""The listing program on the inputs at its edges: tests/listing.py

Each input is built here, so what the listing has to say is known from how it was built. Runs
target/bin/tileparts (`tools/proved.sh tileparts` makes it). Status 1 if a listing differs, 2 if there is none to run.
"""

import struct
import subprocess
import sys
from pathlib import Path

ROOT = Path(__file__).resolve().parent.parent
PROGRAM = ROOT / "target/bin/tileparts"
LONGEST = 65_536
ROWS = 2_048

SOC = b"\xff\x4f"
EOC = b"\xff\xd9"
SIGNATURE = bytes.fromhex("0000000c6a5020200d0a870a")


def segment(marker, body):
    return struct.pack(">HH", marker, 2 + len(body)) + body


def siz():
    return segment(0xFF51, struct.pack(">H8IH3B", 0, 10, 6, 0, 0, 4, 4, 0, 0, 1, 7, 1, 1))


def tlm(lengths):
    """ST 0, SP 0: an entry is a length of 2 bytes."""
    return segment(0xFF55, bytes([0, 0]) + struct.pack(f">{len(lengths)}H", *lengths))


def part(tile, size):
    return struct.pack(">HHHIBB", 0xFF90, 10, tile, size, 0, 1) + bytes(size - 12)


def listing(start, codestream, header, decode_header, entries, parts, last="end"):
    lines = [f"codestream {start} {codestream}", f"header {header} {decode_header}"]
    for word, rows in ("tlm", entries), ("part", parts):
        lines += [f"{word} {tile} {at} {size}" for tile, at, size in rows]
    return "\n".join([*lines, last, ""])


def rows(at, sizes, tile=lambda number: number):
    """A row for each tile-part, one behind the other."""
    listed = []
    for number, size in enumerate(sizes):
        listed.append((tile(number), at, size))
        at += size
    return listed


def codestream(entries, sizes):
    header = SOC + siz()
    table = tlm(entries) if entries else b""
    parts = b"".join(part(number, size) for number, size in enumerate(sizes))
    return header, header + table + parts + EOC


def told(entries, sizes, before=b""):
    """An accepted codestream behind some bytes of the file, and its listing."""
    header, whole = codestream(entries, sizes)
    first = len(whole) - len(EOC) - sum(sizes)
    lines = listing(len(before), len(whole), first, len(header), rows(first, entries), rows(first, sizes))
    return before + whole, lines


def of_size(size):
    """One part, as long as makes the file that long."""
    filled, _ = told([], [12])
    return told([], [12 + size - len(filled)])


def refused(first_lines, number, place):
    return "".join(f"{line}\n" for line in first_lines) + f"refused {number} {place}\n"


def cases():
    sample = (ROOT / "crates/tileparts/stdin").read_bytes()
    yield "sample A", sample, (ROOT / "crates/tileparts/stdout").read_text()
    yield "no input", b"", refused([], 11, 0)
    yield "one byte", SOC[:1], refused([], 11, 0)
    yield "no signature", bytes(LONGEST), refused([], 12, 0)
    yield "the longest", *of_size(LONGEST)
    yield "one byte shorter", *of_size(LONGEST - 1)
    yield "one byte longer", of_size(LONGEST + 1)[0], refused([], 23, LONGEST)
    yield "four megabytes", bytes(4 << 20), refused([], 23, LONGEST)
    yield "in a JP2 box", *told([14, 16], [14, 16], SIGNATURE + b"\0\0\0\0jp2c")
    yield "a full table", *told([], [14] * ROWS)
    header, whole = codestream([], [14] * (ROWS + 1))
    first = [f"codestream 0 {len(whole)}", f"header {len(header)} {len(header)}"]
    yield "a part more than the table has room for", whole, refused(first, 18, ROWS + 1)
    yield "a full TLM table", *told([14] * ROWS, [14])
    header, whole = codestream([14] * (ROWS + 1), [14])
    yield "a TLM entry more", whole, refused([f"codestream 0 {len(whole)}"], 18, ROWS + 1)
    header, whole = codestream([], [14, 14])
    cut = whole[: len(header) + 14 + 11]
    lines = [f"codestream 0 {len(cut)}", f"header {len(header)} {len(header)}"]
    yield "the second part cut", cut, refused(lines, 7, len(header) + 14)


def run(data, piece):
    """Standard output for the input, written in pieces of that size."""
    program = subprocess.Popen(PROGRAM, stdin=subprocess.PIPE, stdout=subprocess.PIPE, stderr=subprocess.STDOUT)
    try:
        for at in range(0, len(data), piece):
            program.stdin.write(data[at : at + piece])
            program.stdin.flush()
        program.stdin.close()
    except BrokenPipeError:
        pass  # it has read enough
    wrote = program.stdout.read().decode()
    return wrote if program.wait() == 0 else f"status {program.returncode}\n{wrote}"


def main():
    if not PROGRAM.exists():
        print(f"{PROGRAM} is not there: bash tools/proved.sh tileparts", file=sys.stderr)
        return 2
    differed = count = 0
    for name, data, wanted in cases():
        # whole, in short pieces, and byte by byte where that is quick
        for piece in [LONGEST * 64, 4_095] + [1] * (len(data) < 1_000):
            count += 1
            wrote = run(data, piece)
            if wrote != wanted:
                differed += 1
                print(f"{name}, in pieces of {piece}: {wrote[-300:]!r}, and not {wanted[-300:]!r}")
    print(f"listing: {count} runs, {differed} differed")
    return int(differed > 0)


if __name__ == "__main__":
    sys.exit(main())
