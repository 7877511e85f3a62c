#!/usr/bin/env python3
"""The command, as the desk runs it: tests/command.py [--bin DIR] [NAME..]

Runs `winterhasp` on files that are built here, bare and inside a JP2, on files of OpenJPEG, Grok and OpenJPH, and on damaged ones, and
holds standard output, standard error, the status and the files that are written to what they have to be. What refusals say is
taken from the table of docs/RULES.md; what `list` prints is held to the listing program too, byte for byte. With names only the
groups of these names are run. Status 1 if a run differs, 2 if the runs can't be made.
"""

import argparse
import concurrent.futures
import itertools
import json
import os
import re
import resource
import shutil
import struct
import subprocess
import sys
import tempfile
import time
import xml.etree.ElementTree as xml
from collections import Counter
from pathlib import Path
from typing import NamedTuple

import packed
from boxes import LONG, OPEN, Box, Entry, as_json, as_lines, header, laid, listed
from listing import EOC, LONGEST, PROGRAM as LISTING, ROOT, SIGNATURE, SOC, codestream, listing, part, rows, segment, siz, tlm
from refusals import RULES, refusals

WORKERS = 2
OUT = "out.j2k"
COMMANDS = ["list", "check", "show", "boxes", "tile", "grid", "completions"]
NOT_THERE = "No such file or directory (os error 2)"
A_DIRECTORY = "Is a directory (os error 21)"
DEVICE_FULL = "No space left on device (os error 28)"
TOO_LARGE = "File too large (os error 27)"
CHANGED = "the file changed while it was read: wait until nobody writes to it, then try again"
SAME = "this is the file that is read, and it is not written over"
NOT_AN_INDEX = "a number from 0 to 65535 is needed, in plain digits"
# The first is the default.
IN_PLACE, ANNEX_B, ORIGINAL = RULES_OF_TILES = ["in-place", "annex-b", "original"]

# The first is the default.
RESTARTING, CARRIED_ON = NUMBERINGS = ["restarting", "carried-on"]

# The first is the default.
OLDER, NEWER = EDITIONS = ["older", "newer"]
NO_EDITION = {"name": OLDER, "cap": None, "newer_refuses": None}

# What was in OUT before, where something was.
KEPT = b"kept"


class Case(NamedTuple):
    words: list
    status: int = 0
    out: str = ""
    error: str = ""
    # What OUT holds afterwards; nothing if it is not made.
    made: bytes = None


# Words


def about(file, what):
    return f"winterhasp: {file}: {what}\n"


WORDS = {refusal.number: refusal for refusal in refusals((ROOT / RULES).read_text())[0]}


def sentence(number, place, start=0):
    """A refusal in words, of a file whose codestream starts there."""
    words = WORDS[number]
    in_file = f", byte {start + place} of the file" if words.origin == "codestream" else ""
    return f"{words.wrong}, at byte {place} of the {words.origin}{in_file} (refusal {number}); {words.remedy}"


def refused_line(number, place):
    return f"{number} {place}: {WORDS[number].wrong}; {WORDS[number].remedy}"


def refused_json(number, place, start=0):
    words = WORDS[number]
    in_file = start + place if words.origin == "codestream" else place
    found = {"number": number, "name": words.name, "place": place, "counts_from": words.origin, "file_offset": in_file}
    return found | {"wrong": words.wrong, "remedy": words.remedy}


def of_components(out):
    """What `show` tells of components and of a tile: the lines behind those of the tiles, and before the header's or others."""
    lines = out.splitlines()
    behind = ("header", "fetch", "tlm ", "tile-parts", "scan ", "refused")
    started = [line.startswith("tiles ") for line in lines]
    lines = lines[started.index(True) + 1 :] if True in started else []
    return lines[: next((at for at, line in enumerate(lines) if line.startswith(behind)), len(lines))]


def measured(area, components):
    """What JSON has of them in an area, by the standard's own sums."""
    names = ["x0", "y0", "x1", "y1"]
    described = [
        {"bits": depth % 128 + 1, "signed": depth >= 128, "xrsiz": dx, "yrsiz": dy}
        | {name: up(edge, apart) for name, edge, apart in zip(names, area, (dx, dy, dx, dy))}
        for depth, dx, dy in components
    ]
    return {"area": dict(zip(names, area)), "count": len(components), "described": described}


# Files

# Sample A
SAMPLE = (ROOT / "crates/tileparts/stdin").read_bytes()


def box(kind, content):
    return struct.pack(">I4s", 8 + len(content), kind) + content


# A file type box before the codestream and an unknown one behind it.
BEFORE = SIGNATURE + box(b"ftyp", b"jp2 \0\0\0\0jp2 ")
START = len(BEFORE) + 8


def jp2(content):
    return BEFORE + box(b"jp2c", content) + box(b"free", b"\xff\x90")


def size_segment(size, tile, origin=(0, 0), tile_origin=(0, 0), components=((7, 1, 1),)):
    numbers = struct.pack(">H8IH", 0, *size, *origin, *tile, *tile_origin, len(components))
    return segment(0xFF51, numbers + b"".join(struct.pack("3B", *each) for each in components))


def with_header(*segments, parts):
    return SOC + b"".join(segments) + parts + EOC


def numbered(tile, number, count):
    """A tile-part of 14 bytes with these in its SOT."""
    return part(tile, 14)[:10] + bytes([number, count]) + bytes(2)


def with_segments(segments):
    """A tile-part of tile 0, with these behind its SOT."""
    first = part(0, 14)
    return first[:6] + struct.pack(">I", len(first) + len(segments)) + first[10:12] + segments + b"\xff\x93"


# Length tables


def table(number, entries, index=1, length=2):
    """A TLM segment of that number (Ztlm): entries of a tile, in so many bytes, and a length."""
    form = 16 * index + 64 * (length == 4)
    in_bytes = lambda number, count: number.to_bytes(8, "big")[8 - count :]
    listed = b"".join(in_bytes(tile, index) + in_bytes(size, length) for tile, size in entries)
    return segment(0xFF55, bytes([number, form]) + listed)


def with_tables(*segments, parts, end=EOC):
    """A codestream with these TLM segments, of tile-parts of a tile and a length."""
    return SOC + siz() + b"".join(segments) + b"".join(part(*each) for each in parts) + end


def left_open(content, size):
    """The same with Psot 0 in its last tile-part, which starts so many bytes before the end."""
    at = len(content) - size + 6
    return content[:at] + bytes(4) + content[at + 4 :]


# Tiles by each rule, in a codestream without TLM whose SIZ is whole

FIELDS = ["Xsiz", "Ysiz", "XOsiz", "YOsiz", "XTsiz", "YTsiz", "XTOsiz", "YTOsiz"]


def edited(content, **fields):
    """A codestream with other numbers in SIZ."""
    for name, number in fields.items():
        at = 8 + 4 * FIELDS.index(name)
        content = content[:at] + struct.pack(">I", number) + content[at + 4 :]
    return content


def up(number, divisor):
    return -(-number // divisor)


def annex_b(axes, tile):
    """((x0, x1), (y0, y1)) of a tile by the standard, or the number of the refusal."""
    for end, origin, size, first in axes:
        if not (first <= origin < end and size >= 1 and first + size > origin):
            return 30
    columns, rows = (up(end - first, size) for end, _, size, first in axes)
    if tile >= columns * rows:
        return 31
    places = zip(axes, (tile % columns, tile // columns))
    return [(max(first + at * size, origin), min(first + (at + 1) * size, end)) for (end, origin, size, first), at in places]


def original(axes, tile):
    """The same by the rule of the original, in 32 bits."""
    (x_end, x_origin, x_size, _), _ = axes
    if x_end <= x_origin or x_size == 0:
        return 10
    columns = up(x_end - x_origin, x_size)
    found = []
    for (end, origin, size, _), at in zip(axes, (tile % columns, tile // columns)):
        start = origin + at * size
        if start > end or start + size >= 2**32:
            return 10
        found.append((start, min(start + size, end)))
    return found


def cut_of(content, tile, rule):
    """The codestream that a tile has to be cut to, or the number of the refusal."""
    numbers = struct.unpack_from(">8I", content, 8)
    area = {IN_PLACE: annex_b, ANNEX_B: annex_b, ORIGINAL: original}[rule]([numbers[0::2], numbers[1::2]], tile)
    if isinstance(area, int):
        return area
    first = content.index(b"\xff\x90\0\x0a")
    header, at, parts = content[:first], first, b""
    width, height = (end - start for start, end in area)
    if rule == IN_PLACE:
        (x0, x1), (y0, y1) = area
        header = edited(header, **dict(zip(FIELDS, [x1, y1, x0, y0, width, height, x0, y0])))
    elif (width, height) != numbers[4:6]:
        header = edited(header, **dict(zip(FIELDS, [width, height, 0, 0, width, height, 0, 0])))
    while content[at : at + 2] != EOC:
        index, length = struct.unpack_from(">HI", content, at + 4)
        if index == tile:
            parts += content[at : at + 4] + bytes(2) + content[at + 6 : at + length]
        at += length
    return header + parts + EOC


# What is told of a length table: a word, a difference, or a refusal's number and place

PASS, NO_TABLE, UNREAD = "pass", "no length table", "unread"


class Differs(NamedTuple):
    number: int
    offset: int
    # A tile and a length, or nothing.
    listed: tuple
    standing: tuple
    eoc: bool = False


EOC_COUNTED = (
    ": they differ by EOC's 2 bytes alone, which the standard's table leaves out, and which the scan, as the ported program, counts, "
    "since the last tile-part says no length (Psot 0)"
)


def check_text(told, start=0):
    """The line of a file, behind its name."""
    if isinstance(told, Differs):
        listed, standing = ("tile {} with {} bytes".format(*each) if each else "nothing" for each in (told.listed, told.standing))
        place = f"byte {told.offset} of the codestream, byte {start + told.offset} of the file"
        why = {told.listed: ": an entry is missing", told.standing: ": the entry is surplus"}.get(None, "")
        return f"differs at {told.number}: the table lists {listed}, and {standing} stands at {place}{EOC_COUNTED if told.eoc else why}"
    return told if isinstance(told, str) else f"refused {refused_line(*told)}"


def check_json(told, start=0):
    """What JSON has behind the name."""
    if isinstance(told, Differs):
        listed, standing = (each and dict(zip(["tile", "length"], each)) for each in (told.listed, told.standing))
        places = {"number": told.number, "offset": told.offset, "file_offset": start + told.offset}
        return {"verdict": "differs", "differs": places | {"listed": listed, "standing": standing, "eoc_counted": told.eoc}}
    return {"verdict": told} if isinstance(told, str) else {"verdict": "refused", "refused": refused_json(*told, start)}


def counted(passed=0, differ=0, without=0, refused=0, unread=0):
    """What standard error hears last of several files."""
    kinds = f"{passed} pass, {differ} differ, {without} without a length table, {refused} refused, {unread} not read"
    return f"winterhasp: {passed + differ + without + refused + unread} files: {kinds}\n"


def compared(listed, standing, first):
    """What is told of a table of a tile and a length each beside the tile-parts from there on: where the first differs."""
    at = first
    for number, (entry, there) in enumerate(itertools.zip_longest(listed, standing)):
        if entry != there:
            return Differs(number, at, entry, there) if listed else NO_TABLE
        at += there[1]
    return PASS


# Boxes: trees of them, which are accepted, and bytes that are refused, by a number and a place

SIGNED = Box(b"jP  ", SIGNATURE[8:])
FILE_TYPE = Box(b"ftyp", b"jp2 \0\0\0\0jp2 ")
IMAGE_HEADER = Box(b"ihdr", struct.pack(">IIHBBBB", 6, 10, 1, 7, 7, 0, 0))
UUID = bytes(range(16))


def colour(method, rest=b""):
    return Box(b"colr", bytes([method, 0, 0]) + rest)


def enumerated(space):
    return colour(1, struct.pack(">I", space))


def resolution(kind, *numbers):
    """Numerator and denominator, the vertical ones first, and both exponents."""
    return Box(kind, struct.pack(">4H2b", *numbers))


def nested(kinds, inner):
    """Superboxes in each other, the first outermost."""
    for kind in reversed(kinds):
        inner = [Box(kind, inner)]
    return inner


# what stands in the README
FLIGHT = [
    SIGNED,
    FILE_TYPE,
    Box(b"jp2h", [IMAGE_HEADER, enumerated(17), Box(b"res ", [resolution(b"resc", 30_000, 254, 30_000, 254, 2, 2)])]),
    Box(b"xml ", b"<flight number='7'/>"),
    Box(b"jp2c", SAMPLE),
]
HEADER_BOXES = [
    IMAGE_HEADER,
    Box(b"bpcc", b"\7"),
    enumerated(16),
    Box(b"pclr", b"\0\1\1\7\0"),
    Box(b"cmap", bytes(4)),
    Box(b"cdef", bytes(8)),
    Box(b"res ", [resolution(b"resc", 300, 1, 600, 7, 2, -3), resolution(b"resd", 1, 2, 3, 4, -128, 127)]),
]
DEEPEST = [*[b"jp2h", b"res ", b"uinf"] * 2, b"jp2h"]
TREES = {
    "flight": FLIGHT,
    # every box of the standard, and one that is none
    "all": [
        SIGNED,
        FILE_TYPE,
        Box(b"jp2h", HEADER_BOXES),
        Box(b"jp2i", b"owner"),
        Box(b"xml ", b"<a/>"),
        Box(b"uuid", UUID + b"data"),
        Box(b"uinf", [Box(b"ulst", b"\0\1" + UUID), Box(b"url ", b"\0\0\0\0http://a.b/\0")]),
        Box(b"jp2c", SAMPLE),
        Box(b"free", b"\xff\x90"),
    ],
    "none": [],
    "one": [Box(b"free")],
    "deepest": nested(DEEPEST, [Box(b"xml ", b"<a/>"), Box(b"jp2h"), Box(b"free")]) + [Box(b"free")],
    "no-content": [Box(b"jp2h"), Box(b"res "), Box(b"uinf"), Box(b"colr"), Box(b"resc")],
    "types": [Box(kind) for kind in (b"a\0\xff\\", b"\n\r\t\x1b", b'"""\'', b"\x7f~ \x1f", b"\x80\xa9\xe4\xfe", b"    ", bytes(4), b"\\x0a")],
    # in another letter's case, or beside them
    "no-names": [Box(kind, bytes(10)) for kind in (b"JP2H", b"jp  ", b"Colr", b"res\0", b"rese", b"uuid"[::-1], b"asoc")],
    # what looks like boxes is not looked into
    "not-held": [Box(b"free", laid(FLIGHT)[0]), Box(b"jp2c", laid(FLIGHT)[0]), Box(b"asoc", laid([Box(b"jp2h")])[0])],
    "to-the-end": [SIGNED, Box(b"jp2c", SAMPLE, OPEN)],
    "to-the-end-none": [SIGNED, Box(b"jp2c", b"", OPEN)],
    "to-the-end-holds": [SIGNED, Box(b"jp2h", HEADER_BOXES, OPEN)],
    "long": [
        Box(b"free", b"abc", LONG),
        Box(b"jp2h", [IMAGE_HEADER, Box(b"colr", b"\1\0\0\0\0\0\x12", LONG), Box(b"res ", b"", LONG)], LONG),
        Box(b"free", b"", LONG),
        Box(b"jp2c", SAMPLE, LONG),
    ],
    "colours": [enumerated(space) for space in (0, 15, 16, 17, 18, 19, 2**32 - 1)]
    + [colour(method, b"\0\0\0\x10") for method in (0, 1, 2, 3, 4, 255)]
    + [Box(b"colr", b"\1\xff\xfe\0\0\0\x11\0\0\0\x12"[:size]) for size in range(12)]
    + [Box(b"colr", b"\2\0\0ICC"[:size]) for size in range(7)],
    "resolutions": [Box(kind, bytes(range(245, 256))[:size]) for kind in (b"resc", b"resd") for size in (0, 9, 10, 11)]
    + [resolution(b"resc", 0, 0, 0, 0, 0, 0), resolution(b"resd", 65_535, 1, 1, 65_535, -1, 1), Box(b"res\0", bytes(10))],
    "as-many-as-likely": [Box(b"free")] * 64,
    "one-more": [Box(b"free")] * 65,
    "thousands": [Box(b"uuid", UUID), Box(b"jp2h", [enumerated(16)])] * 2_000,
}

# a box whose length says so many bytes, with these behind its header
short = lambda length, kind=b"free", rest=b"": struct.pack(">I4s", length, kind) + rest
long = lambda length, kind=b"free", rest=b"": struct.pack(">I4sQ", 1, kind, length) + rest
# in a JP2 header, behind a box of 9 bytes
inside = lambda content: Box(b"jp2h", laid([Box(b"bpcc", b"\7")])[0] + content)
TOO_DEEP = laid(nested([*DEEPEST, b"res "], [Box(b"free")]))[0]
BOXES_REFUSED = {
    "cut-header": (SIGNATURE + short(1, rest=bytes(7)), 13, 12),
    "cut-header-alone": (short(1), 13, 0),
    "cut-header-inside": (laid([inside(short(1)), Box(b"free", bytes(100))])[0], 13, 17),
    "past-any-file": (SIGNATURE + long(2**64 - 12), 16, 12),
    "past-any-file-most": (SIGNATURE + long(2**64 - 1), 16, 12),
    "past-any-file-inside": (laid([inside(long(2**64 - 17))])[0], 16, 17),
    "past-the-file": (SIGNATURE + short(9), 27, 12),
    "past-the-file-long": (long(17), 27, 0),
    "past-the-file-most": (long(2**64 - 1), 27, 0),
    "past-the-file-holds": (SIGNATURE + short(17, b"jp2h", laid([Box(b"bpcc")])[0]), 27, 12),
    **{f"{left}-left": (SIGNATURE + bytes(left), 27, 12) for left in range(1, 8)},
    "past-its-box": (laid([inside(short(9)), Box(b"free", bytes(100))])[0], 27, 17),
    "past-its-box-long": (laid([inside(long(17)), Box(b"free", bytes(100))])[0], 27, 17),
    "left-in-its-box": (laid([inside(b"\0\0\0"), Box(b"free")])[0], 27, 17),
    "below-its-header": (SIGNATURE + short(7), 28, 12),
    "below-its-header-2": (SIGNATURE + short(2), 28, 12),
    "below-its-header-long": (SIGNATURE + long(15, rest=bytes(100)), 28, 12),
    "below-its-header-long-0": (SIGNATURE + long(0, rest=bytes(100)), 28, 12),
    "below-its-header-inside": (laid([inside(short(7)), Box(b"free")])[0], 28, 17),
    "0-inside": (laid([inside(short(0)), Box(b"free")])[0], 28, 17),
    "0-inside-last": (laid([inside(short(0, rest=bytes(9)))])[0], 28, 17),
    "too-deep": (TOO_DEEP, 29, 8 * 7),
    "too-deep-uinf": (laid(nested([*DEEPEST, b"uinf"], [Box(b"free")]))[0], 29, 8 * 7),
    # the first in the order of the file
    "both": (laid([inside(short(0)), Box(b"free")])[0] + short(7), 28, 17),
    "text": (b"<html></html>", 27, 0),
}
BARE_REMEDY = "the file is a bare codestream, which has no boxes: `winterhasp show` tells what it holds"
STARTS_BARE = "note: the file starts as a bare codestream does (FF4F), which has no boxes: what is listed may be none"


def boxes_text(name, size, entries):
    """What `boxes` prints of a file of that length."""
    count = ["boxes       none: the file is empty"] if not entries else [f"boxes       {len(entries)}", *as_lines(entries)]
    return "".join(f"{line}\n" for line in [f"file        {name}, {size} bytes", *count])


def boxes_json(name, size, entries):
    return {"file": name, "bytes": size, "status": "accepted", "boxes": [as_json(entry) for entry in entries], "refused": None}


# Tile-parts of sample A: tiles of 4 by 4, and of tile 5 the image has 2 by 2
SAMPLE_LISTED = [(0, 57, 14), (5, 71, 16)]
# what JSON has more of each, by TLM and by its SOT
NOT_NUMBERED, NUMBERED = {"tpsot": None, "tnsot": None}, {"tpsot": 0, "tnsot": 1}

HEADER, TWO_PARTS = codestream([], [14, 16])
SECOND = len(HEADER) + 14
LONG_LSOT = TWO_PARTS[: SECOND + 3] + b"\x0b" + TWO_PARTS[SECOND + 4 :]
CUT = TWO_PARTS[: -len(EOC) - 1]
SHORT_TLM = with_header(siz(), segment(0xFF55, b"\0"), parts=part(0, 14))
ODD_TLM = with_header(siz(), segment(0xFF55, b"\0\x30\0\0"), parts=part(0, 14))
BOTH_WRONG = with_header(size_segment((8, 8), (4, 4), components=[(7, 0, 1)]), segment(0xFF55, b"\0"), parts=part(0, 14))
NO_SIZ = with_header(segment(0xFF64, b"\0\1"), parts=part(0, 14))
# the second part says 30 of its 40 bytes
_, THREE_PARTS = codestream([], [14, 40, 14])
SHORT_PSOT = THREE_PARTS[: SECOND + 9] + b"\x1e" + THREE_PARTS[SECOND + 10 :]
# the last part says nothing of its length
OPEN = TWO_PARTS[: SECOND + 9] + b"\0" + TWO_PARTS[SECOND + 10 :]
# a grid by which the original's rule refuses a tile that is there
FAR = size_segment((2, 6), (2**32 - 1, 4), origin=(1, 0))
# the packet headers of both parts, of 5 bytes each; the same bytes in a comment, and behind the first SOT
PPM = segment(0xFF60, b"\0" + (struct.pack(">I", 5) + bytes(5)) * 2)
COMMENT = segment(0xFF64, b"\0\1" + PPM)
PPM_BEHIND = with_segments(PPM)
# three delimiters without FF
FILLER = bytes.fromhex("0030 4192 fe3f")
MANY = 12_000
COMPONENTS = [(7, 1, 1), (7, 2, 3), (7, 2, 3), (0x8B, 1, 1)]
MOST_COMPONENTS = 16_384
# no two beside each other are alike
ALL_DIFFERENT = [(at % 256, at % 255 + 1, 1) for at in range(MOST_COMPONENTS)]

FILES = {
    "a.j2k": SAMPLE,
    "a.jp2": jp2(SAMPLE),
    b"\xff.j2k": SAMPLE,
    "<a&b>\n.j2k": SAMPLE,
    "many.j2k": codestream([], [14] * MANY)[1],
    "whole.j2k": with_header(siz(), parts=b"".join(part(tile, 14) for tile in range(6))),
    "twice.j2k": with_header(siz(), parts=part(0, 14) + part(5, 20) + part(0, 15)),
    "short-psot.jp2": jp2(SHORT_PSOT),
    "open.j2k": OPEN,
    "no-eoc.j2k": TWO_PARTS[: -len(EOC)],
    "behind.j2k": TWO_PARTS + bytes(7),
    "outside.j2k": with_header(siz(), parts=part(6, 14) + part(1, 14)),
    "far.jp2": jp2(with_header(FAR, parts=part(0, 14))),
    "odd.j2k": with_header(size_segment((9, 3), (3, 3)), parts=part(1, 14)),
    "moved.j2k": with_header(size_segment((9, 8), (4, 4), (1, 0), (1, 0)), parts=part(1, 14)),
    "third.j2k": with_header(size_segment((8, 8), (4, 4), components=((7, 3, 1),)), parts=part(1, 14)),
    "one.j2k": with_header(size_segment((4, 4), (4, 4)), parts=part(0, 14)),
    "components.j2k": with_header(size_segment((11, 7), (4, 4), (1, 2), (1, 2), COMPONENTS), parts=part(0, 14)),
    "most-alike.j2k": with_header(size_segment((10, 6), (4, 4), components=COMPONENTS[1:2] * MOST_COMPONENTS), parts=part(0, 14)),
    "most.j2k": with_header(size_segment((10, 6), (4, 4), components=ALL_DIFFERENT), parts=part(0, 14)),
    "not-held.jp2": jp2(with_header(siz().replace(bytes([0, 1, 7, 1, 1]), bytes([0, 2, 7, 1, 1])), parts=part(0, 14))),
    "0-apart.j2k": with_header(size_segment((8, 8), (4, 4), components=COMPONENTS + [(7, 1, 0)]), parts=part(1, 14)),
    "before.j2k": with_header(size_segment((11, 8), (4, 4), (3, 0), (1, 0)), parts=b"".join(part(tile, 14) for tile in range(6))),
    "behind-it.jp2": jp2(with_header(size_segment((9, 8), (4, 4), (1, 0), (2, 0)), parts=part(0, 14))),
    "not-reached.j2k": with_header(size_segment((9, 8), (4, 4), (4, 0)), parts=part(0, 14)),
    "empty.j2k": with_header(size_segment((4, 4), (4, 4), (4, 0)), parts=part(0, 14)),
    "flat.j2k": with_header(size_segment((8, 8), (4, 0)), parts=part(0, 14)),
    "too-many.j2k": with_header(size_segment((65_536, 1), (1, 1)), parts=part(65_535, 14)),
    "no-grid.j2k": with_header(size_segment((8, 8), (0, 4)), parts=part(0, 14)),
    "siz-cut.j2k": with_header(segment(0xFF51, b""), parts=part(0, 14)),
    "siz-back.j2k": with_header(size_segment((1, 1), (4, 4), (2, 0)), parts=part(0, 14)),
    "comment.j2k": with_header(siz(), COMMENT, parts=part(0, 14) + part(5, 20)),
    "ppm-behind.j2k": with_header(siz(), parts=PPM_BEHIND + part(5, 20)),
    "plm.j2k": with_header(siz(), segment(0xFF57, b"\0\1\x05\1\x05"), parts=part(0, 14) + part(5, 20)),
    "filler-behind.j2k": with_header(siz(), parts=with_segments(FILLER) + part(5, 20)),
}

# Where PPM stands in a codestream whose tiles are not cut out, and the codestream's own place
PACKED = {
    "ppm.j2k": (len(HEADER), 0),
    "ppm.jp2": (len(HEADER), START),
    "ppm-later.jp2": (len(HEADER) + len(COMMENT), START),
    "ppm-no-grid.j2k": (len(HEADER), 0),
}
FILES |= {
    "ppm.j2k": with_header(siz(), PPM, parts=part(0, 14) + part(5, 20)),
    "ppm.jp2": jp2(with_header(siz(), PPM, parts=part(0, 14) + part(5, 20))),
    "ppm-later.jp2": jp2(with_header(siz(), COMMENT, PPM, PPM, parts=part(0, 14) + part(5, 20))),
    "ppm-no-grid.j2k": with_header(size_segment((8, 8), (0, 4)), PPM, parts=part(0, 14)),
}


# Tile-parts by their tile, their number and their tile's count of them, and the first and the last of each range of tiles that are
# out of order
ORDERS = [
    ([(5, 0, 3), (5, 1, 3), (5, 2, 3)], []),
    ([(5, 0, 3), (5, 2, 3), (5, 1, 3)], [[5, 5]]),
    # not from 0, one twice, and one left out
    ([(5, 1, 0)], [[5, 5]]),
    ([(5, 0, 3), (5, 1, 3), (5, 1, 3)], [[5, 5]]),
    ([(5, 0, 0), (5, 2, 0)], [[5, 5]]),
    # a count of 0 says nothing
    ([(5, 0, 0), (5, 1, 0), (5, 2, 0)], []),
    ([(5, 0, 0), (5, 1, 0), (5, 2, 3)], []),
    ([(5, 0, 0), (5, 2, 0), (5, 1, 0)], [[5, 5]]),
    # a count of more or of fewer than there are, in all of them or in one
    ([(5, 0, 3), (5, 1, 3)], [[5, 5]]),
    ([(5, 0, 2), (5, 1, 2), (5, 2, 2)], [[5, 5]]),
    ([(5, 0, 3), (5, 1, 4), (5, 2, 3)], [[5, 5]]),
    ([(5, 0, 3), (5, 1, 3), (5, 2, 2)], [[5, 5]]),
    # as many as have a number, and one more
    ([(5, number, 0) for number in range(256)], []),
    ([(5, number % 256, 0) for number in range(257)], [[5, 5]]),
    # two tiles by turns
    ([(0, 0, 2), (5, 0, 2), (0, 1, 2), (5, 1, 2)], []),
    ([(0, 0, 2), (5, 1, 2), (0, 1, 2), (5, 0, 2)], [[5, 5]]),
    ([(0, 0, 2), (5, 0, 1), (0, 1, 2)], []),
    # two beside each other, and one outside the grid
    ([(4, 1, 1), (0, 0, 1), (3, 0, 2), (65_535, 1, 1), (2, 0, 0)], [[3, 4], [65_535, 65_535]]),
    # all that are told, and one more
    ([(tile, tile % 2, 0) for tile in range(200)], [[tile, tile] for tile in range(1, 200, 2)]),
    ([(tile, tile % 2, 0) for tile in range(202)], [[tile, tile] for tile in range(1, 202, 2)]),
    ([(tile, 1, 0) for tile in range(202)], [[0, 201]]),
]

# What is put into a main header, and how many delimiters without FF the walk passes there
FILLERS = {
    "": 0,
    "ff30": 0,
    "ff3f ff92": 0,
    "0030": 1,
    "9292": 1,
    FILLER.hex(): 3,
    "0030 ff30 0030": 2,
    # each second byte, and each first one
    "".join(f"00{low:02x}" for low in [*range(0x30, 0x40), 0x92]): 17,
    "".join(f"{high:02x}30" for high in range(256)): 255,
    # more than the bytes that are asked for at first
    "0030" * 70_000: 70_000,
    # the second byte of a length of 1, and the byte behind it
    "ff64 0001 30": 1,
    "0064 0001 92 0030": 2,
    # segments, whatever their first byte, with second bytes beside those of delimiters
    "0064 0002 002f 0002 0040 0002 0090 0002 0091 0002 0093 0002": 0,
    # in a comment, and in a segment whose marker has no FF either
    f"ff64 000a 0001 {FILLER.hex()}": 0,
    f"0064 0008 {FILLER.hex()}": 0,
}


def commented(first):
    """Sample A with its first tile-part there, behind comments as long as there may be and a shorter one."""
    left, comments = first - 57, b""
    while left:
        size = left if left <= 65_537 else min(65_537, left - 4)
        comments += segment(0xFF64, bytes(size - 4))
        left -= size
    return SAMPLE[:45] + comments + SAMPLE[45:]


# Codestreams, how many of their bytes hold the main header (none: no tile-part is reached), how many growth fetches, and how often it
# enlarges them
FETCHES = [
    (SAMPLE, 59, 89, 0),
    (commented(65_534), 65_536, 65_536, 0),
    (commented(65_535), 65_537, 65_567, 1),
    (commented(65_535) + bytes(100_000), 65_537, 131_072, 1),
    (commented(131_070), 131_072, 131_072, 1),
    (commented(131_071), 131_073, 131_103, 2),
    (commented(300_000), 300_002, 300_032, 3),
    # the first SOT's marker alone
    (SAMPLE[:59], 59, 59, 0),
    (commented(65_534)[:65_536], 65_536, 65_536, 0),
    (commented(65_535)[:65_537], 65_537, 65_537, 1),
    # refused for its header, and for the tile-parts behind it
    (SHORT_TLM, 52, len(SHORT_TLM), 0),
    (ODD_TLM, 55, len(ODD_TLM), 0),
    (NO_SIZ, 10, len(NO_SIZ), 0),
    (CUT, 47, len(CUT), 0),
    # without a tile-part
    (SOC, None, 2, 0),
    (HEADER, None, 45, 0),
    (SAMPLE[:58], None, 58, 0),
    (commented(65_535)[:65_535], None, 65_535, 0),
    (commented(65_535)[:65_536], None, 65_536, 0),
    (commented(300_000)[:300_001], None, 300_001, 3),
    (HEADER + bytes(200_000), None, 200_045, 2),
]


class Refused(NamedTuple):
    content: bytes
    number: int
    place: int
    # The lines before it, and where its codestream starts.
    before: list = []
    start: int = 0


def lines_of(content, start, header=False):
    told = [f"codestream {start} {len(content)}"]
    return told + [f"header {len(HEADER)} {len(HEADER)}"] * header


def in_stage(content, number, place, header, inside=False):
    """A refusal behind the search, in a bare codestream or in a JP2."""
    start = START if inside else 0
    file = jp2(content) if inside else content
    return Refused(file, number, place, lines_of(content, start, header), start)


REFUSED = {
    "none": Refused(b"", 11, 0),
    "zeros": Refused(bytes(100), 12, 0),
    "box13.jp2": Refused(SIGNATURE + struct.pack(">I4s", 1, b"free"), 13, 12),
    "box14.jp2": Refused(SIGNATURE + struct.pack(">I4s", 100, b"free"), 14, 112),
    "box15.jp2": Refused(SIGNATURE + struct.pack(">I4s", 7, b"jp2c"), 15, 12),
    "box16.jp2": Refused(SIGNATURE + struct.pack(">I4sQ", 1, b"free", 2**64 - 12), 16, 12),
    "no-soc.jp2": in_stage(bytes(4), 1, 0, False, True),
    "soc": in_stage(SOC, 2, 2, False),
    "soc.jp2": in_stage(SOC, 2, 2, False, True),
    "no-siz.j2k": in_stage(NO_SIZ, 2, 2, False),
    "header.j2k": in_stage(HEADER + b"\xff\x64\0\x09", 3, len(HEADER), False),
    "tlm4.j2k": in_stage(SHORT_TLM, 4, len(HEADER), False),
    "tlm4.jp2": in_stage(SHORT_TLM, 4, len(HEADER), False, True),
    "0-apart-tlm4.j2k": in_stage(BOTH_WRONG, 4, len(HEADER), False),
    "tlm5.j2k": in_stage(ODD_TLM, 5, len(HEADER), False),
    "no-sot.j2k": in_stage(HEADER, 6, len(HEADER), False),
    "short.j2k": in_stage(TWO_PARTS[: SECOND + 11], 7, SECOND, True),
    "lsot.j2k": in_stage(LONG_LSOT, 8, SECOND, True),
    "cut.j2k": in_stage(CUT, 9, SECOND, True),
    "cut.jp2": in_stage(CUT, 9, SECOND, True, True),
    "filler-header.j2k": in_stage(HEADER + FILLER + b"\xff\x64\0\x09", 3, len(HEADER) + 6, False),
    "filler-tlm4.jp2": in_stage(HEADER + FILLER + SHORT_TLM[len(HEADER) :], 4, len(HEADER) + 6, False, True),
    "filler-no-sot.j2k": in_stage(HEADER + FILLER, 6, len(HEADER) + 6, False),
}
FILES |= {name: refused.content for name, refused in REFUSED.items()}

# What is told of them


def alone(at, length, *sizes):
    """A codestream of one tile-part: sample A's SIZ with these sizes, no TLM, and Isot 0."""
    first = SAMPLE[at : at + 4] + bytes(2) + SAMPLE[at + 6 : at + length]
    return SOC + size_segment(*sizes) + first + EOC


# In place, and as they are moved by both other rules; one of full size has the image's size there
TILES = {0: alone(57, 14, (4, 4), (4, 4)), 5: alone(71, 16, (10, 6), (2, 2), (8, 4), (8, 4))}
MOVED = {0: alone(57, 14, (10, 6), (4, 4)), 5: alone(71, 16, (2, 2), (2, 2))}


def canvas(tile, size):
    return (
        f"note: tile {tile} has full size and keeps the whole image's canvas of {size[0]} by {size[1]}: "
        "decode its tile 0 (opj_decompress -t 0)"
    )


def smaller(tile):
    return (
        f"note: tile {tile} has full size and keeps the whole image's header, whose tile 0 is smaller, as the tiles start before "
        f"the image: it decodes wrong, so decode tile {tile} of the whole file (opj_decompress -t {tile})"
    )


def elsewhere(tile):
    return (
        f"note: by --rule original tile {tile} is counted from the image's origin, and not from the tiles' origin: "
        f"it may be another piece of ground than the standard's tile {tile}"
    )


KEEPS = "note: the default rule (in-place) keeps the tile's pixels, and a plain decode shows the tile alone"


def notes(file, said):
    """On standard error, the last one behind all others."""
    return "".join(about(file, note) for note in [*said, KEEPS]) if said else ""


def of_all_tiles(place, start):
    return (
        f"its main header holds the packet headers of all tiles (PPM, at byte {place} of the codestream, byte {start + place} of the "
        "file): a tile cut out of it would decode to other pixels; decode the whole file, or have it written without PPM"
    )


def moved(tile, why):
    return f"note: tile {tile} is moved to the origin and may decode to other pixels than in the whole image, since {why}"


def filler_text(count):
    delimiters = "DELIMITER" if count == 1 else "DELIMITERS"
    return f"{count} {delimiters} WITHOUT FF, which no edition of the standard allows" if count else "none"


def order_text(ranges):
    """Of tiles that are out of order, of which the first 100 ranges are told."""
    named = [f"{first}-{last}" if last > first else f"{first}" for first, last in ranges]
    more = f" and {len(named) - 100} ranges more" * (len(named) > 100)
    return f"TILE-PARTS OUT OF ORDER, of tiles: {' '.join(named[:100])}{more}"


def cap(bits, words):
    """CAP with these bits of Pcap and so many words."""
    return segment(0xFF50, struct.pack(">I", bits) + bytes(2 * words))


def announcing(content):
    """With bit 14 of Rsiz, which lies at 6."""
    return content[:6] + bytes([content[6] | 0x40]) + content[7:]


def edition_text(place, start=0):
    """Of a header whose CAP stands there, of one that has none, or of one that the newer refuses by that number, there."""
    if place is None:
        return "older: no capabilities (CAP) are announced"
    if isinstance(place, tuple):
        return f"older; THE NEWER REFUSES IT: {refused_line(*place)}"
    return f"newer: capabilities (CAP) at byte {place} of the codestream, byte {start + place} of the file, as announced"


def grown(length, enough):
    """How many bytes growth fetches of a codestream of that length whose header is held by so many, and how often it enlarges them."""
    region, enlargements = min(65_536, length), 0
    while region < enough:
        region, enlargements = min(2 * region, length), enlargements + 1
    return region, enlargements


def fetch_text(enough, region, enlargements, start=0):
    place = f"{enough} bytes from byte {start} of the file on" if start else f"the file's first {enough} bytes"
    header = f"{place} hold the header; growth fetches {region}"
    told = header if enough else f"no tile-part is reached: growth fetches all {region} bytes"
    return f"{told}, with {enlargements or 'no'} enlargement{'s' * (enlargements > 1)}"


def shown_sample(name, start, more=0, filler="none"):
    """Of sample A, bare or in a JP2, with so many bytes more in its header."""
    length = len(SAMPLE) + more
    size = len(jp2(bytes(length))) if start else length
    inside = f"JP2, with a codestream of {length} bytes from byte {start} of the file on"
    return f"""\
file        {name}, {size} bytes
container   {inside if start else f"none: a bare codestream of {length} bytes"}
image       10 by 6, from 0, 0 on
tiles       4 by 4, from 0, 0 on; 6 in a grid of 3 by 2
components  1 of 8 bits, unsigned; 10 by 6, from 0, 0 on
header      {57 + more} bytes, {45 + more} without TLM
fetch       {fetch_text(59 + more, *grown(length, 59 + more), start)}
edition     {edition_text(None)}
tlm         2 entries
filler      {filler}
tile-parts  2, 30 bytes, from byte {57 + more} of the codestream, byte {start + 57 + more} of the file on
present     2 of 6 tiles
missing     4: 1-4
scan ended  at EOC, byte {87 + more} of the codestream, byte {start + 87 + more} of the file: nothing is left unread
"""


SHOWN = {"a.j2k": shown_sample("a.j2k", 0), "a.jp2": shown_sample("a.jp2", START)}

# Single lines that `show` has to print
SHOWS = {
    "whole.j2k": ["present     6 of 6 tiles", "missing     none", "tlm         none", "filler      none"],
    "twice.j2k": ["tile-parts  3, 49 bytes, from byte 45 of the codestream, byte 45 of the file on", "present     2 of 6 tiles"],
    "short-psot.jp2": [
        f"scan ended  AT OTHER BYTES (0000), byte {SECOND + 30} of the codestream, byte {START + SECOND + 30} of the file: "
        "26 bytes are left unread, and a length before them may be wrong"
    ],
    "open.j2k": [
        f"scan ended  at the codestream's end, byte {len(OPEN)} of the codestream, byte {len(OPEN)} of the file: "
        "the last tile-part (Psot 0) takes all bytes, EOC too"
    ],
    "no-eoc.j2k": [
        f"scan ended  at the codestream's end, without EOC, byte {SECOND + 16} of the codestream, "
        f"byte {SECOND + 16} of the file: nothing is left unread"
    ],
    "behind.j2k": [
        f"scan ended  at EOC, byte {SECOND + 16} of the codestream, byte {SECOND + 16} of the file: "
        "7 bytes behind it are left unread"
    ],
    "outside.j2k": ["missing     5: 0 2-5", "outside     tile-parts of tiles that the grid does not have: 6"],
    "moved.j2k": ["image       8 by 8, from 1, 0 on", "tiles       4 by 4, from 1, 0 on; 4 in a grid of 2 by 2"],
    "too-many.j2k": ["present     1 of 65536 tiles", "missing     65535; more tiles than an index can name"],
    "no-grid.j2k": ["tiles       0 by 4, from 0, 0 on; they make no grid"],
    "filler-behind.j2k": ["filler      none"],
    "before.j2k": ["image       8 by 8, from 3, 0 on", "tiles       4 by 4, from 1, 0 on; 6 in a grid of 3 by 2"],
    "behind-it.jp2": ["tiles       4 by 4, from 2, 0 on; they make no grid"],
    "not-reached.j2k": ["tiles       4 by 4, from 0, 0 on; they make no grid"],
    "empty.j2k": ["image       0 by 4, from 4, 0 on", "tiles       4 by 4, from 0, 0 on; they make no grid"],
    **{
        file: [
            f"ppm         PACKET HEADERS OF ALL TILES, from byte {place} of the codestream, byte {start + place} of the file on: "
            "no tile can be cut out"
        ]
        for file, (place, start) in PACKED.items()
    },
}


# Runs

# A process counts what it held before it became another program: so a small one starts what is measured.
MEASURED = """
import os, sys
started = os.spawnv(os.P_NOWAIT, sys.argv[1], sys.argv[1:])
_, status, used = os.wait4(started, 0)
with open("memory", "w") as memory:
    print(used.ru_maxrss, file=memory)
sys.exit(os.waitstatus_to_exitcode(status))
"""


# The first byte of a file is 0 and 1 by turns.
TOGGLE = """
import mmap, sys
with open(sys.argv[1], "r+b") as file, mmap.mmap(file.fileno(), 0) as memory:
    while True:
        memory[0] = 1
        memory[0] = 0
"""


class Runs:
    def __init__(self, program, folder):
        self.program = program
        self.folder = folder
        self.count = self.differed = 0

    def start(self, words, **streams):
        return subprocess.Popen([self.program, *words], cwd=self.folder, stdin=subprocess.DEVNULL, **streams)

    def run(self, *words):
        """Status, standard output and standard error."""
        ended = subprocess.run([self.program, *words], cwd=self.folder, stdin=subprocess.DEVNULL, capture_output=True)
        return ended.returncode, ended.stdout.decode(), ended.stderr.decode()

    def listing(self, content):
        return subprocess.run([LISTING], input=content, capture_output=True).stdout.decode()

    def hold(self, name, saw, wanted):
        self.count += 1
        if saw != wanted:
            self.differed += 1
            print(f"{name}: {str(saw)[:600]}, and not {str(wanted)[:600]}")

    def case(self, case, before=None):
        """Held to what it says, with `before` in OUT."""
        path = self.folder / OUT
        path.unlink(missing_ok=True)
        if before is not None:
            path.write_bytes(before)
        saw = self.run(*case.words)
        made = path.read_bytes() if path.exists() else None
        wanted = before if case.made is None else case.made
        name = f"{case.words}" + (", OUT there" if before is not None else "")
        self.hold(name, (*saw, made), (case.status, case.out, case.error, wanted))
        left = [file.name for file in self.folder.glob(".winterhasp*")]
        self.hold(f"{name}, left beside", left, [])

    def cases(self, cases):
        for case in cases:
            self.case(case)
            if case.words[0] == "tile":
                self.case(case, KEPT)

    # Groups

    def accepted(self):
        sample = listing(0, 89, 57, 45, SAMPLE_LISTED, SAMPLE_LISTED)
        for file, name, start in ("a.j2k", "a.j2k", 0), ("a.jp2", "a.jp2", START), (b"\xff.j2k", "\\xff.j2k", 0):
            self.case(Case(["list", file], out=sample.replace("codestream 0 ", f"codestream {start} ")))
            for rule in [], ["--rule", IN_PLACE]:
                self.cases(Case(["tile", file, str(tile), "-o", OUT, *rule], made=made) for tile, made in TILES.items())
            said = {0: notes(name, [canvas(0, (10, 6))]), 5: ""}
            for rule in ANNEX_B, ORIGINAL:
                words = lambda tile: ["tile", file, str(tile), "-o", OUT, "--rule", rule]
                self.cases(Case(words(tile), error=said[tile], made=made) for tile, made in MOVED.items())
        for file, text in SHOWN.items():
            self.case(Case(["show", file], out=text))
        for file, lines in SHOWS.items():
            status, out, _ = self.run("show", file)
            missing = [line for line in lines if line not in out.splitlines()]
            self.hold(f"show {file}", (status, missing), (0, []))
        for file in FILES.keys() - REFUSED.keys():
            content = FILES[file]
            if len(content) <= LONGEST:
                self.hold(f"list {file}", self.run("list", file)[:2], (0, self.listing(content)))
        many = codestream([], [14] * MANY)
        told = listing(0, len(many[1]), len(many[0]), len(many[0]), [], rows(len(many[0]), [14] * MANY))
        self.case(Case(["list", "many.j2k"], out=told))
        unread = (
            f"accepted, but the scan ended at bytes that start no tile-part, at byte {SECOND + 30} of the codestream, "
            f"byte {START + SECOND + 30} of the file, with 26 bytes left unread: a length before them may be wrong"
        )
        self.hold("a short Psot", self.run("list", "short-psot.jp2")[2], about("short-psot.jp2", unread))

    def refused(self):
        for file, refused in REFUSED.items():
            error = about(file, sentence(refused.number, refused.place, refused.start))
            told = "".join(f"{line}\n" for line in [*refused.before, f"refused {refused.number} {refused.place}"])
            self.hold(f"{file}, the listing program", self.listing(refused.content), told)
            self.case(Case(["list", file], 1, told, error))
            self.cases([Case(["tile", file, "0", "-o", OUT], 1, error=error), Case(["grid", file, "-o", OUT], 1, error=error)])
            status, out, said = self.run("show", file)
            last = f"refused     {refused_line(refused.number, refused.place)}"
            self.hold(f"show {file}", (status, out.splitlines()[-1], said), (1, last, error))
            # filler is told with the header, and of none that was refused
            labels = [line[:11].rstrip() for line in out.splitlines()]
            found = json.loads(self.run("show", "--json", file)[1])
            saw = "header" in labels, "filler" in labels, found["header"] is not None
            self.hold(f"show {file}, its header", saw, (any(line.startswith("header ") for line in refused.before),) * 3)
            # and what is fetched with the codestream
            self.hold(f"show {file}, fetch", ("fetch" in labels, found["fetch"] is not None), (bool(refused.before),) * 2)
        # where only TLM is wrong the scan is shown
        self.hold("show tlm4.jp2", "tile-parts  1, 14 bytes, " in self.run("show", "tlm4.jp2")[1], True)
        # SIZ is not looked into by the listing, and is by `show`
        for file, number in ("siz-cut.j2k", 20), ("siz-back.j2k", 22):
            self.hold(f"list {file}", self.run("list", file)[0], 0)
            status, _, said = self.run("show", file)
            self.hold(f"show {file}", (status, said), (1, about(file, sentence(number, 2))))

    def components(self):
        """Their sizes in the image and in a tile, as text and as JSON. Equal ones share a line."""
        alike = lambda size: f"8 bits, unsigned; {size} on"
        fewer = lambda size: f"8 bits, unsigned; {size} on; a sample for 2 by 3"
        signed = lambda size: f"12 bits, signed; {size} on"
        whole = ["components  4", f"  0         {alike('10 by 5, from 1, 2')}", f"  1-2       {fewer('5 by 2, from 1, 1')}"]
        whole += [f"  3         {signed('10 by 5, from 1, 2')}"]
        in_tile = {
            1: ["tile 1      4 by 4, from 5, 2 on", "in tile 1   4", f"  0         {alike('4 by 4, from 5, 2')}"]
            + [f"  1-2       {fewer('2 by 1, from 3, 1')}", f"  3         {signed('4 by 4, from 5, 2')}"],
            5: ["tile 5      2 by 1, from 9, 6 on", "in tile 5   4", f"  0         {alike('2 by 1, from 9, 6')}"]
            + [f"  1-2       {fewer('1 by 1, from 5, 2')}", f"  3         {signed('2 by 1, from 9, 6')}"],
        }
        areas = {None: (1, 2, 11, 7), 1: (5, 2, 9, 6), 5: (9, 6, 11, 7)}
        for tile, area in areas.items():
            words = [] if tile is None else ["--tile", str(tile)]
            status, out, error = self.run("show", *words, "components.j2k")
            told = whole + in_tile.get(tile, [])
            self.hold(f"show {words} components.j2k", (status, of_components(out), error), (0, told, ""))
            status, out, error = self.run("show", "--json", *words, "components.j2k")
            found = json.loads(out)
            self.hold(f"show --json {words}", (status, found["components"], error), (0, measured(areas[None], COMPONENTS), ""))
            wanted = None if tile is None else {"index": tile} | measured(area, COMPONENTS)
            self.hold(f"show --json {words}", found["in_tile"], wanted)
        self.components_refused()
        self.tile_refused()
        self.most_components()

    def components_refused(self):
        """All else is shown, in its place stands why, and the status is 1."""
        for file, number, start in ("not-held.jp2", 24, START), ("0-apart.j2k", 25, 0):
            self.hold(f"list {file}", self.run("list", file)[0], 0)
            last = refused_line(number, 2)
            for words in [], ["--tile", "1"]:
                status, out, said = self.run("show", *words, file)
                lines = out.splitlines()
                saw = status, of_components(out), lines[-2].split()[0], lines[-1], said
                why = [f"components  refused {last}"] + [f"tile 1      refused {last}"] * len(words[:1])
                wanted = 1, why, "scan", f"refused     {last}", about(file, sentence(number, 2, start))
                self.hold(f"show {words} {file}", saw, wanted)
            found = json.loads(self.run("show", "--json", file)[1])
            saw = found["status"], found["components"]["refused"]["number"], found["refused"], found["grid"]["tiles"] > 0
            self.hold(f"show --json {file}", saw, ("refused", number, found["components"]["refused"], True))
        # the walk over the header comes first
        status, out, said = self.run("show", "0-apart-tlm4.j2k")
        saw = status, of_components(out), out.splitlines()[-1], said
        why = f"components  refused {refused_line(25, 2)}"
        last = f"refused     {refused_line(4, len(HEADER))}"
        self.hold("show 0-apart-tlm4.j2k", saw, (1, [why], last, about("0-apart-tlm4.j2k", sentence(4, len(HEADER)))))
        # a SIZ that is refused has neither
        _, out, said = self.run("show", "--tile", "0", "siz-back.j2k")
        self.hold("show --tile 0 siz-back.j2k", (of_components(out), said), ([], about("siz-back.j2k", sentence(22, 2))))

    def tile_refused(self):
        """A tile that the grid does not have, or of tiles that make no grid: all else is shown, and the status is 1."""
        for file, tile, start, number in (
            ("a.j2k", 6, 0, 31), ("a.jp2", 65_535, START, 31), ("third.j2k", 4, 0, 31), ("before.j2k", 6, 0, 31),
            ("no-grid.j2k", 0, 0, 30), ("flat.j2k", 1, 0, 30), ("behind-it.jp2", 0, START, 30), ("not-reached.j2k", 7, 0, 30),
            ("empty.j2k", 0, 0, 30),
        ):  # fmt: skip
            status, out, said = self.run("show", "--tile", str(tile), file)
            line = f"{f'tile {tile}':<11} refused {refused_line(number, 2)}"
            saw = status, of_components(out)[1:], out.splitlines()[-1], said
            wanted = 1, [line], f"refused     {refused_line(number, 2)}", about(file, f"tile {tile}: {sentence(number, 2, start)}")
            self.hold(f"show --tile {tile} {file}", saw, wanted)
            status, out, _ = self.run("show", "--json", "--tile", str(tile), file)
            found = json.loads(out)
            why = refused_json(number, 2, start)
            saw = status, found["status"], found["refused"], found["in_tile"], found["grid"] is None
            self.hold(f"show --json --tile {tile} {file}", saw, (1, "refused", why, {"index": tile, "refused": why}, number == 30))
            # without the tile it is accepted
            self.hold(f"show {file}", self.run("show", file)[0], 0)

    def most_components(self):
        """As many as there may be, and quickly, emulator and all: each is read once."""
        line = "8 bits, unsigned; 5 by 2, from 0, 0 on; a sample for 2 by 3"
        _, out, _ = self.run("show", "most-alike.j2k")
        self.hold("show most-alike.j2k", of_components(out), [f"components  {MOST_COMPONENTS} of {line}"])
        before = time.monotonic()
        status, out, error = self.run("show", "--tile", "5", "most.j2k")
        took = time.monotonic() - before
        lines = of_components(out)
        rows = [f"  {at}" for at in range(MOST_COMPONENTS)]
        labels = ["components", *rows, "tile 5", "in tile 5", *rows]
        self.hold("show most.j2k", (status, [line[:11].rstrip() for line in lines], error, took < 5), (0, labels, "", True))
        print(f"command: show most.j2k: {took:.2f} s")
        found = json.loads(self.run("show", "--json", "--tile", "5", "most.j2k")[1])
        self.hold("show --json most.j2k", found["components"], measured((0, 0, 10, 6), ALL_DIFFERENT))
        self.hold("show --json most.j2k", found["in_tile"], {"index": 5} | measured((8, 4, 10, 6), ALL_DIFFERENT))

    def tiles(self):
        absent = "tile {} has no tile-part; `winterhasp show` lists the tiles that are missing"
        outside = "tile {} lies outside the grid of 3 by 2 tiles, which are 0 to 5; check the index"
        for rule in [], *(["--rule", rule] for rule in RULES_OF_TILES):
            for file in "a.j2k", "a.jp2":
                for index, why in ("1", absent), ("4", absent), ("6", outside), ("65535", outside):
                    self.cases([Case(["tile", file, index, "-o", OUT, *rule], 1, error=about(file, why.format(index)))])
            self.cases([Case(["tile", "outside.j2k", "6", "-o", OUT, *rule], 1, error=about("outside.j2k", outside.format(6)))])
        origin = "the image or its tiles do not start at 0"
        of_files = {
            "odd.j2k": [moved(1, "the sides of its tiles are not powers of two"), canvas(1, (9, 3))],
            "moved.j2k": [moved(1, origin), canvas(1, (8, 8))],
            "third.j2k": [moved(1, "its subsampling is not by powers of two"), canvas(1, (8, 8))],
            "0-apart.j2k": [moved(1, "its size segment (SIZ) does not tell the subsampling"), canvas(1, (8, 8))],
            "one.j2k": [],
        }
        for file, said in of_files.items():
            index = "0" if file == "one.j2k" else "1"
            for rule in RULES_OF_TILES:
                error = "" if rule == IN_PLACE else notes(file, said)
                self.hold(f"tile {file} {rule}", self.run("tile", file, index, "--rule", rule, "-o", OUT), (0, "", error))
        # standard output, and a name made of the file's and the index
        ended = subprocess.run([self.program, "tile", "a.j2k", "5", "-o", "-"], cwd=self.folder, capture_output=True)
        self.hold("tile a.j2k 5 -o -", (ended.returncode, ended.stdout, ended.stderr), (0, TILES[5], b""))
        (self.folder / "below").mkdir()
        ended = subprocess.run([self.program, "tile", "../a.jp2", "5"], cwd=self.folder / "below", capture_output=True)
        made = {file.name: file.read_bytes() for file in (self.folder / "below").iterdir()}
        self.hold("tile ../a.jp2 5", (ended.returncode, made), (0, {"a.tile5.j2k": TILES[5]}))
        # parts in the order of the file, and both made to be tile 0
        header = {IN_PLACE: SOC + size_segment((4, 4), (4, 4)), ANNEX_B: HEADER, ORIGINAL: HEADER}
        for rule in RULES_OF_TILES:
            self.run("tile", "twice.j2k", "0", "-o", OUT, "--rule", rule)
            joined = header[rule] + part(0, 14) + part(0, 15) + EOC
            self.hold(f"tile twice.j2k 0 {rule}", (self.folder / OUT).read_bytes(), joined)
        # by turns, with tiles that descend and none of tile 3
        tiles = [5, 4, 2, 1, 0]
        turns = with_header(siz(), parts=b"".join(numbered(tile, turn, 3) for turn in range(3) for tile in tiles))
        for file in "turns.j2k", "turns.jp2":
            self.by_rules(file, turns, tiles)
            self.cases([Case(["tile", file, "3", "-o", OUT], 1, error=about(file, absent.format(3)))])
            shown = self.run("show", file)[1].splitlines()
            saw = [line for line in shown if line.startswith(("present ", "missing ", "order "))]
            self.hold(f"show {file}", saw, ["present     5 of 6 tiles", "missing     1: 3"])

    def packed(self):
        """A main header with the packet headers of all tiles: no tile is cut out, by any rule, also of one that is not there. All
        else goes on, and so does a tile where the same bytes stand elsewhere."""
        rules = [[], *(["--rule", rule] for rule in RULES_OF_TILES)]
        for file, (place, start) in PACKED.items():
            error = about(file, of_all_tiles(place, start))
            for rule in rules:
                for tile in "0", "5", "3", "6":
                    self.cases([Case(["tile", file, tile, "-o", OUT, *rule], 1, error=error)])
                self.case(Case(["tile", file, "0", "-o", "-", *rule], 1, error=error))
            self.hold(f"list {file}", self.run("list", file)[::2], (0, ""))
            status, out, said = self.run("show", "--json", file)
            header = json.loads(out)["header"]
            self.hold(f"show --json {file}", (status, header["ppm"], said), (0, {"offset": place, "file_offset": start + place}, ""))
            drawn = (1, "its tiles make no grid; nothing is drawn") if "no-grid" in file else (0, None)
            status, out, said = self.run("grid", file, "-o", "-")
            self.hold(f"grid {file}", (status, said), (drawn[0], about(file, drawn[1]) if drawn[1] else ""))
        for file in "comment.j2k", "ppm-behind.j2k", "plm.j2k":
            for rule in RULES_OF_TILES:
                for tile in 0, 5:
                    self.hold(f"tile {file} {tile} {rule}", self.cut(file, tile, rule), (0, cut_of(FILES[file], tile, rule), None))
            status, out, _ = self.run("show", file)
            ppm = json.loads(self.run("show", "--json", file)[1])["header"]["ppm"]
            self.hold(f"show {file}", (status, "\nppm " in out, ppm), (0, False, None))
        self.packed_of_openjpeg()

    def packed_of_openjpeg(self):
        """The same of OpenJPEG's files; what decoders make of them is seen in tests/openjpeg.py."""
        self.slope()
        words = "opj_compress -i slope.pgm -o packed.j2k -t 64,64 -n 3 -SOP -EPH"
        self.hold(words, subprocess.run(words.split(), cwd=self.folder, capture_output=True).returncode, 0)
        content = (self.folder / "packed.j2k").read_bytes()
        made = packed.with_ppm(content)
        place = made.index(struct.pack(">H", packed.PPM))
        for file, start in ("packed.j2k", 0), ("packed.jp2", START):
            (self.folder / file).write_bytes(jp2(made) if start else made)
            self.hold(f"list {file}", self.run("list", file), (0, self.listing((self.folder / file).read_bytes()), ""))
            for rule in RULES_OF_TILES:
                error = about(file, of_all_tiles(place, start))
                self.cases([Case(["tile", file, "4", "-o", OUT, "--rule", rule], 1, error=error)])
        kept = packed.with_segment(content, packed.COM, b"\0\1" + bytes(made[place : place + 20]))
        behind = packed.with_segment_behind(content, packed.PPM, made[place + 4 : place + 20])
        for name, content in ("com.j2k", kept), ("behind-sot.j2k", behind):
            self.by_rules(name, content, [0, 4])

    def fetches(self):
        """How many bytes hold the main header, and how many growth fetches for it, bare and in a JP2, of files that are accepted and
        refused."""
        for number, (content, *numbers) in enumerate(FETCHES):
            for file, start in (f"fetch{number}.j2k", 0), (f"fetch{number}.jp2", START):
                (self.folder / file).write_bytes(jp2(content) if start else content)
                told = [line for line in self.run("show", file)[1].splitlines() if line.startswith("fetch ")]
                self.hold(f"show {file}", told, [f"fetch       {fetch_text(*numbers, start)}"])
                found = json.loads(self.run("show", "--json", file)[1])["fetch"]
                self.hold(f"show --json {file}", found, dict(zip(["enough", "region", "enlargements"], numbers)))

    def fillers(self):
        """Delimiters without FF in sample A's main header, before TLM, behind it, and both: `show` counts them, and all else is told
        as of any other bytes there."""
        for number, (between, count) in enumerate(FILLERS.items()):
            between = bytes.fromhex(between)
            for file, start, before, behind in ("before.j2k", 0, 1, 0), ("behind.jp2", START, 0, 1), ("both.jp2", START, 1, 1):
                file = f"filler{number}-{file}"
                content = SAMPLE[:45] + between * before + SAMPLE[45:57] + between * behind + SAMPLE[57:]
                (self.folder / file).write_bytes(jp2(content) if start else content)
                self.filled(file, start, len(content) - len(SAMPLE), count * (before + behind))
        # of a file that is refused behind its header
        content = SAMPLE[:45] + FILLER + SAMPLE[45:-4]
        (self.folder / "filler-cut.j2k").write_bytes(content)
        told = f"codestream 0 {len(content)}\nheader 63 51\ntlm 0 63 14\ntlm 5 77 16\nrefused 9 77\n"
        self.case(Case(["list", "filler-cut.j2k"], 1, told, about("filler-cut.j2k", sentence(9, 77))))
        status, out, _ = self.run("show", "filler-cut.j2k")
        header = json.loads(self.run("show", "--json", "filler-cut.j2k")[1])["header"]
        saw = status, f"filler      {filler_text(3)}" in out.splitlines(), header["fillers"]
        self.hold("show filler-cut.j2k", saw, (1, True, 3))
        # a tile that is cut out keeps them
        for file in "filler-tile.j2k", "filler-tile.jp2":
            self.by_rules(file, SAMPLE[:45] + FILLER + SAMPLE[57:], [0, 5])
            for rule in RULES_OF_TILES:
                self.run("tile", file, "5", "-o", OUT, "--rule", rule)
                found = json.loads(self.run("show", "--json", OUT)[1])["header"]["fillers"]
                self.hold(f"show tile 5 of {file} {rule}", found, 3)
        self.fillers_of_openjpeg()
        self.fillers_of_a_folder()

    def filled(self, file, start, more, count):
        """Of sample A with so many bytes more, and so many fillers among them."""
        self.case(Case(["show", file], out=shown_sample(file, start, more, filler_text(count))))
        header = {"length": 57 + more, "decode_length": 45 + more, "tlm_entries": 2, "edition": NO_EDITION, "fillers": count, "ppm": None}
        status, out, said = self.run("show", "--json", file)
        self.hold(f"show --json {file}", (status, json.loads(out)["header"], said), (0, header, ""))
        listed = [(tile, at + more, size) for tile, at, size in SAMPLE_LISTED]
        self.case(Case(["list", file], out=listing(start, len(SAMPLE) + more, 57 + more, 45 + more, listed, listed)))
        status, out, said = self.run("list", "--json", file)
        rows = [{"tile": tile, "offset": at, "length": size} | NOT_NUMBERED for tile, at, size in listed]
        accepted = {
            "file": file,
            "status": "accepted",
            "codestream": {"start": start, "length": len(SAMPLE) + more},
            "header": {"first_sot": 57 + more, "decode_length": 45 + more, "tlm": rows},
            "parts": [row | {"file_offset": start + row["offset"]} | NUMBERED for row in rows],
            "unread": 0,
        }
        self.hold(f"list --json {file}", (status, json.loads(out), said), (0, accepted, ""))

    def numberings(self):
        """TLM entries without an index in several segments, bare and in a JP2: from 0 in each, which the listing program does, or on
        over the segments; an index that is there stays, and does not count."""
        split = [tlm([20, 30]), segment(0xFF55, b"\1\x20\xff\xff\0\x28"), tlm([50, 60])]
        content = with_header(siz(), *split, parts=part(0, 14) + part(1, 16))
        first = len(HEADER) + sum(map(len, split))
        tiles = {RESTARTING: [0, 1, 65535, 0, 1], CARRIED_ON: [0, 1, 65535, 2, 3]}
        parts = rows(first, [14, 16])
        for file, start in ("split.j2k", 0), ("split.jp2", START):
            (self.folder / file).write_bytes(jp2(content) if start else content)
            for numbering, words in (RESTARTING, []), *((numbering, ["--numbering", numbering]) for numbering in NUMBERINGS):
                entries = rows(first, [20, 30, 40, 50, 60], lambda number: tiles[numbering][number])
                told = listing(start, len(content), first, len(HEADER), entries, parts)
                self.case(Case(["list", file, *words], out=told))
                if numbering == RESTARTING and not start:
                    self.hold(f"{file}, the listing program", self.listing(content), told)
                status, out, said = self.run("list", "--json", file, *words)
                saw = [row["tile"] for row in json.loads(out)["header"]["tlm"]]
                self.hold(f"list --json {file} {words}", (status, saw, said), (0, tiles[numbering], ""))
        status, out, said = self.run("show", "split.j2k")
        self.hold("show split.j2k", (status, "tlm         5 entries" in out.splitlines(), said), (0, True, ""))
        self.numbers_that_pass()

    def numbers_that_pass(self):
        """65,535 entries without an index are numbered on, and with one more `list` and `show` refuse it, each by its own numbering;
        a tile and a picture are made all the same."""
        for entries, file, start in (5, "numbers.j2k", 0), (6, "past.j2k", 0), (6, "past.jp2", START):
            lengths = [14] * 32765, [14] * 32765, [14] * entries
            segments = [tlm(each) for each in lengths]
            content = with_header(siz(), *segments, parts=part(0, 14) + part(1, 16))
            (self.folder / file).write_bytes(jp2(content) if start else content)
            first, third = (len(HEADER) + sum(map(len, segments[:count])) for count in (3, 2))
            many = sum(lengths, [])
            parts = rows(first, [14, 16])
            told = {
                RESTARTING: listing(start, len(content), first, len(HEADER), rows(first, many, lambda number: number % 32765), parts),
                CARRIED_ON: listing(start, len(content), first, len(HEADER), rows(first, many), parts),
            }
            self.case(Case(["list", file], out=told[RESTARTING]))
            error = about(file, sentence(26, third, start)) if entries > 5 else ""
            refused = f"codestream {start} {len(content)}\nrefused 26 {third}\n"
            words = ["list", file, "--numbering", CARRIED_ON]
            self.case(Case(words, 1, refused, error) if error else Case(words, out=told[CARRIED_ON]))
            status, out, said = self.run("show", file)
            lines = out.splitlines()
            wanted = f"refused     {refused_line(26, third)}" if error else "tlm         65535 entries"
            saw = status, wanted in lines, any(line.startswith("tile-parts  2, 30 bytes, ") for line in lines), said
            self.hold(f"show {file}", saw, (int(bool(error)), True, True, error))
            status, _, said = self.run("tile", file, "0", "-o", OUT)
            size = len(HEADER + part(0, 14) + EOC)
            self.hold(f"tile 0 of {file}", (status, said, len((self.folder / OUT).read_bytes())), (0, "", size))
            status, _, said = self.run("grid", file, "-o", "out.svg")
            self.hold(f"grid {file}", (status, said), (0, ""))

    def orders(self):
        """The numbers of tile-parts in JSON, and the tiles that `show` says are out of order, bare and in a JP2. `list` is as ever."""
        for number, (parts, ranges) in enumerate(ORDERS):
            content = with_header(siz(), parts=b"".join(numbered(*each) for each in parts))
            for file, start in (f"order{number}.j2k", 0), (f"order{number}.jp2", START):
                (self.folder / file).write_bytes(jp2(content) if start else content)
                self.hold(f"list {file}", self.run("list", file), (0, self.listing((self.folder / file).read_bytes()), ""))
                status, out, said = self.run("list", "--json", file)
                saw = [(row["tile"], row["tpsot"], row["tnsot"]) for row in json.loads(out)["parts"]]
                self.hold(f"list --json {file}", (status, saw, said), (0, parts, ""))
                self.ordered(file, ranges)
        # where only TLM is wrong they are told too, and where there is no grid
        swapped = numbered(5, 1, 2) + numbered(5, 0, 2)
        (self.folder / "order-tlm4.j2k").write_bytes(with_header(siz(), segment(0xFF55, b"\0"), parts=swapped))
        self.ordered("order-tlm4.j2k", [[5, 5]], 1, about("order-tlm4.j2k", sentence(4, len(HEADER))))
        (self.folder / "order-no-grid.j2k").write_bytes(with_header(size_segment((8, 8), (0, 4)), parts=swapped))
        self.ordered("order-no-grid.j2k", [[5, 5]])
        # a million of them, of as many tiles as there may be: each tile is asked for over its own
        turns = [(tile, number) for number in range(16) for tile in range(65_535)]
        parts = b"".join(numbered(tile, number ^ (tile % 3 == 0), 16) for tile, number in turns)
        (self.folder / "order-many.j2k").write_bytes(with_header(size_segment((255, 257), (1, 1)), parts=parts))
        before = time.monotonic()
        self.ordered("order-many.j2k", [[tile, tile] for tile in range(0, 65_535, 3)])
        took = time.monotonic() - before
        print(f"command: show order-many.j2k, twice: {took:.2f} s")
        # and one of them cut out, the last of the grid
        header = SOC + size_segment((255, 257), (1, 1), (254, 256), (254, 256))
        wanted = header + b"".join(numbered(0, number, 16) for number in range(16)) + EOC
        before = time.monotonic()
        saw = self.cut("order-many.j2k", 65_534, None)
        took = time.monotonic() - before
        self.hold("tile order-many.j2k 65534", saw, (0, wanted, None))
        print(f"command: tile order-many.j2k 65534: {took:.2f} s")
        (self.folder / "order-many.j2k").unlink()

    def ordered(self, file, ranges, status=0, said=""):
        """What `show` tells of tiles that are out of order, as text, before the scan's end, and as JSON."""
        saw, out, error = self.run("show", file)
        told = re.findall("^order .*\n.{10}", out, re.M)
        wanted = [f"order       {order_text(ranges)}\nscan ended"] if ranges else []
        self.hold(f"show {file}", (saw, told, error), (status, wanted, said))
        found = json.loads(self.run("show", "--json", file)[1])["tile_parts"]["out_of_order_ranges"]
        self.hold(f"show --json {file}", found, ranges)

    def editions(self):
        """Sample A with CAP between SIZ and TLM, bare and in a JP2, announced and not, sound and not: by the older edition, which is the
        default, it is accepted, and by the newer where CAP stands as announced."""
        one = cap(1 << 17, 1)
        for name, between, announced, told in (
            ("none", b"", False, None),
            ("one", one, True, 45),
            ("three", cap(0xE0000000, 3), True, 45),
            ("missing", b"", True, (33, 2)),
            ("unwanted", one, False, (33, 45)),
            ("twice", one + one, True, (33, 45 + len(one))),
            ("no-word", cap(1 << 17, 0), True, (34, 45)),
            ("word-more", cap(0, 1), True, (34, 45)),
        ):
            content = SAMPLE[:45] + between + SAMPLE[45:]
            content = announcing(content) if announced else content
            for file, start in (f"cap-{name}.j2k", 0), (f"cap-{name}.jp2", START):
                (self.folder / file).write_bytes(jp2(content) if start else content)
                self.in_editions(file, content, start, told)
        # 1 to 6 come before, and 26 in show
        cut = announcing(SAMPLE[:45])
        (self.folder / "cap-cut.j2k").write_bytes(cut)
        for words in ["list"], ["show"]:
            saw = [self.run(*words, "cap-cut.j2k", *more)[2] for more in ([], ["--edition", NEWER])]
            self.hold(f"{words} cap-cut.j2k", saw, [about("cap-cut.j2k", sentence(6, 45))] * 2)
        # by the README's own line for a folder
        flights = {"bare.j2k": SAMPLE, "missing.j2k": announcing(SAMPLE), "sound.jp2": jp2(announcing(SAMPLE[:45] + one + SAMPLE[45:]))}
        line, (_, said) = self.line_of_readme("--edition newer flights/", flights)
        refused = about("flights/missing.j2k", sentence(33, 2))
        self.hold(line, (said.startswith(refused), "sound" in said, "bare" in said), (True, False, False))
        self.editions_of_openjph()

    def in_editions(self, file, content, start, told):
        """`told`: where CAP stands, or nothing, or the newer's refusal."""
        refused = told if isinstance(told, tuple) else None
        error = about(file, sentence(*refused, start)) if refused else ""
        first = content.index(b"\xff\x90")
        for words in [], ["--edition", OLDER]:
            status, out, said = self.run("show", file, *words)
            lines = out.splitlines()
            saw = status, f"edition     {edition_text(told, start)}" in lines, said
            self.hold(f"show {file} {words}", saw, (0, True, ""))
            status, out, said = self.run("list", file, *words)
            self.hold(f"list {file} {words}", (status, f"header {first} " in out, said), (0, True, ""))
        if not start:
            self.hold(f"{file}, the listing program", self.listing(content), out)
        edition = json.loads(self.run("show", "--json", file)[1])["header"]["edition"]
        named = edition["name"], edition["cap"], edition["newer_refuses"] and (
            edition["newer_refuses"]["number"], edition["newer_refuses"]["place"], edition["newer_refuses"]["file_offset"]
        )  # fmt: skip
        if refused:
            wanted = OLDER, None, (*refused, start + refused[1])
        else:
            wanted = (NEWER, {"offset": told, "file_offset": start + told}, None) if told else (OLDER, None, None)
        self.hold(f"show --json {file}", named, wanted)
        # what the newer accepts is told alike
        newer = ["--edition", NEWER]
        if not refused:
            for words in ["show", file], ["show", "--json", file], ["list", file], ["list", "--json", file]:
                self.hold(f"{words} {newer}", self.run(*words, *newer), self.run(*words))
            return
        self.case(Case(["list", file, *newer], 1, f"codestream {start} {len(content)}\nrefused {refused[0]} {refused[1]}\n", error))
        status, out, said = self.run("show", file, *newer)
        lines = out.splitlines()
        # SIZ and the tile-parts are shown all the same
        saw = lines[-1], any(line.startswith("image ") for line in lines), any(line.startswith("tile-parts ") for line in lines)
        self.hold(f"show {file} {newer}", (status, *saw, said), (1, f"refused     {refused_line(*refused)}", True, True, error))

    def editions_of_openjph(self):
        """High-throughput files as OpenJPH writes them are of the newer edition, and so are the tiles that are cut out of them; with the
        bit or the segment taken away, or another Pcap, the newer refuses them."""
        self.slope()
        width, height = 200, 150
        colors = bytes(value % 256 for row in range(height) for column in range(width) for value in (column, row, column + row))
        (self.folder / "colors.ppm").write_bytes(b"P6\n%d %d\n255\n" % (width, height) + colors)
        for number, words in enumerate((
            "slope.pgm", "slope.pgm -reversible true -block_size {32,32} -prog_order CPRL", "colors.ppm -num_decomps 3 -tile_size {64,64}",
            "colors.ppm -reversible true -tile_size {64,64} -colour_trans false -prog_order LRCP", "slope.pgm -reversible true -tile_size {33,20} -image_offset {5,3}",
        )):  # fmt: skip
            image, *options = words.split()
            file = f"high{number}.j2c"
            made = subprocess.run(["ojph_compress", "-i", image, "-o", file, *options], cwd=self.folder, capture_output=True)
            path = self.folder / file
            if made.returncode or not path.exists():
                self.hold(f"ojph_compress {words}", (made.returncode, path.exists()), (0, True))
                continue
            content = path.read_bytes()
            place = content.index(struct.pack(">H", 0xFF50))
            size = 2 + struct.unpack(">H", content[place + 2 : place + 4])[0]
            self.in_editions(file, content, 0, place)
            (self.folder / f"{file}.jp2").write_bytes(jp2(content))
            self.in_editions(f"{file}.jp2", content, START, place)
            changed = {
                "bit": (content[:6] + bytes([content[6] & 0xBF]) + content[7:], (33, place)),
                "segment": (content[:place] + content[place + size :], (33, 2)),
                "again": (content[: place + size] + content[place:], (33, place + size)),
                "pcap": (content[: place + 7] + b"\1" + content[place + 8 :], (34, place)),
            }
            for what, (altered, refused) in changed.items():
                (self.folder / f"{what}-{file}").write_bytes(altered)
                self.in_editions(f"{what}-{file}", altered, 0, refused)
            tiles = json.loads(self.run("show", "--json", file)[1])["grid"]["tiles"]
            for rule in RULES_OF_TILES:
                for tile in {0, tiles // 2, tiles - 1}:
                    if self.run("tile", file, str(tile), "-o", OUT, "--rule", rule)[0]:
                        continue
                    edition = json.loads(self.run("show", "--json", "--edition", NEWER, OUT)[1])["header"]["edition"]["name"]
                    self.hold(f"tile {tile} of {file} {rule}, its edition", edition, NEWER)
            if image == "colors.ppm" and "-reversible" in options:
                self.tile_of_openjph(file, 6, colors, width)

    def tile_of_openjph(self, file, tile, colors, width):
        """A tile that was compressed without loss: OpenJPH and OpenJPEG decode it to the crop of the whole picture."""
        left, top, right, bottom = json.loads(self.run("show", "--json", "--tile", str(tile), file)[1])["in_tile"]["area"].values()
        wanted = b"".join(colors[3 * (row * width + left) : 3 * (row * width + right)] for row in range(top, bottom))
        self.run("tile", file, str(tile), "-o", "high.j2c")
        for program in "ojph_expand", "opj_decompress":
            decoded = subprocess.run([program, "-i", "high.j2c", "-o", "high.ppm"], cwd=self.folder, capture_output=True)
            picture = self.folder / "high.ppm"
            saw = picture.read_bytes().split(b"255\n", 1)[1] if picture.exists() else None
            self.hold(f"tile {tile} of {file} by {program}", (decoded.returncode, saw == wanted), (0, True))
            picture.unlink(missing_ok=True)

    def fillers_of_openjpeg(self):
        """In a file of OpenJPEG, between two segments of its main header: it decodes none with a filler, whole or a tile of it, and
        one with another delimiter as before."""
        self.slope()
        words = "opj_compress -i slope.pgm -o plain.j2k -t 64,64 -n 3"
        self.hold(words, subprocess.run(words.split(), cwd=self.folder, capture_output=True).returncode, 0)
        content = (self.folder / "plain.j2k").read_bytes()
        place = content.index(struct.pack(">H", packed.COM))
        whole, tile = self.decoded("plain.j2k"), self.decoded_tile("plain.j2k")
        self.hold("plain.j2k, decoded", (whole[0], tile[0]), (0, 0))
        refused = 1, None, True
        for delimiter, count in ("ff30", 0), ("0030", 1), ("4192", 1):
            file = f"between{delimiter}.j2k"
            (self.folder / file).write_bytes(content[:place] + bytes.fromhex(delimiter) + content[place:])
            found = json.loads(self.run("show", "--json", file)[1])["header"]["fillers"]
            self.hold(f"show --json {file}", found, count)
            saw = self.decoded(file), self.decoded_tile(file)
            self.hold(f"{file}, decoded", saw, (refused, refused) if count else (whole, tile))

    def fillers_of_a_folder(self):
        """By the README's own line for a shell: the files with filler, and no word of the others but of one that is refused."""
        flights = {
            "cut.j2k": SAMPLE[:45] + FILLER,
            "none.j2k": SAMPLE,
            "one.j2k": SAMPLE[:45] + FILLER[:2] + SAMPLE[45:],
            "reserved.j2k": SAMPLE[:45] + b"\xff\x30" + SAMPLE[45:],
            "three.jp2": jp2(SAMPLE[:45] + FILLER + SAMPLE[57:]),
        }
        line, saw = self.line_of_readme("^filler", flights)
        self.hold(line, saw, ("flights/one.j2k\nflights/three.jp2\n", about("flights/cut.j2k", sentence(6, 51))))

    def line_of_readme(self, words, flights):
        """The README's own line for a shell with these words, and what it says of a folder with these files."""
        [line] = [line for line in (ROOT / "README.md").read_text().splitlines() if words in line and line.startswith("    ")]
        folder = Path(tempfile.mkdtemp(dir=self.folder)) / "flights"
        folder.mkdir()
        for file, content in flights.items():
            (folder / file).write_bytes(content)
        named = os.environ | {"PATH": f"{self.program.parent}:{os.environ['PATH']}"}
        ended = subprocess.run(["sh", "-c", line], cwd=folder.parent, env=named, capture_output=True)
        return line, (ended.stdout.decode(), ended.stderr.decode())

    def decoded(self, file):
        """Status, picture, and whether OpenJPEG missed a marker."""
        picture = self.folder / "decoded.pgm"
        picture.unlink(missing_ok=True)
        ended = subprocess.run(["opj_decompress", "-i", file, "-o", picture.name], cwd=self.folder, capture_output=True)
        made = picture.read_bytes() if picture.exists() else None
        return ended.returncode, made, b"A marker ID was expected (0xff--)" in ended.stdout + ended.stderr

    def decoded_tile(self, file):
        self.cut(file, 4, None)
        return self.decoded(OUT)

    def checks(self):
        """Length tables beside the tile-parts that stand there, bare and in a JP2: as they are, and damaged in one place each."""
        found = {"sample": (SAMPLE, PASS), **self.tables_of_forms(), **self.tables_damaged(), **self.tables_in_segments()}
        found |= self.tables_without_a_length() | self.tables_refused()
        for name, (content, told) in found.items():
            for file, start in (f"check-{name}.j2k", 0), (f"check-{name}.jp2", START):
                (self.folder / file).write_bytes(jp2(content) if start else content)
                self.checked(file, told, start)
        for file, refused in REFUSED.items():
            self.checked(file, (refused.number, refused.place), refused.start)
        self.checks_of_a_folder()
        self.checks_of_readme()

    def checked(self, file, told, start=0):
        """The line of one file, and its JSON."""
        error = "" if isinstance(told, (str, Differs)) else about(file, sentence(*told, start))
        self.case(Case(["check", file], int(told != PASS), f"{file}: {check_text(told, start)}\n", error))
        status, out, said = self.run("check", "--json", file)
        wanted = int(told != PASS), {"file": file} | check_json(told, start), error
        self.hold(f"check --json {file}", (status, json.loads(out), said), wanted)

    def tables_of_forms(self):
        """Entries of every form, and none."""
        parts = [(0, 14), (1, 16), (2, 300)]
        found = {}
        for index, length in itertools.product([0, 1, 2], [2, 4]):
            found[f"form{index}{length}"] = with_tables(table(0, parts, index, length), parts=parts), PASS
        # numbered from 0, where the second tile-part is of tile 5
        parts[1] = (5, 16)
        whole = with_tables(table(0, parts, 0), parts=parts)
        found["numbered"] = whole, Differs(1, whole.index(part(*parts[1])), (1, 16), (5, 16))
        found["none"] = with_tables(parts=parts), NO_TABLE
        # with no entry, with a part of one, and among others
        found["no-entry"] = with_tables(table(0, []), parts=parts), NO_TABLE
        found["part-of-an-entry"] = with_tables(segment(0xFF55, b"\0\x10\0\0"), parts=parts), NO_TABLE
        found["no-entry-first"] = with_tables(table(0, []), table(1, parts), table(2, []), parts=parts), PASS
        # TLM in a comment, and behind the first SOT
        found["comment"] = with_tables(segment(0xFF64, b"\0\1" + table(0, parts)), parts=parts), NO_TABLE
        found["behind"] = with_header(siz(), parts=with_segments(table(0, parts))), NO_TABLE
        return found

    def tables_damaged(self):
        """In each entry one length and one tile, each entry left out and twice, and so with each tile-part."""
        parts = [(0, 14), (5, 16), (0, 20), (3, 30)]
        found = {}
        for at, (tile, size) in enumerate(parts):
            dropped, doubled = parts[:at] + parts[at + 1 :], parts[: at + 1] + parts[at:]
            for name, listed, standing in (
                ("length", [*parts[:at], (tile, size + 1), *parts[at + 1 :]], parts),
                ("tile", [*parts[:at], (tile + 1, size), *parts[at + 1 :]], parts),
                ("left-out", dropped, parts),
                ("twice", doubled, parts),
                ("part-left-out", parts, dropped),
                ("part-twice", parts, doubled),
            ):
                segments = table(0, listed, 2, 4)
                found[f"{name}{at}"] = with_tables(segments, parts=standing), compared(listed, standing, len(HEADER + segments))
        return found

    def tables_in_segments(self):
        """Segments in every order, with their numbers and without."""
        parts = [(0, 14), (5, 16), (0, 20), (3, 30)]
        pieces = [parts[:1], parts[1:3], parts[3:]]
        first = len(HEADER) + sum(len(table(0, piece)) for piece in pieces)
        found = {}
        for order in itertools.permutations(range(3)):
            name = "".join(map(str, order))
            # numbers that are not beside each other
            found[f"swapped{name}"] = with_tables(*(table([0, 7, 255][at], pieces[at]) for at in order), parts=parts), PASS
            listed = sum((pieces[at] for at in order), [])
            content = with_tables(*(table(number, pieces[at]) for number, at in enumerate(order)), parts=parts)
            found[f"without{name}"] = content, compared(listed, parts, first)
        # without an index, numbered on in the order of the numbers
        parts = [(0, 14), (1, 16), (2, 20), (3, 30)]
        segments = table(1, parts[2:], 0), table(0, parts[:2], 0, 4)
        found["numbered-on"] = with_tables(*segments, parts=parts), PASS
        segments = table(1, parts[2:], 0), table(0, parts[:2], 1)
        first = len(HEADER) + sum(map(len, segments))
        found["numbered-on-from-0"] = with_tables(*segments, parts=parts), Differs(2, first + 30, (0, 20), (2, 20))
        # as many as there are numbers, the last first; and one more
        parts = [(tile, 14 + tile) for tile in range(256)]
        segments = [table(number, [entry]) for number, entry in enumerate(parts)]
        found["most"] = with_tables(*segments[::-1], parts=parts), PASS
        found["one-more"] = with_tables(*segments, table(200, []), parts=parts), (32, len(HEADER) + sum(map(len, segments)))
        return found

    def tables_without_a_length(self):
        """A last tile-part with Psot 0, which takes all that is left, EOC too."""
        parts = [(0, 14), (5, 16)]
        open_with = lambda *entries, end=EOC: left_open(with_tables(table(0, entries), parts=parts, end=end), 16 + len(end))
        at = lambda content, size: len(content) - size
        found = {"open-counted": (open_with((0, 14), (5, 18)), PASS), "open-no-eoc": (open_with(*parts, end=b""), PASS)}
        for name, entries, end, eoc in (
            ("open", parts, EOC, True),
            ("open-tile", [(0, 14), (6, 16)], EOC, False),
            ("open-less", [(0, 14), (5, 15)], EOC, False),
            ("open-surplus", [*parts, (5, 16)], EOC, False),
            ("open-no-eoc-less", [(0, 14), (5, 14)], b"", False),
            ("open-other-end", parts, b"\xff\xd8", False),
        ):
            content = open_with(*entries, end=end)
            size = 16 + len(end)
            found[name] = content, Differs(1, at(content, size), entries[1], (5, size), eoc)
        # a length that is said, and counts EOC
        content = with_tables(table(0, parts), parts=[parts[0], (5, 18)], end=b"")[: -len(EOC)] + EOC
        found["said-with-eoc"] = content, Differs(1, at(content, 18), (5, 16), (5, 18))
        return found

    def tables_refused(self):
        """A number twice, numbers that pass, and what comes before and behind these."""
        parts = [(0, 14), (5, 16)]
        one, two = table(3, parts[:1]), table(3, parts[1:])
        second = len(HEADER + one)
        found = {"repeated": (with_tables(one, two, parts=parts), (32, second))}
        found["repeated-third"] = with_tables(one, table(4, []), two, parts=parts), (32, second + len(table(4, [])))
        found["repeated-empty"] = with_tables(table(3, []), table(3, []), parts=parts), (32, len(HEADER + table(3, [])))
        # before the scan's, and behind the walk's
        found["repeated-cut"] = with_tables(one, two, parts=parts)[:-3], (32, second)
        found["repeated-past"] = SOC + siz() + one + two + b"\xff\x64\0\x09", (3, second + len(two))
        # behind an entry that differs
        content = with_tables(table(0, [(1, 14), (5, 16)]), parts=parts)
        found["cut"] = content[:-3], (9, len(content) - 18)
        found["lsot"] = content[:-15] + b"\x0b" + content[-14:], (8, len(content) - 18)
        # 65,535 numbers, and one more: in the order of the segments' numbers, whichever comes first in the file
        full = [(0, 14)] * 32765
        for name, numbers, place in ("numbers", [0, 1, 2], 2), ("numbers-reversed", [2, 1, 0], 0):
            for count in 5, 6:
                sizes = [full, full, [(0, 14)] * count][:: 1 if place else -1]
                segments = [table(number, entries, 0) for number, entries in zip(numbers, sizes)]
                first = len(HEADER) + sum(map(len, segments))
                refused = 26, len(HEADER) + sum(map(len, segments[:place]))
                told = Differs(1, first + 14, (1, 14), (5, 16))
                found[f"{name}{count}"] = with_tables(*segments, parts=parts), refused if count > 5 else told
        return found

    def checks_of_a_folder(self):
        """A line a file, in the order of names, whoever is read first; and the worst status."""
        parts = [(0, 14), (5, 16)]
        right, wrong = table(0, parts), table(0, [parts[0], (5, 17)])
        delivered = {
            "a.j2k": (SAMPLE, PASS),
            "b.j2k": (with_tables(wrong, parts=parts), Differs(1, len(HEADER + wrong) + 14, (5, 17), (5, 16))),
            "m/c.jp2": (with_tables(right, parts=parts), PASS),
            "m/d.jp2": (with_tables(parts=parts), NO_TABLE),
            "n.j2k": (with_tables(right, right, parts=parts), (32, len(HEADER + right))),
        }
        (self.folder / "delivery/m").mkdir(parents=True)
        lines, objects, said = "", [], ""
        for file, (content, told) in delivered.items():
            start = START if file.endswith("jp2") else 0
            (self.folder / "delivery" / file).write_bytes(jp2(content) if start else content)
            lines += f"delivery/{file}: {check_text(told, start)}\n"
            objects.append({"file": f"delivery/{file}"} | check_json(told, start))
            said += about(f"delivery/{file}", sentence(*told, start)) if not isinstance(told, (str, Differs)) else ""
        for jobs in [], ["-j", "1"], ["-j", "3"], ["--jobs", "64"]:
            self.case(Case(["check", *jobs, "delivery"], 1, lines, said + counted(2, 1, 1, 1)))
            status, out, error = self.run("check", "--json", *jobs, "delivery")
            found = [json.loads(line) for line in out.splitlines()]
            self.hold(f"check --json {jobs}", (status, found, error), (1, objects, said + counted(2, 1, 1, 1)))
        # one that can't be read is a line too, and not the end
        error = about("missing", NOT_THERE)
        self.case(Case(["check", "missing", "delivery"], 2, f"missing: {UNREAD}\n{lines}", error + said + counted(2, 1, 1, 1, 1)))
        status, out, _ = self.run("check", "--json", "missing")
        self.hold("check --json missing", (status, json.loads(out)), (2, {"file": "missing", "verdict": UNREAD, "error": error.strip()}))
        self.case(Case(["check", "a.j2k", "a.jp2"], 0, f"a.j2k: {PASS}\na.jp2: {PASS}\n", counted(2)))
        self.case(Case(["check", b"\xff.j2k"], 0, f"\\xff.j2k: {PASS}\n"))
        self.case(Case(["check", "<a&b>\n.j2k"], 0, f"<a&b>\\x0a.j2k: {PASS}\n"))
        (self.folder / "nothing").mkdir()
        self.case(Case(["check", "nothing"], 0, "", counted()))

    def checks_of_readme(self):
        """The README's own lines, of sample A with other tables; and by its line for a shell those of files that don't pass."""
        with_table = lambda *segments: SAMPLE[:45] + b"".join(segments) + SAMPLE[57:]
        entries = [(0, 14), (5, 16)]
        delivered = {
            "a.j2k": SAMPLE,
            "length.j2k": with_table(table(0, [(0, 14), (5, 17)])),
            "missing.jp2": jp2(with_table(table(0, entries[:1]))),
            "none.j2k": with_table(),
            "open.j2k": left_open(SAMPLE, 18),
            "repeated.j2k": with_table(table(0, entries[:1]), table(0, entries[1:])),
            "surplus.j2k": with_table(table(0, [*entries, entries[1]])),
        }
        lines = [line[4:] for line in (ROOT / "README.md").read_text().splitlines() if line.startswith("    flights/")]
        line, (saw, _) = self.line_of_readme("winterhasp check flights/ |", delivered)
        self.hold(line, saw.splitlines(), [told for told in lines if not told.endswith(f": {PASS}")])
        self.hold("README, files that pass", [told for told in lines if told.endswith(f": {PASS}")], [f"flights/a.j2k: {PASS}"])

    def boxes(self):
        """Every box of trees that are made here, of files that are refused, damaged or large, as text and as JSON."""
        for name, tree in TREES.items():
            content, entries = laid(tree)
            self.hold(f"{name}, by the rule", listed(content), entries)
            self.boxed(f"boxes-{name}.jp2", content, entries)
        for name, (content, *refused) in BOXES_REFUSED.items():
            self.hold(f"{name}, by the rule", listed(content), tuple(refused))
            self.not_boxed(f"boxes-{name}.jp2", content, *refused)
        for file in "a.j2k", "many.j2k", "soc", "no-siz.j2k":
            self.not_boxed(file, FILES[file], 27, 0, bare=True)
        self.boxed("a.jp2", FILES["a.jp2"], listed(FILES["a.jp2"]))
        self.boxed("zeros", FILES["zeros"], listed(FILES["zeros"]))
        for file, name in (b"\xff.jp2", "\\xff.jp2"), ("<a&b>\n.jp2", "<a&b>\\x0a.jp2"):
            self.boxed(file, *laid(FLIGHT), name)
        self.boxes_mapped()
        self.boxes_large()
        self.boxes_damaged()
        self.boxes_in_text()

    def boxed(self, file, content, entries, name=None, said=""):
        """A file that is accepted, whose content is none where it is there already."""
        path = self.folder / os.fsdecode(file)
        if content is not None:
            path.write_bytes(content)
        size = path.stat().st_size
        self.case(Case(["boxes", file], out=boxes_text(name or file, size, entries), error=said))
        status, out, error = self.run("boxes", "--json", file)
        self.hold(f"boxes --json {file}", (status, json.loads(out), error), (0, boxes_json(name or file, size, entries), said))
        self.hold(f"boxes --json {file}, lines", out.count("\n"), 1)

    def not_boxed(self, file, content, number, place, bare=False):
        """A file that is refused, whose content is none where it is there already."""
        path = self.folder / file
        if content is not None:
            path.write_bytes(content)
        size = path.stat().st_size
        other = lambda text: text.replace(WORDS[number].remedy, BARE_REMEDY) if bare else text
        line = f"file        {file}, {size} bytes\nrefused     {other(refused_line(number, place))}\n"
        error = about(file, other(sentence(number, place)))
        self.case(Case(["boxes", file], 1, line, error))
        status, out, said = self.run("boxes", "--json", file)
        refused = {key: other(value) if key == "remedy" else value for key, value in refused_json(number, place).items()}
        wanted = {"file": file, "bytes": size, "status": "refused", "boxes": None, "refused": refused}
        self.hold(f"boxes --json {file}", (status, json.loads(out), said), (1, wanted, error))

    def boxes_mapped(self):
        """The same behind a box of 17 MB, so that the file is mapped."""
        size = 17 << 20
        first = Entry(1, b"free", 0, size, 8, b"")
        path = self.folder / "boxes-mapped.jp2"

        def written(content):
            with open(path, "wb") as file:
                file.write(struct.pack(">I4s", size, b"free"))
                file.seek(size)
                file.write(content)
                file.truncate(size + len(content))

        for tree in TREES.values():
            content, entries = laid(tree, size)
            written(content)
            self.boxed(path.name, None, [first, *entries])
        for name, (content, number, place) in BOXES_REFUSED.items():
            # which, so far behind, passes any file
            number = 16 if name == "past-the-file-most" else number
            written(content)
            self.not_boxed(path.name, None, number, size + place)
        path.unlink()

    def boxes_large(self):
        """Sparse files above 4 GiB, in little memory and time, emulator and all."""
        giga = 1 << 30
        before, entries = laid(FLIGHT[:3])
        behind = Box(b"xml ", b"<a/>")
        for name, form, size in ("boxes-5g.jp2", LONG, 5 * giga), ("boxes-5g-open.jp2", OPEN, 5 * giga), ("boxes-4g.jp2", LONG, 2**32 - 1):
            path, at = self.folder / name, len(before)
            head = header(b"jp2c", size, form)
            last, more = laid([behind], at + len(head) + size) if form == LONG else (b"", [])
            with open(path, "wb") as file:
                file.write(before + head + SAMPLE)
                file.seek(at + len(head) + size)
                file.write(last)
                file.truncate()
            found = [*entries, Entry(1, b"jp2c", at, len(head) + size, at + len(head), b""), *more]
            self.boxed(name, None, found)
            started = time.monotonic()
            saw, memory = self.measured(["boxes", name])
            took = time.monotonic() - started
            self.hold(f"boxes {name}", (saw[0], memory < 128 << 20, took < 5), (0, True, True))
            print(f"command: boxes {name}: {memory >> 20} MiB, {took:.2f} s")
            # cut short by a byte
            if form == LONG:
                os.truncate(path, path.stat().st_size - 1)
                self.not_boxed(name, None, 27, more[0].start)
                os.truncate(path, at + len(head) + size - 1)
                self.not_boxed(name, None, 27, at)
            path.unlink()
        # a bare codestream, whose first bytes are the length of a box that fits, by chance
        name, size = "boxes-5g.j2k", 5 * giga
        length = struct.unpack(">I", HEADER[:4])[0]
        with open(self.folder / name, "wb") as file:
            file.write(HEADER)
            file.truncate(size)
        found = [Entry(1, HEADER[4:8], 0, length, 8, b""), Entry(1, bytes(4), length, size - length, length + 8, b"")]
        self.boxed(name, None, found, said=about(name, STARTS_BARE))
        (self.folder / name).unlink()

    def boxes_damaged(self):
        """Each byte of a file with nested boxes changed in four ways, and each length cut: what the rule gives, and no panic."""
        whole, _ = laid([SIGNED, Box(b"jp2h", [IMAGE_HEADER, Box(b"res ", [resolution(b"resc", 1, 2, 3, 4, 5, 6)])]), Box(b"xml ", b"<a/>", LONG)])
        contents = [whole[:at] for at in range(len(whole))]
        for at, byte in enumerate(whole):
            contents += [whole[:at] + bytes([other]) + whole[at + 1 :] for other in (byte ^ 0xFF, byte ^ 1, 0, 1)]
        for content in contents:
            told = listed(content)
            if isinstance(told, tuple):
                self.not_boxed("boxes-damaged.jp2", content, *told)
            else:
                self.boxed("boxes-damaged.jp2", content, told)

    def boxes_in_text(self):
        """What the README and --help show."""
        content, entries = laid(FLIGHT)
        (self.folder / "flight.jp2").write_bytes(content)
        shown = self.run("boxes", "flight.jp2")[1]
        lines = (ROOT / "README.md").read_text().splitlines()
        first = f"    file        flight.jp2, {len(content)} bytes"
        self.hold("README, boxes", lines.count(first), 1)
        at = lines.index(first) if first in lines else 0
        self.hold("README, boxes", [line[4:] for line in lines[at : at + len(shown.splitlines())]], shown.splitlines())
        value = next(entry for entry in entries if entry.kind == b"resc")
        self.hold("README, boxes as JSON", f"    {json.dumps(as_json(value), separators=(',', ':'))}" in lines, True)
        plain, entries = laid([SIGNED, FILE_TYPE, Box(b"jp2h", [IMAGE_HEADER, enumerated(16)])])
        (self.folder / "plain.jp2").write_bytes(plain)
        out, help_text = self.run("boxes", "plain.jp2")[1].splitlines(), self.run("boxes", "--help")[1]
        told = "".join(f"  {line}\n" for line in [out[2], *out[5:]])
        self.hold("boxes --help: lines", told in help_text, True)
        self.hold("boxes --help: JSON", f"  {json.dumps(as_json(entries[3]), separators=(',', ':'))}\n" in help_text, True)
        self.hold("boxes --help: resolution", f"  {shown.split('capture resolution: ')[1].splitlines()[0]}\n" in help_text, True)

    def rules(self):
        """Tiles by each rule, where tiles start before the image: built here, by editing sample A, and of OpenJPEG, as it is and with
        a damaged SIZ."""
        origin = "the image or its tiles do not start at 0"
        # 3 columns from 1 on, and the image from 3 on: the first is 2 wide, the next has full size, and the last is 2 wide
        of_rules = {
            IN_PLACE: {0: [], 1: [], 2: []},
            ANNEX_B: {0: [moved(0, origin)], 1: [smaller(1)], 2: [moved(2, origin)]},
            ORIGINAL: {0: [elsewhere(0), canvas(0, (8, 8))], 1: [elsewhere(1), moved(1, origin), canvas(1, (8, 8))]},
        }
        for rule, of_tiles in of_rules.items():
            for tile, said in of_tiles.items():
                words = ["tile", "before.j2k", str(tile), "-o", OUT, "--rule", rule]
                self.cases([Case(words, error=notes("before.j2k", said), made=cut_of(FILES["before.j2k"], tile, rule))])
        far = f"tile 0: {sentence(10, 2, START)}"
        self.cases([Case(["tile", "far.jp2", "0", "-o", OUT, "--rule", ORIGINAL], 1, error=about("far.jp2", far))])
        self.by_rules("far.jp2", FILES["far.jp2"][START:], [0])
        self.by_rules("before.j2k", FILES["before.j2k"], range(6))
        changes = [{"XOsiz": 3, "XTOsiz": 1}, {"YOsiz": 1}, {"XOsiz": 1, "YOsiz": 3}, {"XOsiz": 9, "XTOsiz": 8}]
        changes += [{"XOsiz": 2**32 - 6, "XTOsiz": 2**32 - 8, "Xsiz": 2**32 - 1}, {"XTOsiz": 1}, {"YOsiz": 4}, {"YTsiz": 0}]
        without_tlm = SAMPLE[:45] + SAMPLE[57:]
        for number, fields in enumerate(changes):
            self.by_rules(f"edited{number}.j2k", edited(without_tlm, **fields), [0, 5])
        self.rules_of_openjpeg()

    def slope(self):
        width, height = 130, 100
        slope = bytes(x * 3 + y * 5 & 255 for y in range(height) for x in range(width))
        (self.folder / "slope.pgm").write_bytes(f"P5\n{width} {height}\n255\n".encode() + slope)

    def rules_of_openjpeg(self):
        self.slope()
        words = "opj_compress -i slope.pgm -o started.j2k -t 64,64 -n 3 -d 37,35 -T 5,3"
        made = subprocess.run(words.split(), cwd=self.folder, capture_output=True)
        self.hold(words, made.returncode, 0)
        content = (self.folder / "started.j2k").read_bytes()
        self.by_rules("started.j2k", content, range(10))
        self.by_rules("started.jp2", content, [0, 4, 8])
        # what is cut decodes to the tile's size, and by the standard's rule where that is full to the first one's
        for tile, size in (0, (32, 32)), (1, (64, 32)), (2, (34, 32)), (4, (64, 64)), (8, (34, 4)):
            for rule, words in ([], []), (["--rule", ANNEX_B], ["-t", "0"]):
                self.run("tile", "started.j2k", str(tile), "-o", OUT, *rule)
                decoded = subprocess.run(["opj_decompress", "-i", OUT, "-o", "tile.pgm", *words], cwd=self.folder, capture_output=True)
                head = (self.folder / "tile.pgm").read_bytes().split(b"\n255\n")[0].split()[-2:]
                wanted = (32, 32) if rule and tile == 4 else size
                self.hold(f"tile {tile} of started.j2k {rule}, decoded", (decoded.returncode, tuple(map(int, head))), (0, wanted))
        # a field by which there is no grid, and its neighbour by which there is one
        edges = [("XTOsiz", 38, 37), ("YTOsiz", 36, 35), ("XTsiz", 32, 33), ("YTsiz", 32, 33), ("Xsiz", 37, 38), ("Ysiz", 35, 36)]
        for field, number, neighbour in [*edges, ("XTsiz", 0, 64), ("YTsiz", 0, 64)]:
            name = f"{field}-{number}.jp2"
            self.by_rules(name, edited(content, **{field: number}), [0])
            for tile in "0", "9":
                said = about(name, f"tile {tile}: {sentence(30, 2, START)}")
                self.cases([Case(["tile", name, tile, "-o", OUT], 1, error=said)])
            self.hold(f"list {name}", self.run("list", name)[0], 0)
            self.by_rules(f"{field}-{neighbour}.jp2", edited(content, **{field: neighbour}), [0])
        # a row of tiles is left, and the tile-parts of the others
        self.by_rules("fewer.j2k", edited(content, Ysiz=67), [0, 2, 3, 8])
        outside = about("fewer.j2k", "tile 3 lies outside the grid of 3 by 1 tiles, which are 0 to 2; check the index")
        self.cases([Case(["tile", "fewer.j2k", "3", "-o", OUT], 1, error=outside)])
        shown = self.run("show", "fewer.j2k")[1].splitlines()
        self.hold("show fewer.j2k", "outside     tile-parts of tiles that the grid does not have: 3-8" in shown, True)

    def by_rules(self, file, content, tiles):
        """Tiles of a codestream, bare or in a JP2 by the file's name: what is cut by no rule and by each, and what `show` tells."""
        (self.folder / file).write_bytes(jp2(content) if file.endswith(".jp2") else content)
        numbers = struct.unpack_from(">8I", content, 8)
        for tile in tiles:
            area = annex_b([numbers[0::2], numbers[1::2]], tile)
            for rule in None, *RULES_OF_TILES:
                # no tile outside the standard's grid is cut by any rule
                wanted = 31 if area == 31 else cut_of(content, tile, rule or IN_PLACE)
                wanted = (1, None, wanted) if isinstance(wanted, int) else (0, wanted, None)
                self.hold(f"tile {file} {tile} {rule}", self.cut(file, tile, rule), wanted)
            status, out, _ = self.run("show", "--json", "--tile", str(tile), file)
            found = json.loads(out)["in_tile"]
            if isinstance(area, int):
                self.hold(f"show --tile {tile} {file}", (status, found["refused"]["number"]), (1, area))
            else:
                (x0, x1), (y0, y1) = area
                wanted = {"index": tile} | measured((x0, y0, x1, y1), [(7, 1, 1)])
                self.hold(f"show --tile {tile} {file}", (status, found), (0, wanted))

    def cut(self, file, tile, rule):
        """Status, what is made, and the number of the refusal."""
        (self.folder / OUT).unlink(missing_ok=True)
        status, _, said = self.run("tile", file, str(tile), "-o", OUT, *([f"--rule={rule}"] if rule else []))
        made = (self.folder / OUT).read_bytes() if (self.folder / OUT).exists() else None
        number = re.search(r"\(refusal (\d+)\)|lies outside the grid", said)
        return status, made, int(number[1] or 31) if number else None

    def never_over_the_input(self):
        content = FILES["a.j2k"]
        os.link(self.folder / "a.j2k", self.folder / "hard.j2k")
        os.symlink("a.j2k", self.folder / "soft.j2k")
        os.symlink("nowhere/x", self.folder / "dangling.j2k")
        for out in "a.j2k", "./a.j2k", str(self.folder / "a.j2k"), "hard.j2k", "soft.j2k":
            for words in ["tile", "a.j2k", "5"], ["grid", "a.j2k"]:
                self.hold(f"{words} to {out}", self.run(*words, "-o", out), (2, "", about(out, SAME)))
        with open(self.folder / "a.j2k", "ab") as same:
            program = self.start(["tile", "a.j2k", "5", "-o", "-"], stdout=same, stderr=subprocess.PIPE)
            _, error = program.communicate()
        self.hold("the input as standard output", (program.returncode, error.decode()), (2, about("-", SAME)))
        self.hold("a.j2k", (self.folder / "a.j2k").read_bytes(), content)
        dangling = self.run("tile", "a.j2k", "5", "-o", "dangling.j2k")
        self.hold("a dangling link", dangling, (2, "", about("dangling.j2k", "a link to what is not there")))
        # of a link to another file that file is replaced, with what it may be used for
        kept = self.folder / "kept.j2k"
        kept.write_bytes(KEPT)
        kept.chmod(0o600)
        os.symlink("kept.j2k", self.folder / "link.j2k")
        self.run("tile", "a.j2k", "5", "-o", "link.j2k")
        saw = (self.folder / "link.j2k").is_symlink(), kept.read_bytes(), kept.stat().st_mode & 0o777
        self.hold("a link to a file", saw, (True, TILES[5], 0o600))
        for name in "hard.j2k", "soft.j2k", "dangling.j2k", "link.j2k", "kept.j2k":
            (self.folder / name).unlink()

    def machines(self):
        """JSON says what the text says."""
        status, out, _ = self.run("list", "--json", "a.jp2", "cut.jp2", "missing")
        found = [json.loads(line) for line in out.splitlines()]
        row = lambda tile, at, size: {"tile": tile, "offset": at, "length": size} | NOT_NUMBERED
        tlm = [row(*each) for each in SAMPLE_LISTED]
        accepted = {
            "file": "a.jp2",
            "status": "accepted",
            "codestream": {"start": START, "length": 89},
            "header": {"first_sot": 57, "decode_length": 45, "tlm": tlm},
            "parts": [each | {"file_offset": START + each["offset"]} | NUMBERED for each in tlm],
            "unread": 0,
        }
        refused = {
            "file": "cut.jp2",
            "status": "refused",
            "codestream": {"start": START, "length": len(CUT)},
            "header": {"first_sot": 45, "decode_length": 45, "tlm": []},
            "refused": refused_json(9, SECOND, START),
        }
        missing = {"file": "missing", "status": "unread", "error": about("missing", NOT_THERE).strip()}
        self.hold("list --json", (status, found), (2, [accepted, refused, missing]))
        _, out, _ = self.run("show", "--json", "a.jp2")
        found = json.loads(out)
        self.hold("show --json", found["grid"], {"columns": 3, "rows": 2, "tiles": 6})
        header = {"length": 57, "decode_length": 45, "tlm_entries": 2, "edition": NO_EDITION, "fillers": 0, "ppm": None}
        self.hold("show --json", found["header"], header)
        self.hold("show --json", found["fetch"], {"enough": 59, "region": 89, "enlargements": 0})
        tiles = {"present": 2, "missing": 4, "missing_ranges": [[1, 4]], "outside_ranges": []}
        self.hold("show --json", found["tiles"], tiles)
        parts = {"count": 2, "bytes": 30, "first": {"offset": 57, "file_offset": START + 57}, "out_of_order_ranges": []}
        self.hold("show --json", found["tile_parts"], parts)
        ended = {"at": "EOC", "offset": 87, "file_offset": START + 87, "bytes": None, "unread": 0}
        self.hold("show --json", found["scan_ended"], ended)
        _, out, _ = self.run("show", "--json", "too-many.j2k")
        self.hold("show --json", json.loads(out)["tiles"]["missing_ranges"], None)

    def pictures(self):
        def drawn(file):
            status, out, error = self.run("grid", file, "-o", "-")
            root = xml.fromstring(out) if status == 0 else None
            return status, error, root, len(out)

        texts = lambda root, kind: [each.text for each in root.iter() if kind in each.get("class", "").split()]
        for file, parts in ("a.j2k", "100001"), ("twice.j2k", "200001"), ("whole.j2k", "111111"), ("outside.j2k", "010000"):
            status, error, root, _ = drawn(file)
            holes = len(texts(root, "s0")) - 1  # one in the legend
            saw = status, error, "".join(texts(root, "parts")), holes
            self.hold(f"grid {file}", saw, (0, "", parts, int("0" in parts)))
        name = texts(drawn("<a&b>\n.j2k")[2], "name")
        self.hold("a name in a picture", name, ["<a&b>\\x0a.j2k"])
        status, error, root, size = drawn("many.j2k")
        self.hold("tiles outside the grid", [each for each in texts(root, "warning") if "outside" in each][:1] != [], True)
        # 255 by 257 tiles, every 100th a hole: no letters in them, and the file stays small
        sizes = ((tile, 14 + tile % 977) for tile in range(65_535) if tile % 100)
        parts = b"".join(part(tile, size) for tile, size in sizes)
        (self.folder / "large.j2k").write_bytes(with_header(size_segment((255, 257), (1, 1)), parts=parts))
        status, error, root, size = drawn("large.j2k")
        self.hold("a large grid", (status, error, texts(root, "parts"), size < 4_000_000), (0, "", [], True))
        (self.folder / "large.j2k").unlink()
        many = "its grid has 65536 tiles, more than the 65535 that an index can name; nothing is drawn"
        self.case(Case(["grid", "too-many.j2k", "-o", OUT], 1, error=about("too-many.j2k", many)))
        none = "its tiles make no grid; nothing is drawn"
        for file in "no-grid.j2k", "behind-it.jp2", "not-reached.j2k":
            self.case(Case(["grid", file, "-o", OUT], 1, error=about(file, none)))
        short = "SIZ ends before its tiles; nothing is drawn"
        self.case(Case(["grid", "siz-cut.j2k", "-o", OUT], 1, error=about("siz-cut.j2k", short)))

    def not_read(self):
        asked = {"list": [], "check": [], "show": [], "boxes": [], "tile": ["0", "-o", OUT], "grid": ["-o", OUT]}
        for command, rest in asked.items():
            for file in "missing", "missing/a.j2k":
                out = {"list": f"{UNREAD}\n", "check": f"{file}: {UNREAD}\n"}.get(command, "")
                self.cases([Case([command, file, *rest], 2, out, about(file, NOT_THERE))])
            if command not in ("list", "check"):
                self.cases([Case([command, "directory", *rest], 2, error=about("directory", A_DIRECTORY))])
        endless = "more than 16 MiB come from what is no plain file: save it as a file first"
        for command in "show", "boxes":
            self.case(Case([command, "/dev/zero"], 2, error=about("/dev/zero", endless)))
        self.case(Case(["boxes", "--json", "missing"], 2, error=about("missing", NOT_THERE)))
        self.case(Case(["boxes", "/dev/null"], out=boxes_text("/dev/null", 0, [])))
        self.hold("a device that ends", self.run("list", "/dev/null")[:2], (1, "refused 11 0\n"))
        self.hold("a device that ends, checked", self.run("check", "/dev/null")[:2], (1, f"/dev/null: refused {refused_line(11, 0)}\n"))

    def words(self):
        (self.folder / OUT).unlink(missing_ok=True)
        few = [[], *([command] for command in COMMANDS), ["tile", "a.j2k"], ["grid", "a.j2k"]]
        many = [["show", "a.j2k", "a.j2k"], ["boxes", "a.jp2", "a.jp2"], ["tile", "a.j2k", "0", "1"], ["grid", "a.j2k", "a.j2k", "-o", OUT]]
        unknown = [["part", "a.j2k"], ["LIST", "a.j2k"], [b"\xff", "a.j2k"], ["list", "--what", "a.j2k"]]
        unknown += [[command, "-j", number, "a.j2k"] for command in ("list", "check") for number in ("0", "-1", "x", "65")]
        unknown += [["completions", "sh"], ["check", "--numbering", CARRIED_ON, "a.j2k"], ["check", "--edition", NEWER, "a.j2k"]]
        unknown += [["boxes", "a.jp2", *more] for more in (["-j", "2"], ["--tile", "5"], ["--edition", NEWER], ["--what"], ["--json=1"])]
        unknown += [["tile", "a.j2k", "5", "--rule"], ["show", "a.j2k", "--tile", "5", "--rule", ORIGINAL]]
        for words in few + many + unknown:
            status, out, error = self.run(*words)
            self.hold(f"{words}", (status, out, "Usage" in error or "error" in error), (2, "", True))
        for index in "x", "", "+5", "65536", "5.0", " 5", "5x", b"\xff", "99999999999999999999999", "\u0665":
            status, out, error = self.run("tile", "a.j2k", index, "-o", OUT)
            why = NOT_AN_INDEX in error or index in ("", b"\xff")
            self.hold(f"INDEX {index}", (status, out, why, (self.folder / OUT).exists()), (2, "", True, False))
            status, out, error = self.run("show", "--tile", index, "a.j2k")
            self.hold(f"show --tile {index}", (status, out, NOT_AN_INDEX in error or why), (2, "", True))
        for rule in "x", "", "annex", "Annex-B", "annex_b", "ORIGINAL", "in", "In-Place", "in_place", "inplace", "0", "2", b"\xff":
            status, out, error = self.run("tile", "a.j2k", "5", "-o", OUT, "--rule", rule)
            why = "[possible values: in-place, annex-b, original]" in error or rule == b"\xff"
            self.hold(f"--rule {rule}", (status, out, why, (self.folder / OUT).exists()), (2, "", True, False))
        twice = self.run("tile", "a.j2k", "5", "-o", OUT, "--rule", ANNEX_B, "--rule", ORIGINAL)
        self.hold("--rule twice", (twice[0], (self.folder / OUT).exists()), (2, False))
        for numbering in "x", "", "carried", "Carried-On", "carried_on", "restart", "0", "1", b"\xff":
            status, out, error = self.run("list", "a.j2k", "--numbering", numbering)
            why = "[possible values: restarting, carried-on]" in error or numbering == b"\xff"
            self.hold(f"--numbering {numbering}", (status, out, why), (2, "", True))
        for words in ["show"], ["tile", "a.j2k", "5"], ["grid"]:
            self.hold(f"{words} --numbering", self.run(*words, "a.j2k", "--numbering", RESTARTING)[0], 2)
        for words in ["list"], ["show"]:
            for edition in "x", "", "new", "Newer", "newest", "0", "1", b"\xff":
                status, out, error = self.run(*words, "a.j2k", "--edition", edition)
                why = "[possible values: older, newer]" in error or edition == b"\xff"
                self.hold(f"{words} --edition {edition}", (status, out, why), (2, "", True))
            help_text = self.run(*words, "--help")[1]
            self.hold(f"{words} --help: edition", "[default: older]" in help_text, True)
        for words in ["tile", "a.j2k", "5"], ["grid", "a.j2k"]:
            self.hold(f"{words} --edition", self.run(*words, "--edition", NEWER)[0], 2)
        self.hold("show --help: fetch", f"  {fetch_text(59, 89, 0)}\n" in self.run("show", "--help")[1], True)
        self.hold("show --help: edition", f"  {edition_text(51)}\n" in self.run("show", "--help")[1], True)
        help_text = self.run("list", "--help")[1]
        for words in "carried-on    on over the segments in the order of the file", "[default: restarting]":
            self.hold(f"list --help: {words}", words in help_text, True)
        row = json.dumps(json.loads(self.run("list", "--json", "a.j2k")[1])["parts"][1], separators=(",", ":"))
        self.hold("list --help: JSON", f"  {row}\n" in help_text, True)
        help_text = self.run("check", "--help")[1]
        differs = Differs(1, 71, (5, 17), (5, 16))
        for told in PASS, NO_TABLE, UNREAD, differs, (9, 71):
            self.hold(f"check --help: {told}", f"  NAME: {check_text(told)}\n" in help_text, True)
        told = json.dumps({"file": "flight.jp2"} | check_json(differs), separators=(",", ":"))
        self.hold("check --help: JSON", f"  {told}\n" in help_text.replace(",\n   ", ","), True)
        help_text = self.run("tile", "--help")[1]
        for words in "in-place    the tile stays where it lies, with its own pixels", "[default: in-place]":
            self.hold(f"tile --help: {words}", words in help_text, True)
        self.hold("show --help: filler", f"  {filler_text(1)}\n" in self.run("show", "--help")[1], True)
        self.hold("show --help: order", f"  {order_text([[5, 5], [9, 12]])}\n" in self.run("show", "--help")[1], True)
        self.hold("--version", self.run("--version"), (0, "winterhasp 0.1.0\n", ""))
        for words in [], *([command] for command in COMMANDS):
            status, out, error = self.run(*words, "--help")
            self.hold(f"{words} --help", (status, f"  winterhasp {words[0] if words else 'list'} " in out, error), (0, True, ""))
        status, out, _ = self.run("completions", "bash")
        judged = subprocess.run(["bash", "-n"], input=out.encode(), capture_output=True)
        words = [*COMMANDS, "--rule", "in-place annex-b original", "--numbering", "restarting carried-on", "--edition", "older newer"]
        self.hold("completions bash", (status, judged.returncode, [word for word in words if word not in out]), (0, 0, []))

    def not_written(self):
        places = ("directory", A_DIRECTORY), ("missing/out.j2k", NOT_THERE), ("/dev/full", DEVICE_FULL)
        for words in ["tile", "a.j2k", "5"], ["grid", "a.j2k"]:
            for out, why in places:
                self.case(Case([*words, "-o", out], 2, error=about(out, why)))
            for size in 0, 40, len(TILES[5]) - 1:
                self.limited([*words, "-o", OUT], size)
        self.hold("/dev/full is a device still", Path("/dev/full").is_char_device(), True)

    def limited(self, words, size):
        """No file may get larger than that: nothing is left."""
        (self.folder / OUT).unlink(missing_ok=True)
        limit = lambda: resource.setrlimit(resource.RLIMIT_FSIZE, (size, size))
        # the signal for a file that gets too large stays ignored, as Python has it
        program = self.start(words, stderr=subprocess.PIPE, preexec_fn=limit, restore_signals=False)
        _, wrote = program.communicate()
        left = [file.name for file in self.folder.iterdir() if file.name in (OUT,) or file.name.startswith(".")]
        saw = program.returncode, wrote.decode(), left
        self.hold(f"{words}, no file above {size} bytes", saw, (2, about(OUT, TOO_LARGE), []))

    def streams(self):
        """Standard output that is full, that nobody reads, and that is not there."""
        full = f"winterhasp: standard output: {DEVICE_FULL}\n"
        printing = [["list", "a.j2k"], ["list", "many.j2k"], ["list", "a.j2k", "a.jp2"], ["show", "a.j2k"], ["--help"]]
        printing += [["list", "--json", "many.j2k"], ["tile", "a.j2k", "5", "-o", "-"], ["grid", "a.j2k", "-o", "-"]]
        printing += [["completions", "bash"], ["check", "a.j2k"], ["check", "a.j2k", "a.jp2"], ["check", "--json", "many.j2k"]]
        (self.folder / "boxes-many.jp2").write_bytes(laid([Box(b"free")])[0] * 20_000)
        printing += [["boxes", *form, file] for form in ([], ["--json"]) for file in ("a.jp2", "boxes-many.jp2")]
        for words in printing:
            with open("/dev/full", "wb") as device:
                program = self.start(words, stdout=device, stderr=subprocess.PIPE)
                _, wrote = program.communicate()
            self.hold(f"{words}, a full device", (program.returncode, wrote.decode()), (2, full))
            reader, writer = os.pipe()
            os.close(reader)
            program = self.start(words, stdout=writer, stderr=subprocess.PIPE)
            os.close(writer)
            _, error = program.communicate()
            self.hold(f"{words}, no reader", (program.returncode, error), (0, b""))
        program = self.start(["list", "many.j2k"], stdout=subprocess.PIPE, stderr=subprocess.PIPE)
        saw = os.read(program.stdout.fileno(), 7)
        program.stdout.close()
        error = program.stderr.read()
        self.hold("the reader leaves", (program.wait(), saw, error), (0, b"codestr", b""))
        shell = f'"{self.program}" boxes boxes-many.jp2 | head -n 2'
        ended = subprocess.run(["sh", "-c", shell], cwd=self.folder, capture_output=True)
        self.hold(shell, (ended.stdout.decode(), ended.stderr), (f"file        boxes-many.jp2, {8 * 20_000} bytes\nboxes       20000\n", b""))
        for words, status, streams in (["list", "a.j2k"], 0, ">&-"), (["list", "missing"], 2, ">&- 2>&-"):
            shell = ["sh", "-c", f'exec "$0" "$@" {streams}', self.program, *words]
            ended = subprocess.run(shell, cwd=self.folder, stdin=subprocess.DEVNULL)
            self.hold(f"{words} {streams}", ended.returncode, status)

    def damaged(self):
        """Each byte of sample A, bare and in a JP2, changed in three ways, and each length cut: a status of 0 or 1, the listing
        program's lines, and no panic, which would be a status of 101."""
        folder = self.folder / "damaged"
        folder.mkdir()
        contents = {}
        for kind, whole in ("j2k", SAMPLE), ("jp2", jp2(SAMPLE)):
            for at, byte in enumerate(whole):
                contents[f"cut{at:03}.{kind}"] = whole[:at]
                for way, other in ("not", byte ^ 0xFF), ("one", byte ^ 1), ("zero", 0):
                    contents[f"{way}{at:03}.{kind}"] = whole[:at] + bytes([other]) + whole[at + 1 :]
        for name, content in contents.items():
            (folder / name).write_bytes(content)
        status, out, error = self.run("list", "damaged")
        blocks = self.blocks(out)
        self.hold("list damaged", (status, "panicked" in error, list(blocks)), (1, False, [f"damaged/{name}" for name in sorted(contents)]))
        self.checked_as_listed("damaged", len(contents))
        with concurrent.futures.ThreadPoolExecutor(WORKERS) as workers:
            told = workers.map(self.listing, contents.values())
            for name, lines in zip(contents, told):
                self.hold(f"list {name}", blocks.get(f"damaged/{name}"), lines)
            asked = [
                words
                for name in contents
                if name.startswith("not")
                for file in [f"damaged/{name}"]
                for words in (
                    ["show", "--tile", "5", file],
                    *(["tile", file, "5", "-o", "-", "--rule", rule] for rule in RULES_OF_TILES),
                    ["grid", file, "-o", "-"],
                )
            ]
            quiet = lambda words: subprocess.run([self.program, *words], cwd=self.folder, capture_output=True)
            for words, ended in zip(asked, workers.map(quiet, asked)):
                saw = ended.returncode in (0, 1), b"panicked" in ended.stderr
                self.hold(f"{words}, status {ended.returncode}", saw, (True, False))
        shutil.rmtree(folder)

    def checked_as_listed(self, folder, count):
        """Of files whose length tables have one segment at most: what is told of each is what its listing says."""
        _, out, _ = self.run("list", "--json", "--numbering", CARRIED_ON, folder)
        wanted = []
        for listed in map(json.loads, out.splitlines()):
            start = listed.get("codestream", {"start": 0})["start"]
            if "refused" in listed:
                told = listed["refused"]["number"], listed["refused"]["place"]
            else:
                both = listed["header"]["tlm"], listed["parts"]
                entries, parts = ([(row["tile"], row["length"]) for row in each] for each in both)
                told = compared(entries, parts, listed["header"]["first_sot"])
                if self.takes_eoc(listed) and entries == parts[:-1] + [(parts[-1][0], parts[-1][1] - len(EOC))]:
                    told = told._replace(eoc=True)
            wanted.append({"file": listed["file"]} | check_json(told, start))
        status, out, error = self.run("check", "--json", folder)
        found = [json.loads(line) for line in out.splitlines()]
        self.hold(f"check --json {folder}", (status, len(found), "panicked" in error), (1, count, False))
        for saw, told in zip(found, wanted):
            self.hold(f"check --json {told['file']}", saw, told)
        verdicts = {each["verdict"] for each in found}
        self.hold(f"check --json {folder}, verdicts", verdicts, {PASS, NO_TABLE, "differs", "refused"})

    def takes_eoc(self, listed):
        """Whether the last tile-part of a file has Psot 0, and EOC at its end."""
        content, last = (self.folder / listed["file"]).read_bytes(), listed["parts"][-1]
        at, end = last["file_offset"], last["file_offset"] + last["length"]
        return (content[at + 6 : at + 10], content[end - len(EOC) : end]) == (bytes(4), EOC)

    def blocks(self, out):
        """What is listed below each `file NAME`."""
        found = {}
        for line in out.splitlines(keepends=True):
            if line.startswith("file "):
                name = line[5:].rstrip("\n")
                found[name] = ""
            else:
                found[name] += line
        return found

    def folders(self):
        """1,000 files, some of them in a folder below, and some refused."""
        folder = self.folder / "flights"
        (folder / "m").mkdir(parents=True)
        lines = {}
        refused = 0
        for number in range(1_000):
            name = f"m/{number:04}.jp2" if number % 10 == 3 else f"{number:04}.j2k"
            sizes = [14 + number % 50] * (1 + number % 7)
            header, content = codestream([], sizes)
            told = listing(0, len(content), len(header), len(header), [], rows(len(header), sizes))
            if number % 100 == 7:
                content, told = b"\0\0" + content, "refused 12 0\n"
                refused += 1
            elif name.endswith("jp2"):
                told = told.replace("codestream 0 ", f"codestream {START} ")
                content = jp2(content)
            (folder / name).write_bytes(content)
            lines[f"flights/{name}"] = told
        os.mkfifo(folder / "pipe")
        os.symlink("..", folder / "loop")
        wanted = "".join(f"file {name}\n{lines[name]}" for name in sorted(lines))
        summary = f"winterhasp: 1000 files: {1_000 - refused} accepted, {refused} refused, 0 not read\n"
        for jobs in [], ["-j", "1"], ["-j", "7"], ["--jobs", "64"]:
            status, out, error = self.run("list", *jobs, "flights")
            self.hold(f"list {jobs} flights", (status, out, error.count("\n"), error.endswith(summary)), (1, wanted, refused + 1, True))
        status, out, _ = self.run("list", "--json", "flights")
        found = [json.loads(line) for line in out.splitlines()]
        self.hold("list --json flights", (status, [each["file"] for each in found]), (1, sorted(lines)))
        told = {name: (12, 0) if lines[name].startswith("refused") else NO_TABLE for name in sorted(lines)}
        wanted = "".join(f"{name}: {check_text(verdict)}\n" for name, verdict in told.items())
        for jobs in [], ["-j", "1"], ["-j", "7"]:
            status, out, error = self.run("check", *jobs, "flights")
            count = counted(without=1_000 - refused, refused=refused)
            self.hold(f"check {jobs} flights", (status, out, error.endswith(count)), (1, wanted, True))
        # a file that can't be read is a line too, and not the end
        first = sorted(lines)[0]
        status, out, error = self.run("list", first, "missing", first)
        told = f"file {first}\n{lines[first]}file missing\nunread\nfile {first}\n{lines[first]}"
        said = about("missing", NOT_THERE) + "winterhasp: 3 files: 2 accepted, 0 refused, 1 not read\n"
        self.hold("list with a missing one", (status, out, error), (2, told, said))
        (self.folder / "empty").mkdir()
        empty = "winterhasp: 0 files: 0 accepted, 0 refused, 0 not read\n"
        self.hold("list empty", self.run("list", "empty"), (0, "", empty))
        shutil.rmtree(folder)

    def large(self):
        """Sparse files over 16 MB, 3 GB and 4 GiB, in little memory and time, emulator and all."""
        giga = 1 << 30
        for name, sizes in ("16m.j2k", [20 << 20, 14]), ("3g.j2k", [giga * 3 // 2] * 2), ("6g.j2k", [3 * giga, 3 * giga - 1, 40]):
            path = self.folder / name
            written = self.sparse(path, HEADER, sizes)
            end = len(HEADER) + sum(sizes)
            told = listing(0, end + 2, len(HEADER), len(HEADER), [], rows(len(HEADER), sizes))
            before = time.monotonic()
            saw, memory = self.measured(["list", name])
            took = time.monotonic() - before
            self.hold(f"list {name}", (saw, memory < 128 << 20, took < 5), ((0, told, ""), True, True))
            print(f"command: list {name}: {memory >> 20} MiB, {took:.2f} s")
            last = len(sizes) - 1
            (_, at, size) = rows(len(HEADER), sizes)[-1]
            if size < 1 << 20:
                saw, memory = self.measured(["tile", name, str(last), "-o", OUT])
                piece = written[at][:4] + bytes(2) + written[at][6:] + bytes(size - 12)
                # tile 2 lies at the edge
                header = SOC + (size_segment((8, 4), (4, 4), (4, 0), (4, 0)) if last == 1 else size_segment((10, 4), (2, 4), (8, 0), (8, 0)))
                self.hold(f"tile {name}", (saw[0], (self.folder / OUT).read_bytes()), (0, header + piece + EOC))
                self.hold(f"tile {name}, memory", memory < 128 << 20, True)
            shown = self.run("show", name)[1]
            self.hold(f"show {name}", f"tile-parts  {len(sizes)}, {sum(sizes)} bytes" in shown, True)
            self.hold(f"show {name}, fetch", f"fetch       {fetch_text(47, 65_536, 0)}\n" in shown, True)
            path.unlink()
        self.large_tables()
        # more bytes than a main header may have are not asked for PPM
        self.sparse(self.folder / "6g-ppm.j2k", HEADER + PPM, [3 * giga, 3 * giga, 14])
        error = about("6g-ppm.j2k", of_all_tiles(len(HEADER), 0))
        self.cases([Case(["tile", "6g-ppm.j2k", "2", "-o", OUT], 1, error=error)])
        (self.folder / "6g-ppm.j2k").unlink()

    def large_tables(self):
        """Length tables of codestreams above 4 GiB, of which the header's region alone is read as a header, bare and in a JP2."""
        giga = 1 << 30
        sizes = [2 * giga, 2 * giga - 1, giga, 40]
        parts = list(enumerate(sizes))
        for file, start in ("5g.j2k", 0), ("5g.jp2", START):
            before = BEFORE + struct.pack(">I4s", 0, b"jp2c") if start else b""
            for changed in None, *range(len(sizes)):
                entries = [(tile, size + (tile == changed)) for tile, size in parts]
                header = SOC + siz() + table(0, entries[:1], 2, 4) + table(1, entries[1:], 1, 4)
                self.sparse(self.folder / file, before + header, sizes)
                told = compared(entries, parts, len(header))
                self.hold(f"{file}, what is told", told == PASS, changed is None)
                started = time.monotonic()
                saw, memory = self.measured(["check", file])
                took = time.monotonic() - started
                wanted = int(told != PASS), f"{file}: {check_text(told, start)}\n", ""
                self.hold(f"check {file}, length {changed}", (saw, memory < 128 << 20, took < 5), (wanted, True, True))
                (self.folder / file).unlink()
            print(f"command: check {file}: {memory >> 20} MiB, {took:.2f} s")

    def sparse(self, path, header, sizes):
        """A file of tile-parts that take no room; gives what is written of each, by its place."""
        places = rows(len(header), sizes)
        written = {at: part(tile, 14)[:6] + struct.pack(">I", size) + bytes(2) for tile, at, size in places}
        with open(path, "wb") as file:
            for at, piece in ({0: header} | written | {len(header) + sum(sizes): EOC}).items():
                file.seek(at)
                file.write(piece)
        return written

    def measured(self, words):
        """Status and streams, and the most memory that was held."""
        measure = [sys.executable, "-c", MEASURED, self.program, *words]
        ended = subprocess.run(measure, cwd=self.folder, stdin=subprocess.DEVNULL, capture_output=True)
        memory = self.folder / "memory"
        kilobytes = int(memory.read_text())
        memory.unlink()
        return (ended.returncode, ended.stdout.decode(), ended.stderr.decode()), kilobytes << 10

    def shrinking(self):
        """A file that is cut while it is mapped: told as such, and the files behind it are listed all the same."""
        sample = listing(0, 89, 57, 45, SAMPLE_LISTED, SAMPLE_LISTED)
        count = 6_000_000
        wanted = {
            "list": (2, f"file shrinks.j2k\n{UNREAD}\nfile a.j2k\n{sample}"),
            "check": (2, f"shrinks.j2k: {UNREAD}\na.j2k: {PASS}\n"),
            "show": (2, ""),
            "boxes": (2, ""),
            "tile": (2, ""),
        }
        several = [[command, "shrinks.j2k", "a.j2k"] for command in ("list", "check")]
        for words in *several, ["show", "shrinks.j2k"], ["boxes", "shrinks.j2k"], ["tile", "shrinks.j2k", "0", "-o", OUT]:
            path = self.folder / "shrinks.j2k"
            path.write_bytes(laid([Box(b"free")])[0] * (count // 2) if words[0] == "boxes" else HEADER + part(0, 14) * count + EOC)
            program = self.start(words, stdout=subprocess.PIPE, stderr=subprocess.PIPE)
            while program.poll() is None and path.name not in self.maps(program):
                pass
            os.truncate(path, 4_096)
            out, error = (stream.decode() for stream in program.communicate())
            saw = program.returncode, out, error.startswith(about(path.name, CHANGED))
            self.hold(f"{words}, the file shrinks", saw, (*wanted[words[0]], True))
            path.unlink()

    def written_to(self):
        """A mapped file that is written to in place between the passes of a listing of boxes: the run ends by itself, and writes no row behind its table. The
        first box is all of the file, or the first of many, by its length's first byte; an answer may have rows of both."""
        many, size = 20_000, (16 << 20) + 8
        rest, _ = laid([Box(b"free")] * many)
        path = self.folder / "written.jp2"
        path.write_bytes(rest + struct.pack(">I4s", size - len(rest), b"free") + bytes(size - len(rest) - 8))
        told = {f"boxes       {count}" for count in (1, many + 1)}
        toggle = subprocess.Popen([sys.executable, "-c", TOGGLE, path], stdin=subprocess.DEVNULL)
        seen = Counter()
        for _ in range(150):
            status, out, error = self.run("boxes", path.name)
            listed = (status, error) == (0, "") and out.splitlines()[1] in told
            changed = (status, out, error) == (2, "", about(path.name, CHANGED))
            seen["listed" if listed else "changed" if changed else f"status {status}, {error[:200]}"] += 1
        toggle.kill()
        toggle.wait()
        self.hold("boxes written.jp2, while it is written to", set(seen) - {"listed", "changed"}, set())
        print(f"command: boxes written.jp2: {dict(seen)}")
        path.unlink()

    def maps(self, program):
        try:
            return Path(f"/proc/{program.pid}/maps").read_text()
        except OSError:
            return ""

    def encoders(self):
        """Files of OpenJPEG and of Grok."""
        width, height = 130, 100
        slope = bytes(x * 3 + y * 5 + colour * 40 & 255 for y in range(height) for x in range(width) for colour in range(3))
        (self.folder / "image.ppm").write_bytes(f"P6\n{width} {height}\n255\n".encode() + slope)
        ways = [
            ("opj_compress", "opj.j2k", ["-t", "64,64", "-n", "4"], 6),
            ("opj_compress", "opj.jp2", ["-t", "32,32", "-n", "3", "-TP", "R", "-TLM"], 20),
            ("opj_compress", "opj1.jp2", [], 1),
            ("grk_compress", "grk.j2k", ["-t", "64,64", "-n", "4"], 6),
            ("grk_compress", "grk.jp2", ["-t", "32,32", "-n", "3", "-u", "R", "-X"], 20),
            ("grk_compress", "grk1.jp2", ["-n", "5"], 1),
        ]
        for tool, name, options, tiles in ways:
            made = subprocess.run([tool, "-i", "image.ppm", "-o", name, *options], cwd=self.folder, capture_output=True)
            path = self.folder / name
            if made.returncode or not path.exists():
                self.hold(f"{tool} {options}", made.returncode, 0)
                continue
            status, out, error = self.run("list", name)
            self.hold(f"list {name}", (status, out, error), (0, self.listing(path.read_bytes()), ""))
            found = json.loads(self.run("show", "--json", name)[1])
            saw = [found["image"]["width"], found["image"]["height"], found["components"]["count"], found["grid"]["tiles"]]
            self.hold(f"show {name}", saw, [width, height, 3, tiles])
            whole = found["tiles"]["missing"], found["scan_ended"]["at"], found["scan_ended"]["unread"]
            self.hold(f"show {name}, its end", whole, (0, "EOC", 0))
            self.hold(f"show {name}, its order", found["tile_parts"]["out_of_order_ranges"], [])
            self.checked(name, PASS if {"-TLM", "-X"} & {*options} else NO_TABLE)
            listed = {int(line.split()[1]) for line in out.splitlines() if line.startswith("part ")}
            self.hold(f"list {name}, its tiles", listed, set(range(tiles)))
            status, out, _ = self.run("grid", name, "-o", "-")
            self.hold(f"grid {name}", (status, xml.fromstring(out).tag.endswith("svg")), (0, True))
            self.hold(f"tile {name}", self.run("tile", name, str(tiles - 1), "-o", OUT)[0], 0)
            again = self.run("show", "--json", OUT)[1]
            self.hold(f"show the tile of {name}", json.loads(again)["scan_ended"]["at"], "EOC")
            decoded = subprocess.run(["opj_decompress", "-i", OUT, "-o", "tile.ppm"], cwd=self.folder, capture_output=True)
            self.hold(f"the tile of {name}, decoded", decoded.returncode, 0)
            # the crop of the whole picture, which is compressed without loss
            left, top, right, bottom = json.loads(self.run("show", "--json", "--tile", str(tiles - 1), name)[1])["in_tile"]["area"].values()
            rows = [slope[3 * (row * width + left) : 3 * (row * width + right)] for row in range(top, bottom)]
            saw = (self.folder / "tile.ppm").read_bytes().split(b"\n255\n", 1)[1]
            self.hold(f"the tile of {name}, its pixels", saw == b"".join(rows), True)


GROUPS = [
    Runs.accepted, Runs.refused, Runs.components, Runs.tiles, Runs.packed, Runs.fetches, Runs.fillers, Runs.numberings, Runs.orders,
    Runs.editions, Runs.checks, Runs.boxes, Runs.rules, Runs.never_over_the_input, Runs.machines, Runs.pictures, Runs.not_read, Runs.words, Runs.not_written,
    Runs.streams, Runs.damaged, Runs.folders, Runs.large, Runs.shrinking, Runs.written_to, Runs.encoders,
]  # fmt: skip


def install():
    """Whether the encoders are there."""
    if all(map(shutil.which, ["opj_compress", "grk_compress", "ojph_compress"])):
        return True
    for words in "update -q", "install -y -q --no-install-recommends libopenjp2-tools grokj2k-tools openjph-tools":
        if subprocess.run(["apt-get", *words.split()]).returncode:
            return False
    return True


def main():
    arguments = argparse.ArgumentParser(description=__doc__.splitlines()[0])
    arguments.add_argument("--bin", default=ROOT / "rust/cli/target/release")
    arguments.add_argument("names", nargs="*")
    chosen = arguments.parse_args()
    program = Path(chosen.bin).resolve() / "winterhasp"
    for needed, how in (program, "cargo build --release in rust/cli/"), (LISTING, "bash tools/proved.sh tileparts"):
        if not needed.exists():
            print(f"{needed} is not there: {how}", file=sys.stderr)
            return 2
    if not install():
        print("command: libopenjp2-tools, grokj2k-tools and openjph-tools can't be installed", file=sys.stderr)
        return 2
    with tempfile.TemporaryDirectory() as name:
        folder = Path(name)
        for file, content in FILES.items():
            (folder / os.fsdecode(file)).write_bytes(content)
        (folder / "directory").mkdir()
        runs = Runs(program, folder)
        for group in GROUPS:
            if not chosen.names or group.__name__ in chosen.names:
                before = time.monotonic()
                group(runs)
                print(f"command: {group.__name__}: {time.monotonic() - before:.1f} s")
    print(f"command: {runs.count} held, {runs.differed} differed")
    return int(runs.differed > 0 or runs.count == 0)


if __name__ == "__main__":
    sys.exit(main())
