#!/usr/bin/env python3
"""Our boxes beside jpylyzer's: tests/jpylyzer.py [--bin DIR]

Makes JP2 files by opj_compress and grk_compress with several options (gray, colour, alpha, precision, tiles, resolution), and of
each more of them by putting boxes into it: resolution, bits per component, palette, component mapping, channel definition, colour, also
by an ICC profile, UUID, XML, UUID info, intellectual property, boxes of no known type, JP2 headers in each other, and lengths of 8
bytes and of 0. For each file holds what `winterhasp boxes` tells to jpylyzer's account:
  the boxes' names, order and nesting, to the properties that it reports,
  the values of the boxes of colour and of resolution, to those that it reports there, and
  each box's start and length, and its content's, to those at which it reads as it validates, which it does not report.
Then sees that a file that was changed in one place is told from the one that it was. Status 1 if anything differs, or if too
little was compared; 2 if the run can't be made.
"""

import argparse
import json
import struct
import subprocess
import sys
import tempfile
import xml.etree.ElementTree as xml
import zlib
from collections import Counter
from pathlib import Path

from boxes import DEEPEST, LONG, NAMES, OPEN, Box, laid
from pictures import install

ROOT = Path(__file__).resolve().parent.parent
PACKAGES = {"jpylyzer": "python3-jpylyzer", "opj_compress": "libopenjp2-tools", "grk_compress": "grokj2k-tools"}
# Debian's own: another one in the way does not see its packages.
PYTHON = "/usr/bin/python3"
UNKNOWN = "unknownBox"
SUPERBOXES = "jp2HeaderBox", "resolutionBox", "uuidInfoBox"
METHODS = {"Enumerated": 1, "Restricted ICC": 2, "Any ICC": 3, "Vendor Colour": 4}
COLOUR_SPACES = {"sRGB": 16, "greyscale": 17, "sYCC": 18}
# There have to be so many.
LEAST = {"files": 100, "boxes": 1_000, "colours": 100, "resolutions": 50}
WIDTH, HEIGHT = 64, 48


def give_up(why):
    print(f"jpylyzer: {why}", file=sys.stderr)
    sys.exit(2)


# Images


def samples(components, bits=8):
    values = (x * 3 + y * 5 + 40 * at for y in range(HEIGHT) for x in range(WIDTH) for at in range(components))
    return b"".join((value % (1 << bits)).to_bytes((bits + 7) // 8, "big") for value in values)


def chunk(kind, content):
    return struct.pack(">I", len(content)) + kind + content + struct.pack(">I", zlib.crc32(kind + content))


def png(colour_type, components):
    """An image of 8 bits."""
    row = WIDTH * components
    body = samples(components)
    lines = b"".join(b"\0" + body[at : at + row] for at in range(0, len(body), row))
    head = struct.pack(">IIBBBBB", WIDTH, HEIGHT, 8, colour_type, 0, 0, 0)
    return b"\x89PNG\r\n\x1a\n" + chunk(b"IHDR", head) + chunk(b"IDAT", zlib.compress(lines)) + chunk(b"IEND", b"")


IMAGES = {
    "gray.pgm": b"P5\n%d %d\n255\n" % (WIDTH, HEIGHT) + samples(1),
    "deep.pgm": b"P5\n%d %d\n4095\n" % (WIDTH, HEIGHT) + samples(1, 12),
    "colour.ppm": b"P6\n%d %d\n255\n" % (WIDTH, HEIGHT) + samples(3),
    "alpha.png": png(6, 4),
    "gray-alpha.png": png(4, 2),
    "three.raw": samples(3),
    "four.raw": samples(4),
}
RAW = f"-F {WIDTH},{HEIGHT}"
OPJ, GRK = "opj_compress", "grk_compress"
WAYS = [
    (OPJ, "gray.pgm", ""),
    (OPJ, "gray.pgm", "-t 32,32 -n 3"),
    (OPJ, "gray.pgm", "-r 20,10 -I"),
    (OPJ, "deep.pgm", ""),
    (OPJ, "deep.pgm", "-t 20,30 -n 2 -TP R"),
    (OPJ, "colour.ppm", ""),
    (OPJ, "colour.ppm", "-mct 0 -p RPCL"),
    (OPJ, "colour.ppm", "-t 32,32 -n 3 -TP R -TLM"),
    (OPJ, "alpha.png", ""),
    (OPJ, "gray-alpha.png", "-t 32,32 -n 3"),
    (OPJ, "three.raw", f"{RAW},3,8,u -mct 0"),
    (OPJ, "three.raw", f"{RAW},3,8,s"),
    (OPJ, "three.raw", f"{RAW},3,8,u@1x1:2x2:2x2"),
    (OPJ, "four.raw", f"{RAW},4,8,u"),
    (GRK, "gray.pgm", ""),
    (GRK, "colour.ppm", "-t 32,32 -n 3 -u R -X"),
    (GRK, "colour.ppm", "-Q 11811,7200"),
    (GRK, "colour.ppm", "-Q 0.5,123.25"),
    (GRK, "alpha.png", ""),
]


def compressed(folder):
    """JP2 files by name, as the tools write them, and the ways in which none is written."""
    files, not_made = {}, []
    for name, content in IMAGES.items():
        (folder / name).write_bytes(content)
    for number, (tool, image, options) in enumerate(WAYS):
        path = folder / f"{number:02}.jp2"
        words = [tool, "-i", image, "-o", path.name, *options.split()]
        ended = subprocess.run(words, cwd=folder, capture_output=True)
        if ended.returncode == 0 and path.exists():
            files[path.stem] = path.read_bytes()
        else:
            not_made.append(" ".join(words))
    return files, not_made


# Boxes that are put into them

IDENTITY = bytes(range(16))
# An input profile for RGB without a tag.
PROFILE = struct.pack(">I4sI4s4s4s12s4s", 132, bytes(4), 0x02100000, b"scnr", b"RGB ", b"XYZ ", bytes(12), b"acsp") + bytes(92)
NESTED = [Box(b"bpcc", b"\7")]
for _ in range(DEEPEST - 2):
    NESTED = [Box(b"jp2h", NESTED)]


def resolution(kind, *numbers):
    return Box(kind, struct.pack(">4H2b", *numbers))


IN_HEADER = {
    "capture": [Box(b"res ", [resolution(b"resc", 30_000, 254, 15_000, 127, 2, 2)])],
    "display": [Box(b"res ", [resolution(b"resd", 1, 65_535, 65_535, 1, -4, 4)])],
    "both": [Box(b"res ", [resolution(b"resd", 72, 1, 96, 1, 0, -1), resolution(b"resc", 300, 7, 600, 11, 1, 3)], LONG)],
    "bits": [Box(b"bpcc", b"\7\x8b\7")],
    "palette": [Box(b"pclr", struct.pack(">HB3B6B", 2, 3, 7, 7, 7, *range(6))), Box(b"cmap", struct.pack(">HBB", 0, 1, 0) * 3)],
    "channels": [Box(b"cdef", struct.pack(">H6H", 2, 0, 0, 1, 1, 1, 0))],
    "colours": [Box(b"colr", bytes([1, 0, 0]) + struct.pack(">I", space)) for space in (16, 17, 18, 12)] + [Box(b"colr", b"\2\0\0" + PROFILE)],
    "nested": NESTED,
    "unknown": [Box(b"lbl ", b"flight")],
    "none": [],
}
BEHIND = {
    "uuid": [Box(b"uuid", IDENTITY + b"data"), Box(b"uuid", IDENTITY[::-1] + bytes(300))],
    "xml": [Box(b"xml ", b"<flight><jp2HeaderBox/></flight>"), Box(b"xml ", b"<a/>", LONG)],
    "info": [Box(b"uinf", [Box(b"ulst", b"\0\2" + IDENTITY * 2), Box(b"url ", b"\0\0\0\0http://a.b/c\0")])] * 2,
    "property": [Box(b"jp2i", b"owner")],
    "unknown": [Box(b"free", b"\xff\x90" * 20), Box(b"asoc", laid([Box(b"jp2h", NESTED)])[0]), Box(b"mdat", b"", LONG)],
    "last": [Box(b"uuid", IDENTITY + b"to the end", OPEN)],
}


def children(content):
    """The boxes of a file of a tool, which says each length in 4 bytes or as 0, as the last may."""
    found, at = [], 0
    while at < len(content):
        length, kind = struct.unpack_from(">I4s", content, at)
        end = at + length if length else len(content)
        found.append(Box(kind, content[at + 8 : end]))
        at = end
    return found


def varied(content):
    """The file with boxes put into its JP2 header, at the end or before its codestream, and with other lengths."""
    top = children(content)
    place = next(at for at, box in enumerate(top) if box.kind == b"jp2h")
    inner = children(top[place].content)
    with_header = lambda boxes, form: [*top[:place], Box(b"jp2h", boxes, form), *top[place + 1 :]]
    codestream = next(at for at, box in enumerate(top) if box.kind == b"jp2c")
    found = {f"in-{name}": with_header(inner + more, LONG if name == "bits" else top[place].form) for name, more in IN_HEADER.items()}
    found |= {f"behind-{name}": top + more for name, more in BEHIND.items()}
    found |= {f"before-{name}": top[:codestream] + more + top[codestream:] for name, more in BEHIND.items() if name != "last"}
    found["open"] = [*top[:-1], top[-1]._replace(form=OPEN)]
    found["long"] = [box._replace(form=LONG) for box in top]
    everything = sum(IN_HEADER.values(), inner)
    found["all"] = with_header(everything, top[place].form)[:codestream] + sum(list(BEHIND.values())[:-1], []) + top[codestream:] + BEHIND["last"]
    return {name: laid(boxes)[0] for name, boxes in found.items()}


# jpylyzer's account

# The places of boxes, as it reads them: each is read, then made an object of, which reads those in it.
WALK = """
import json, sys
from jpylyzer.boxvalidator import BoxValidator

made, read, found = BoxValidator.__init__, BoxValidator._getBox, []

def make(self, kind, content, *more, **named):
    made(self, kind, content, *more, **named)
    self.place = (found[-1]["content"], found[-1]["depth"]) if found else (0, 0)

def walk(self, start, size):
    length, kind, end, content = box = read(self, start, size)
    base, depth = self.place
    places = {"start": base + start, "length": length, "content": base + end - len(content), "content_length": len(content)}
    found.append({"depth": depth + 1, "type_hex": kind.hex(), **places})
    return box

BoxValidator.__init__, BoxValidator._getBox = make, walk
for path in sys.argv[1:]:
    found.clear()
    with open(path, "rb") as file:
        BoxValidator("JP2", file.read()).validate()
    print(json.dumps(found))
"""


def tag(element):
    return element.tag.rpartition("}")[2]


def reported(element, depth=1):
    """The boxes below an element of its report: depth, name, and what it says of each; in XML boxes nothing is one."""
    for child in element:
        name = tag(child)
        if name == UNKNOWN or name in {theirs for _, theirs in NAMES.values()}:
            yield depth, name, {tag(each): each.text for each in child if len(each) == 0}
            if name in SUPERBOXES:
                yield from reported(child, depth + 1)


def accounts(folder, files):
    """Of each file what jpylyzer reports, and the places at which it reads."""
    report = subprocess.run(["jpylyzer", "--nopretty", *files], cwd=folder, capture_output=True)
    walk = subprocess.run([PYTHON, "-c", WALK, *files], cwd=folder, capture_output=True, text=True)
    if report.returncode or walk.returncode:
        give_up(f"jpylyzer ended with {report.returncode} and {walk.returncode}: {walk.stderr[-500:]}")
    told = [each for each in xml.fromstring(report.stdout) if tag(each) == "file"]
    names = [next(each.text for each in file.iter() if tag(each) == "fileName") for file in told]
    if names != files:
        give_up("jpylyzer did not report each file")
    properties = [next(each for each in file if tag(each) == "properties") for file in told]
    walked = map(json.loads, walk.stdout.splitlines())
    return {name: (list(reported(each)), places) for name, each, places in zip(files, properties, walked, strict=True)}


def its_value(name, said):
    """What our JSON has of a box by its account of it."""
    if name == "colourSpecificationBox":
        number = lambda text, names: names.get(text) or int(text)
        method = number(said["meth"], METHODS)
        return {"method": method, "colour_space": number(said["enumCS"], COLOUR_SPACES) if "enumCS" in said else None}
    letter = {"captureResolutionBox": "c", "displayResolutionBox": "d"}.get(name)
    if not letter:
        return None
    fraction = lambda side: [int(said[f"{side}R{letter}{field}"]) for field in "NDE"]
    return {"vertical": fraction("v"), "horizontal": fraction("h")}


# Ours


def our_name(box):
    return NAMES.get(bytes.fromhex(box["type_hex"]), (None, UNKNOWN))[1]


def our_value(box):
    if "colour" in box:
        return {key: box["colour"][key] for key in ("method", "colour_space")}
    if "resolution" in box:
        return {side: [each[key] for key in ("numerator", "denominator", "exponent")] for side, each in box["resolution"].items()}
    return None


PLACES = ["depth", "type_hex", "start", "length", "content", "content_length"]


def differences(ours, theirs):
    """What our listing and jpylyzer's account say differently."""
    report, places = theirs
    if ours["boxes"] is None:
        return [f"refused: {ours['refused']}"]
    boxes = ours["boxes"]
    compared = [
        ("names", [(box["depth"], our_name(box)) for box in boxes], [(depth, name) for depth, name, _ in report]),
        ("our own names", [box["name"] for box in boxes], [NAMES.get(bytes.fromhex(box["type_hex"]), (None,))[0] for box in boxes]),
        ("unknown types", [box["type"] for box in boxes if our_name(box) == UNKNOWN], [said["boxType"] for _, name, said in report if name == UNKNOWN]),
        ("values", [our_value(box) for box in boxes], [its_value(name, said) for _, name, said in report]),
        ("places", [[box[key] for key in PLACES] for box in boxes], [[box[key] for key in PLACES] for box in places]),
    ]
    return [f"{what}: {saw}, and jpylyzer {wanted}" for what, saw, wanted in compared if saw != wanted]


def listing(program, folder, file):
    ended = subprocess.run([program, "boxes", "--json", file], cwd=folder, capture_output=True)
    if ended.returncode not in (0, 1):
        give_up(f"{program} boxes ended with {ended.returncode}")
    return json.loads(ended.stdout)


def blind(program, folder, file, theirs):
    """Changes of one place of a file that are not seen beside the account of the file as it was, each in what it has to be seen in."""
    content = (folder / file).read_bytes()
    at = lambda kind, behind: content.index(kind) + behind
    changed = {
        "a letter of a type": (at(b"xml ", 0), "names"),
        "a letter of an unknown type": (at(b"free", 0), "unknown types"),
        "a superbox": (at(b"res ", 3), "names"),
        "a colour's method": (at(b"colr", 4), "values"),
        "a colour space": (at(b"colr", 10), "values"),
        "a numerator": (at(b"resc", 5), "values"),
        "a vertical exponent": (at(b"resc", 12), "values"),
        "a horizontal exponent": (at(b"resd", 13), "values"),
        "a length": (at(b"ihdr", -1), "refused"),
    }
    other = lambda place: content[:place] + bytes([content[place] ^ 2]) + content[place + 1 :]
    altered = {what: (other(place), seen_in) for what, (place, seen_in) in changed.items()}
    # the last box ends with the file
    altered["a byte more"] = content + b"\0", "places"
    for what, (made, seen_in) in altered.items():
        (folder / "changed.jp2").write_bytes(made)
        said = differences(listing(program, folder, "changed.jp2"), theirs)
        if not any(line.startswith(f"{seen_in}: ") for line in said):
            yield what


def main():
    arguments = argparse.ArgumentParser(description=__doc__.splitlines()[0])
    arguments.add_argument("--bin", default=ROOT / "rust/cli/target/release")
    program = Path(arguments.parse_args().bin).resolve() / "winterhasp"
    if not program.exists():
        give_up(f"no {program}; build it by cargo build --release in rust/cli/")
    if not install(PACKAGES):
        give_up(f"{', '.join(PACKAGES.values())} can't be installed")
    with tempfile.TemporaryDirectory() as name:
        folder = Path(name)
        plain, not_made = compressed(folder)
        for words in not_made:
            print(f"not made: {words}")
        files = [f"{stem}.jp2" for stem in plain]
        for stem, content in plain.items():
            for way, made in varied(content).items():
                files.append(f"{stem}-{way}.jp2")
                (folder / files[-1]).write_bytes(made)
        told = accounts(folder, files)
        counts, differed = Counter(files=len(files)), 0
        for file, theirs in told.items():
            ours = listing(program, folder, file)
            said = differences(ours, theirs)
            differed += bool(said)
            for line in said:
                print(f"{file}: {line[:1500]}")
            boxes = ours["boxes"] or []
            counts["boxes"] += len(boxes)
            counts["colours"] += sum("colour" in box for box in boxes)
            counts["resolutions"] += sum("resolution" in box for box in boxes)
        file = next(file for file in files if file.endswith("-all.jp2"))
        unseen = list(blind(program, folder, file, told[file]))
    for what in unseen:
        print(f"jpylyzer: {what} in {file} is other than it was, and the comparison did not see it")
    few = [f"{counts[what]} {what} (needed: {least})" for what, least in LEAST.items() if counts[what] < least]
    for each in few:
        print(f"jpylyzer: too little was compared: {each}")
    print(f"jpylyzer: {', '.join(f'{counts[what]} {what}' for what in LEAST)} compared, {differed} files differed")
    return int(bool(differed or unseen or few))


if __name__ == "__main__":
    sys.exit(main())
