"""Boxes (docs/RULES.md, "Boxes"): trees of them as bytes, what has to be told of each, and the rule itself, box by box."""

import struct
from typing import NamedTuple

# ISO/IEC 15444-1, Annex I, with the names that jpylyzer has for them.
NAMES = {
    b"jP  ": ("signature", "signatureBox"),
    b"ftyp": ("file type", "fileTypeBox"),
    b"jp2h": ("JP2 header", "jp2HeaderBox"),
    b"ihdr": ("image header", "imageHeaderBox"),
    b"bpcc": ("bits per component", "bitsPerComponentBox"),
    b"colr": ("colour specification", "colourSpecificationBox"),
    b"pclr": ("palette", "paletteBox"),
    b"cmap": ("component mapping", "componentMappingBox"),
    b"cdef": ("channel definition", "channelDefinitionBox"),
    b"res ": ("resolution", "resolutionBox"),
    b"resc": ("capture resolution", "captureResolutionBox"),
    b"resd": ("default display resolution", "displayResolutionBox"),
    b"jp2c": ("codestream", "contiguousCodestreamBox"),
    b"jp2i": ("intellectual property", "intellectualPropertyBox"),
    b"xml ": ("XML", "xmlBox"),
    b"uuid": ("UUID", "uuidBox"),
    b"uinf": ("UUID info", "uuidInfoBox"),
    b"ulst": ("UUID list", "uuidListBox"),
    b"url ": ("URL", "urlBox"),
}
SUPERBOXES = b"jp2h", b"res ", b"uinf"
DEEPEST = 8
METHODS = {1: "enumerated", 2: "restricted ICC profile"}
COLOUR_SPACES = {16: "sRGB", 17: "greyscale", 18: "sYCC"}

# How a box says its length: in 4 bytes, in 8, or as 0, up to the end of the file.
SHORT, LONG, OPEN = "short", "long", "open"


class Box(NamedTuple):
    kind: bytes
    # Bytes, or a list of boxes.
    content: object = b""
    form: str = SHORT


class Entry(NamedTuple):
    depth: int
    kind: bytes
    start: int
    length: int
    content: int
    # The content, or of a box whose values are not told any bytes.
    body: bytes

    def content_length(self):
        return self.start + self.length - self.content


def header(kind, size, form):
    if form == LONG:
        return struct.pack(">I4sQ", 1, kind, 16 + size)
    return struct.pack(">I4s", 8 + size if form == SHORT else 0, kind)


def laid(boxes, at=0, depth=1):
    """Their bytes, and an entry of each, in file order."""
    whole, entries = b"", []
    for kind, content, form in boxes:
        start = at + len(whole)
        head = start + (16 if form == LONG else 8)
        held = []
        if isinstance(content, list):
            content, held = laid(content, head, depth + 1)
        whole += header(kind, len(content), form) + content
        entries += [Entry(depth, kind, start, at + len(whole) - start, head, content), *held]
    return whole, entries


def listed(file):
    """By the rule: an entry of each box, or the refusal's number and place."""
    entries = []
    refused = walked(file, 0, len(file), 1, entries)
    return refused or entries


def walked(file, at, end, depth, entries):
    while at < end:
        left = end - at
        if left < 8:
            return 27, at
        length, kind = struct.unpack_from(">I4s", file, at)
        if length == 1 and left < 16:
            return 13, at
        nothing_said = length == 0
        head = 16 if length == 1 else 8
        if length == 1:
            (length,) = struct.unpack_from(">Q", file, at + 8)
        elif nothing_said:
            length = left
        if (nothing_said and depth > 1) or length < head:
            return 28, at
        if at + length >= 2**64:
            return 16, at
        if length > left:
            return 27, at
        opens = kind in SUPERBOXES and length > head
        if opens and depth == DEEPEST:
            return 29, at
        entries.append(Entry(depth, kind, at, length, at + head, file[at + head : at + length]))
        refused = walked(file, at + head, at + length, depth + 1, entries) if opens else None
        if refused:
            return refused
        at += length
    return None


# What is told of a box


def type_text(kind):
    return "".join("\\\\" if byte == 92 else chr(byte) if 32 <= byte < 127 else f"\\x{byte:02x}" for byte in kind)


def name_of(entry):
    return NAMES.get(entry.kind, (None, None))[0]


def value_of(entry):
    """What JSON has more of colour and of resolution."""
    body = entry.body
    if entry.kind == b"colr" and len(body) >= 3:
        space = int.from_bytes(body[3:7], "big") if body[0] == 1 and len(body) >= 7 else None
        names = {"method_name": METHODS.get(body[0]), "colour_space_name": COLOUR_SPACES.get(space)}
        return {"colour": {"method": body[0], "colour_space": space} | names}
    if entry.kind in (b"resc", b"resd") and len(body) == 10:
        numbers = struct.unpack(">4H2b", body)
        fraction = lambda at: {"numerator": numbers[2 * at], "denominator": numbers[2 * at + 1], "exponent": numbers[4 + at]}
        return {"resolution": {"vertical": fraction(0), "horizontal": fraction(1)}}
    return {}


def value_text(value):
    if "colour" in value:
        colour = value["colour"]
        method = colour["method_name"] or f"method {colour['method']}"
        if colour["colour_space"] is None:
            return f": {method}"
        name = colour["colour_space_name"]
        return f": {method}, " + (f"{name} ({colour['colour_space']})" if name else f"colour space {colour['colour_space']}")
    if "resolution" in value:
        sides = ["{} {numerator}/{denominator} x 10^{exponent}".format(side, **each) for side, each in value["resolution"].items()]
        return f": {', '.join(sides)} samples per metre"
    return ""


def as_json(entry):
    told = {"depth": entry.depth, "type": type_text(entry.kind), "type_hex": entry.kind.hex(), "name": name_of(entry)}
    places = {"start": entry.start, "length": entry.length, "content": entry.content, "content_length": entry.content_length()}
    return told | places | value_of(entry)


def as_lines(entries):
    """The lines of the boxes, and their head."""
    cells = [["type", "start", "length", "content", "content length", "name"]]
    for entry in entries:
        numbers = map(str, [entry.start, entry.length, entry.content, entry.content_length()])
        indented = "  " * (entry.depth - 1) + f'"{type_text(entry.kind)}"'
        name = name_of(entry)
        cells.append([indented, *numbers, name + value_text(value_of(entry)) if name else ""])
    widths = [max(map(len, column)) for column in zip(*cells)]
    line = lambda kind, *numbers, name: "  ".join([kind.ljust(widths[0]), *(each.rjust(width) for each, width in zip(numbers, widths[1:])), name])
    return [line(*row[:-1], name=row[-1]).rstrip() for row in cells]
