"""Codestreams whose main header speaks of all tile-parts' packets, made of OpenJPEG's: `with_ppm` moves packet headers there, and
`with_plm` packet lengths; `with_ppt` moves packet headers to those of their own tile-parts (ISO/IEC 15444-1, A.7). No tool at
hand writes such a file."""

import struct
from typing import NamedTuple

SOC, EOC = b"\xff\x4f", b"\xff\xd9"
SOT, SOD, SOP, EPH = 0xFF90, 0xFF93, b"\xff\x91\0\4", b"\xff\x92"
SIZ, PLM, PLT, PPM, PPT, COM = 0xFF51, 0xFF57, 0xFF58, 0xFF60, 0xFF61, 0xFF64
# What a segment holds at most, behind its length and its number.
LONGEST = 65_535 - 3


class Part(NamedTuple):
    """A tile-part: its tile, TPsot and TNsot, the segments behind SOT, and what stands behind SOD."""

    tile: int
    numbers: bytes
    segments: list
    packets: bytes

    def written(self):
        header = b"".join(written(*segment) for segment in self.segments) + struct.pack(">H", SOD)
        length = 12 + len(header) + len(self.packets)
        return struct.pack(">HHHI", SOT, 10, self.tile, length) + self.numbers + header + self.packets


def written(marker, content):
    return struct.pack(">HH", marker, 2 + len(content)) + content


def segments_until(codestream, at, last):
    """The segments from there up to a marker, and where that stands."""
    found = []
    while True:
        marker, length = struct.unpack_from(">HH", codestream, at)
        if marker == last:
            return found, at
        found.append((marker, codestream[at + 4 : at + 2 + length]))
        at += 2 + length


def taken_apart(codestream):
    """The main header's segments, and the tile-parts."""
    header, at = segments_until(codestream, len(SOC), SOT)
    parts = []
    while codestream[at : at + 2] != EOC:
        _, _, tile, length = struct.unpack_from(">HHHI", codestream, at)
        segments, sod = segments_until(codestream, at + 12, SOD)
        parts.append(Part(tile, codestream[at + 10 : at + 12], segments, codestream[sod + 2 : at + length]))
        at += length
    return header, parts


def unfinished(codestream):
    """The tiles whose TNsot counts more tile-parts than there are."""
    parts = taken_apart(codestream)[1]
    tiles = [part.tile for part in parts]
    return {part.tile for part in parts if part.numbers[1] > tiles.count(part.tile)}


def joined(header, parts):
    return SOC + b"".join(written(*segment) for segment in header) + b"".join(part.written() for part in parts) + EOC


def numbered(marker, content):
    """As many segments as it takes, each with its number."""
    pieces = [content[at : at + LONGEST] for at in range(0, len(content), LONGEST)]
    return [(marker, bytes([number]) + piece) for number, piece in enumerate(pieces)]


def divided(packets):
    """Each packet's SOP, header with its EPH, and body. No two bytes above FF8F stand inside a header or a body."""
    found = []
    for packet in packets.split(SOP)[1:]:
        header, eph, body = packet[2:].partition(EPH)
        found.append((SOP + packet[:2], header + eph, body))
    return found


def unpacked(part):
    """A tile-part's packet headers, and the tile-part without them."""
    packets = divided(part.packets)
    bare = part._replace(packets=b"".join(sop + body for sop, _, body in packets))
    return b"".join(header for _, header, _ in packets), bare


def with_ppm(codestream):
    """The same picture, compressed with -SOP -EPH, with the packet headers of all tile-parts in its main header."""
    header, parts = taken_apart(codestream)
    found = [unpacked(part) for part in parts]
    content = b"".join(struct.pack(">I", len(headers)) + headers for headers, _ in found)
    return joined(header + numbered(PPM, content), [bare for _, bare in found])


def with_ppt(codestream):
    """The same, with the packet headers in the header of each tile-part."""
    header, parts = taken_apart(codestream)
    found = [unpacked(part) for part in parts]
    return joined(header, [bare._replace(segments=bare.segments + numbered(PPT, headers)) for headers, bare in found])


def with_plm(codestream):
    """The same picture, compressed with -PLT, with the packet lengths of all tile-parts in its main header."""
    header, parts = taken_apart(codestream)
    packed, bare = b"", []
    for part in parts:
        lengths = b"".join(content[1:] for marker, content in part.segments if marker == PLT)
        packed += struct.pack("B", len(lengths)) + lengths
        bare.append(part._replace(segments=[segment for segment in part.segments if segment[0] != PLT]))
    return joined(header + numbered(PLM, packed), bare)


def with_segment(codestream, marker, content):
    """One more segment at the end of the main header."""
    header, parts = taken_apart(codestream)
    return joined([*header, (marker, content)], parts)


def with_segment_behind(codestream, marker, content):
    """One more segment in the first tile-part's header."""
    header, (first, *parts) = taken_apart(codestream)
    return joined(header, [first._replace(segments=[*first.segments, (marker, content)]), *parts])


def cut_out(codestream, tile, area):
    """A tile alone, as tile 0, in its place, which is that: x0, y0, x1, y1."""
    (_, siz), *header = taken_apart(codestream)[0]
    x0, y0, x1, y1 = area
    siz = siz[:2] + struct.pack(">8I", x1, y1, x0, y0, x1 - x0, y1 - y0, x0, y0) + siz[34:]
    parts = [part._replace(tile=0) for part in taken_apart(codestream)[1] if part.tile == tile]
    return joined([(SIZ, siz), *header], parts)
