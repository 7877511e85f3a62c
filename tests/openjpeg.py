#!/usr/bin/env python3
"""Our tile-parts and tiles beside OpenJPEG's: tests/openjpeg.py [--seconds N] [--bin DIR]

Makes small images, compresses them by opj_compress over a grid of options, and for each file holds
  the tile-parts that `winterhasp list` lists to those that OpenJPEG meets as it decodes,
  each tile that `winterhasp tile` cuts, by each rule, decoded, to the crop of the whole picture, decoded,
  the components that `winterhasp show` tells to those that opj_dump tells,
  their sizes and places, in the image and in some tiles, and these tiles' own, to OpenJPEG's as it decodes, and
  what `winterhasp check` tells of its length table (TLM): it passes, and damaged in one place it differs there. One
  of OpenJPEG's with -POC and -TP lists the tile-parts that TNsot counts and that are not there: that differs too.

In place, by the default rule, every tile has to be equal, decoded plainly, with its own size and place, on
every grid and however it is compressed: to the crop of the whole picture, or if the whole is not decoded to
what OpenJPEG decodes of it where it is asked for that tile. Of a tile in which a component has no sample it
decodes neither. By Grok too every tile has to be equal, wherever it decodes the whole; of that it leaves out
a tile whose TNsot counts tile-parts that are not there, as OpenJPEG writes it with -POC and -TP. Components
are compared as they are decoded; where both tools make RGB of fewer samples of colour, the first column and
row of a tile that starts at an odd one may have other colours, and nothing else.

By the two other rules a tile is moved to the origin as it is cut, so that pixels may be wrong: right and
wrong tiles are counted by kind of grid and by rule. What has to hold:
  By both rules every tile is equal where image and tile origin are 0 and tile sides and subsampling are
  powers of two, a side at least 2^levels times the subsampling.
  By Annex B's rule so is every tile but those of full size where the image starts half a side behind the
  tiles, if half a side is as large.
  Where image and tile origin are equal both rules cut the same.
  By Annex B's rule every tile is cut, on every grid, and decodes to its own size, moved: to the origin, or
  if it has full size, and so keeps its header, to where that has tile 0. In samples that is another size
  than its own where the subsampling falls otherwise there, or where that header's tile 0 is smaller.
  Of a tile that decodes wrong `tile` has said so, but where a side is too small.
What they cut is decoded twice: tile 0 of it, and plainly, all of it. A tile of full size keeps the
whole image's size, so there the plain picture is that large, and the tile is its upper left corner.

A file with the packet headers of all tiles in its main header (PPM) is made of OpenJPEG's, and has to be
refused by every rule: decoded, a tile that is cut out of it all the same is wrong. With packet lengths
there (PLM), or packet headers in each tile-part's header (PPT), tiles have to be equal by both decoders.
Status 1 if anything differs that must not, or if too little was compared; 2 if the run can't be made.
"""

import argparse
import itertools
import json
import re
import shutil
import struct
import subprocess
import sys
import tempfile
import time
from collections import Counter, defaultdict
from concurrent.futures import ThreadPoolExecutor
from pathlib import Path
from typing import NamedTuple

import lengths
import packed
from grids import COLOUR, GRAY, GRIDS_IN_PLACE, GRK_COMPRESS, OPJ_COMPRESS, Grid, cases, compressed, write_images
from pictures import Component, Library, corner, decoded, grok, in_gray_jp2, install, rectangle, sizes, told

ROOT = Path(__file__).resolve().parent.parent
WORKERS = 2
IN_PLACE, *MOVING = RULES = ["in-place", "annex-b", "original"]
ANNEX_B, ORIGINAL = MOVING
MUST = "origins 0, powers of two, large enough"
HALF = "image half a side behind the tiles, powers of two, large enough"
# There have to be so many in a run of 180 seconds; with the command under an emulator there are some twice as many.
# Files of the first kind, and tiles that are equal by each rule.
LEAST_FILES = 15
LEAST_TILES = 100
# Tiles of the second kind that are equal by Annex B's rule.
LEAST_HALF = 20
# Tiles with their own size by Annex B's rule, of all grids whose tiles start before the image.
LEAST_APART = 40
# Tiles in which components are held, where image and tile origin are equal, and where they differ.
LEAST_SIZED = 60
LEAST_SIZED_APART = 20
# Tiles that are equal in place by OpenJPEG, and by Grok; of each feature of a file; and shown as RGB by each.
LEAST_IN_PLACE = 400
LEAST_OF_A_FEATURE = 10
LEAST_RGB = 10
# Length tables that pass, of OpenJPEG and of Grok, each with what is made of it; and files without one.
LEAST_TABLES = 20
LEAST_TABLES_OF_GROK = 2
LEAST_WITHOUT_TABLE = 30


def give_up(why):
    print(f"openjpeg: {why}", file=sys.stderr)
    sys.exit(2)


# Codestreams, ISO/IEC 15444-1 Annex A, and tiles, Annex B

TLM_MARKER, SOT_MARKER = 0xFF55, 0xFF90


class Siz(NamedTuple):
    """A codestream's own account of image and tiles, with (dx, dy) of each component."""

    size: tuple
    origin: tuple
    tile: tuple
    tile_origin: tuple
    components: list


def markers(codestream):
    """Of the main header, behind SOC; OpenJPEG writes no delimiters there."""
    found, at = [], 2
    while not found or found[-1] != SOT_MARKER:
        marker, length = struct.unpack_from(">HH", codestream, at)
        found.append(marker)
        at += 2 + length
    return found


def read_siz(codestream):
    numbers = struct.unpack_from(">8IH", codestream, 8)
    pairs = [numbers[at : at + 2] for at in range(0, 8, 2)]
    components = [struct.unpack_from("BB", codestream, 43 + 3 * at) for at in range(numbers[8])]
    return Siz(*pairs, components)


def is_power_of_two(number):
    return number & (number - 1) == 0


TOO_SMALL = "side too small"


def kind(siz, levels):
    """What keeps tiles from being moved to the origin without loss, or MUST, or HALF."""
    needed = [max(factors) << levels for factors in zip(*siz.components)]
    reasons = []
    if not all(map(is_power_of_two, siz.tile)):
        reasons.append("side not a power of two")
    if not all(map(is_power_of_two, sum(siz.components, ()))):
        reasons.append("subsampling not a power of two")
    if any(side < least for side, least in zip(siz.tile, needed)):
        reasons.append(TOO_SMALL)
    if siz.origin != siz.tile_origin:
        halves = [side // 2 for side in siz.tile]
        large = all(half >= least for half, least in zip(halves, needed))
        behind = all(start in (0, half) for start, half in zip(siz.origin, halves))
        if siz.tile_origin == (0, 0) and behind and large and not reasons:
            return HALF
        reasons.insert(0, "tiles start before the image")
    elif siz.origin != (0, 0):
        reasons.insert(0, "origins equal, not 0")
    elif reasons:
        reasons.insert(0, "origins 0")
    return ", ".join(reasons) or MUST


def up(number, divisor):
    return -(-number // divisor)


def bounds(siz, tile):
    """((x0, x1), (y0, y1)) of a tile on the reference grid."""
    columns = up(siz.size[0] - siz.tile_origin[0], siz.tile[0])
    found = []
    for axis, place in enumerate((tile % columns, tile // columns)):
        start = siz.tile_origin[axis] + place * siz.tile[axis]
        end = min(start + siz.tile[axis], siz.size[axis])
        found.append((max(start, siz.origin[axis]), end))
    return found


def samples_in(siz, area):
    """(columns, rows) of each component in ((x0, x1), (y0, y1)) of the reference grid."""
    return [tuple(up(end, apart) - up(start, apart) for (start, end), apart in zip(area, factors)) for factors in siz.components]


def is_full(siz, tile):
    return tuple(end - start for start, end in bounds(siz, tile)) == siz.tile


def moved(siz, tile):
    """Where the standard has the tile once it is cut: at the origin, or if it keeps its header at that one's tile 0."""
    if is_full(siz, tile):
        return bounds(siz, 0)
    return [(0, end - start) for start, end in bounds(siz, tile)]


def area(axes, factors=(1, 1)):
    """x0, y0, x1, y1 of ((x0, x1), (y0, y1)), or of a component there, on its own grid."""
    (x0, x1), (y0, y1) = ([up(edge, factor) for edge in edges] for edges, factor in zip(axes, factors))
    return x0, y0, x1, y1


def areas(siz, tile):
    """Of a tile's components, each on its own grid."""
    return [area(bounds(siz, tile), factors) for factors in siz.components]


def crop(siz, tile, planes):
    """A tile's part of the whole picture's planes."""
    found = []
    for factors, plane in zip(siz.components, planes):
        left, top = (up(start, factor) for start, factor in zip(siz.origin, factors))
        x0, y0, x1, y1 = area(bounds(siz, tile), factors)
        found.append(rectangle(plane, x0 - left, y0 - top, x1 - x0, y1 - y0))
    return found


# Colours


def is_shown_as_rgb(siz):
    """Whether both tools make RGB of it: three components of which two have fewer samples."""
    first, *others = siz.components
    return first == (1, 1) and others in ([(2, 2)] * 2, [(2, 1)] * 2)


RGB = EQUAL_RGB, FIRST_RGB, OTHER_RGB = ["equal", "first column or row", "other"]


def rgb(siz, tile, shown, whole):
    """What came of a tile as RGB beside the crop of the whole: a tile that starts at an odd column or row has no sample of colour
    there, and so the tools give that column or row, and no other, colours of its own."""
    if not shown or not whole:
        return None
    full = siz._replace(components=[(1, 1)] * len(siz.components))
    wanted = crop(full, tile, whole)
    if shown == wanted:
        return EQUAL_RGB
    x, y, _, _ = area(bounds(siz, tile))
    cut = lambda planes: [rectangle(plane, x % 2, y % 2, plane[0] - x % 2, plane[1] - y % 2) for plane in planes]
    if sizes(shown) == sizes(wanted) and (x % 2 or y % 2) and cut(shown) == cut(wanted):
        return FIRST_RGB
    return OTHER_RGB


# Components

EDGES = ["x0", "y0", "x1", "y1"]


def dumped(path):
    """The image's area on the reference grid, and the components, as opj_dump tells them: it tells no area of theirs."""
    info, _, _ = (told(["opj_dump", "-i", path]) or b"").decode().partition("Codestream info")
    area = tuple(int(number) for edge in EDGES for number in re.findall(rf"\b{edge}=(\d+)", info))
    found = re.findall(r"\bdx=(\d+), dy=(\d+)\s+prec=(\d+)\s+sgnd=(\d+)", info)
    return area, [Component(bits, sign == 1, (dx, dy)) for dx, dy, bits, sign in (map(int, each) for each in found)]


def area_of(fields):
    return tuple(fields[edge] for edge in EDGES)


def read_components(fields):
    """The same of what `show` has as JSON, with their areas."""
    described = fields["described"]
    components = [Component(one["bits"], one["signed"], (one["xrsiz"], one["yrsiz"]), area_of(one)) for one in described]
    return area_of(fields["area"]), components


# What a plain decode shows.
THE_TILE = "plain: the tile"
AT_THE_CORNER = "plain: at the corner"
SOMETHING_ELSE = "plain: other"


def view(shown, tile, whole):
    """What is shown, where `tile` should be; `whole` is the picture that it was cut from."""
    if shown == tile:
        return THE_TILE
    if shown and sizes(shown) == sizes(whole) and corner(shown, tile) == tile:
        return AT_THE_CORNER
    return SOMETHING_ELSE


# One file

NOT_MADE = "not compressed"
LISTS_DIFFER = "tile-parts differ"

# Outcomes of a tile that was cut, and that there is something to hold to.
EQUAL = "equal"
WRONG = OTHER_PIXELS, OTHER_SIZE, NOT_DECODED = ["other pixels", "other size", "not decoded"]
# Outcomes of one that was not, or that there is nothing to hold to. Where a component has no sample OpenJPEG decodes
# neither the tile alone nor, where it is asked for it, the tile of the whole.
NOT_CUT, WITH_TLM, NO_WHOLE, NO_SAMPLE = "not cut", "cut with TLM", "whole not decoded", "no sample"
NOT_HELD = [NOT_CUT, WITH_TLM, NO_WHOLE, NO_SAMPLE]
# Of one that Grok decodes, and does not put into the whole.
LEFT_OUT = "left out of the whole"
# Parts of the notes by which `tile` tells of a wrong one before it is decoded.
MAY_BE_WRONG, IS_WRONG = "may decode to other pixels", "decodes wrong"
OPENJPEG, GROK = DECODERS = ["OpenJPEG", "Grok"]


class Cut(NamedTuple):
    """A tile that was cut: its file, what that holds, or nothing if it was refused, and what was said."""

    path: Path
    content: bytes
    said: str


class Held(NamedTuple):
    """What came of a tile that was cut: its outcome, the sizes that it decodes to, and what a plain decode shows."""

    outcome: str
    sizes: list = None
    view: str = None


# What is counted of tiles that have to be as they are.
OWN_SIZE = "own size"


class Seen(NamedTuple):
    """What came of one file: tiles counted by rule under their outcome, and under what a plain decode of them
    shows; those that had to be as they are; some counted under what came of the sizes in them; in place, by decoder
    under their outcome, and as RGB; what was told of its length table, under the tool that wrote it, and of what was
    made of that; what the file has; troubles as text."""

    kind: str
    outcomes: Counter
    views: Counter
    bound: Counter
    sized: Counter
    decoders: Counter
    rgb: Counter
    tables: Counter
    features: tuple
    troubles: list

    @classmethod
    def empty(cls, kind, features=()):
        return cls(kind, *(Counter() for _ in range(7)), tuple(features), [])

    @classmethod
    def without_tiles(cls, kind, name):
        seen = cls.empty(kind)
        seen.troubles.append(f"{kind}: {name}")
        return seen


def told_wrong(cut, held, kind):
    """What `tile` should have said of a tile, or should not."""
    warned = MAY_BE_WRONG in cut.said or IS_WRONG in cut.said
    if held.outcome in WRONG and not warned and not kind.endswith(TOO_SMALL):
        yield f"{held.outcome}, and nothing was said"
    if held.outcome == EQUAL and IS_WRONG in cut.said:
        yield f"equal, and it was said: {cut.said}"


def outcome_of(planes, wanted):
    if not wanted:
        return NO_WHOLE
    if not planes:
        return NOT_DECODED
    if sizes(planes) != sizes(wanted):
        return OTHER_SIZE
    return EQUAL if planes == wanted else OTHER_PIXELS


class Whole(NamedTuple):
    """One file: its bare codestream, the picture as the library decodes it, and its planes by opj_decompress."""

    path: Path
    codestream: Path
    siz: Siz
    picture: object
    planes: list


class Run:
    def __init__(self, binary, folder, seconds):
        self.winterhasp = binary
        self.folder = folder
        self.until = time.monotonic() + seconds
        self.library = Library()
        self.images = write_images(folder)

    def file(self, number, case):
        """What was seen, or none if time is up."""
        if time.monotonic() > self.until:
            return None
        folder = self.folder / f"file{number}"
        folder.mkdir()
        path = folder / f"whole.{case.suffix}"
        try:
            if not self.compressed(case.grid.image, path, case.words(), case.tool):
                return Seen.without_tiles(NOT_MADE, case.name())
            return self.compared(path, case)
        finally:
            shutil.rmtree(folder)

    def compressed(self, image, path, words, tool=OPJ_COMPRESS):
        return compressed(self.images[image], path, words, tool)

    def compared(self, path, case):
        name = case.name()
        listed = self.listed(path)
        (start, length), *_ = [*listed["codestream"], (0, 0)]
        parts = [(tile, start + at, size) for tile, at, size in listed["part"]]
        index = self.library.index(path)
        # there are some that it wrote, and that it does not decode at all
        if index != (start, parts) and not (case.in_place and index is None):
            return Seen.without_tiles(LISTS_DIFFER, name)
        # As a bare codestream, since a JP2's colours may be converted.
        codestream = path.with_name("codestream.j2k")
        codestream.write_bytes(path.read_bytes()[start : start + length])
        siz = read_siz(codestream.read_bytes())
        tiles = sorted({tile for tile, _, _ in parts})
        seen = Seen.empty(case.in_place or kind(siz, case.grid.levels), case.features())
        some = {tiles[0], tiles[len(tiles) // 2], tiles[-1]}
        for what in self.components(path, siz, some, seen.sized):
            seen.troubles.append(f"{what}: {name}")
        for what in self.tables(path, codestream, case.tool, seen.tables):
            seen.troubles.append(f"{what}: {name}")
        whole = Whole(path, codestream, siz, self.library.picture(codestream), decoded(codestream))
        for what in self.in_place(whole, tiles, some if case.in_place else tiles, seen):
            seen.troubles.append(f"{what} {IN_PLACE}: {name}")
        for tile in () if case.in_place else tiles:
            for what in self.tile(whole, tile, seen):
                seen.troubles.append(f"tile {tile} {what}: {name}")
        return seen

    # In place

    def in_place(self, whole, tiles, some, seen):
        """Counts what came of each tile in place, by OpenJPEG and by Grok; gives what must not be and is. The tool decodes some."""
        folder = whole.path.with_name(IN_PLACE)
        folder.mkdir()
        for tile in tiles:
            cut = self.cut(whole.path, tile, IN_PLACE, folder / f"tile{tile}.j2k")
            outcome = self.outcome_in_place(whole, tile, cut)
            seen.outcomes[IN_PLACE, outcome] += 1
            seen.decoders[OPENJPEG, outcome] += 1
            if outcome in WRONG or outcome in (NOT_CUT, WITH_TLM):
                yield f"tile {tile} {outcome} {cut.said}"
            if cut.said:
                yield f"tile {tile}, and it was said: {cut.said}"
            if tile in some and outcome == EQUAL:
                yield from self.shown_in_place(whole, tile, cut, seen)
        yield from self.grok_in_place(whole, tiles, folder, seen)

    def outcome_in_place(self, whole, tile, cut):
        if cut.content is None:
            return NOT_CUT
        if TLM_MARKER in markers(cut.content):
            return WITH_TLM
        siz = whole.siz
        if whole.picture:
            wanted = crop(siz, tile, whole.picture.planes)
        else:
            asked = self.library.picture(whole.codestream, tile)
            wanted = asked and asked.planes
        picture = self.library.picture(cut.path)
        if not picture and any(0 in size for size in samples_in(siz, bounds(siz, tile))):
            return NO_SAMPLE if not self.library.picture(whole.codestream, tile) else NOT_DECODED
        if picture and (picture.area, picture.areas) != (area(bounds(siz, tile)), areas(siz, tile)):
            return OTHER_SIZE
        return outcome_of(picture and picture.planes, wanted)

    def shown_in_place(self, whole, tile, cut, seen):
        """What opj_decompress makes of it, plainly."""
        shown = decoded(cut.path)
        if is_shown_as_rgb(whole.siz):
            yield from self.shown_as_rgb(OPENJPEG, whole, tile, shown, whole.planes, seen)
        elif whole.planes:
            seen.views[IN_PLACE, shown_as := view(shown, crop(whole.siz, tile, whole.planes), whole.planes)] += 1
            if shown_as != THE_TILE:
                yield f"tile {tile} {shown_as}"

    def shown_as_rgb(self, decoder, whole, tile, shown, planes, seen):
        outcome = rgb(whole.siz, tile, shown, planes)
        seen.rgb[decoder, outcome] += 1
        if outcome == OTHER_RGB:
            yield f"tile {tile} as RGB by {decoder}: {outcome}"

    def grok_in_place(self, whole, tiles, folder, seen):
        """All at once; where it makes RGB of them, the components as they are from a JP2 as well."""
        shutil.copy(whole.codestream, folder / "whole.j2k")
        shown = grok(folder)
        if is_shown_as_rgb(whole.siz):
            for tile in tiles:
                yield from self.shown_as_rgb(GROK, whole, tile, shown[f"tile{tile}"], shown["whole"], seen)
            for path in list(folder.iterdir()):
                path.with_suffix(".jp2").write_bytes(in_gray_jp2(path.read_bytes()))
                path.unlink()
            shown = grok(folder)
        unfinished = packed.unfinished(whole.codestream.read_bytes())
        for tile in tiles:
            wanted = shown["whole"] and crop(whole.siz, tile, shown["whole"])
            outcome = outcome_of(shown[f"tile{tile}"], wanted)
            if outcome == OTHER_PIXELS and tile in unfinished:
                outcome = LEFT_OUT
            seen.decoders[GROK, outcome] += 1
            if outcome in WRONG:
                yield f"tile {tile} by {GROK}: {outcome}"

    # Moved

    def tile(self, whole, tile, seen):
        """Counts what came of a tile by either rule that moves it; gives what must not be and is."""
        siz, planes = whole.siz, whole.planes
        cuts = {rule: self.cut(whole.path, tile, rule) for rule in MOVING}
        same = cuts[ANNEX_B].content == cuts[ORIGINAL].content
        if siz.origin == siz.tile_origin and not same:
            yield "is cut otherwise by the other rule"
        expected = planes and crop(siz, tile, planes)
        for rule, cut in cuts.items():
            if rule == ANNEX_B or not same:
                held = self.held(cut, expected, planes)
            seen.outcomes[rule, held.outcome] += 1
            seen.views[rule, held.view] += 1
            troubles = [*self.bound(rule, siz, tile, held, seen), *told_wrong(cut, held, seen.kind)]
            if rule == ANNEX_B:
                troubles += self.sized(siz, tile, cut, held, seen)
            yield from (f"by {rule} {what}" for what in troubles)

    def bound(self, rule, siz, tile, held, seen):
        """Where pixels have to be equal."""
        if seen.kind == MUST or seen.kind == HALF and rule == ANNEX_B and not is_full(siz, tile):
            seen.bound[rule, seen.kind] += held.outcome == EQUAL
            if held.outcome != EQUAL:
                yield held.outcome
            if held.view == SOMETHING_ELSE:
                yield held.view

    def sized(self, siz, tile, cut, held, seen):
        """What has to hold by Annex B's rule on every grid."""
        if held.outcome == NOT_CUT:
            yield f"refused: {cut.said}"
        if held.sizes:
            own = held.sizes == samples_in(siz, bounds(siz, tile))
            seen.bound[OWN_SIZE] += own and siz.origin != siz.tile_origin
            if held.sizes != samples_in(siz, moved(siz, tile)):
                yield f"has the size {held.sizes}"

    def cut(self, path, tile, rule, out=None):
        out = out or path.with_name(f"tile{tile}.{rule}.j2k")
        # the default rule has no need to be named
        named = [] if rule == IN_PLACE else ["--rule", rule]
        words = [self.winterhasp, "tile", path, tile, *named, "-o", out]
        ended = subprocess.run([str(word) for word in words], capture_output=True, text=True)
        return Cut(out, out.read_bytes() if ended.returncode == 0 else None, ended.stderr.strip())

    def held(self, cut, expected, whole):
        if cut.content is None:
            return Held(NOT_CUT)
        if TLM_MARKER in markers(cut.content):
            return Held(WITH_TLM)
        planes = decoded(cut.path, "-t", "0")
        if not expected:
            return Held(NO_WHOLE, planes and sizes(planes))
        shown = view(decoded(cut.path), expected, whole)
        return Held(outcome_of(planes, expected), planes and sizes(planes), shown)

    # Components and lists

    def components(self, path, siz, tiles, sized):
        """Counts what came of the components in each of these tiles; gives what must not differ and does."""
        shown = [(tile, self.shown(path, "--tile", tile)) for tile in tiles]
        area, components = read_components(shown[0][1]["components"])
        if dumped(path) != (area, [one._replace(area=None) for one in components]):
            yield "components differ from opj_dump's"
        if self.library.components(path) != (area, components):
            yield "sizes of components differ"
        for tile, fields in shown:
            outcome = self.outcome_inside(path, tile, fields["in_tile"])
            sized[siz.origin == siz.tile_origin, outcome] += 1
            if outcome in ("different", "refused"):
                yield f"components in tile {tile} {outcome}"

    def outcome_inside(self, path, tile, inside):
        if "refused" in inside:
            return "refused"
        wanted = self.library.components(path, tile)
        if wanted is None:
            return "not decoded"
        return "equal" if read_components(inside) == wanted else "different"

    def tables(self, path, codestream, tool, counted):
        """Counts what is told of its length table, and of what is made of it; gives what must not be told and is."""
        content = codestream.read_bytes()
        whole = lengths.Codestream.read(content)
        wanted = whole.told()
        variants = lengths.variants(whole) if wanted == lengths.Told(lengths.PASS) else {}
        folder = path.with_name("tables")
        folder.mkdir()
        for name, (made, _) in variants.items():
            (folder / name).write_bytes(made)
        told, *found = self.checked(path, folder)
        counted[tool, told.verdict] += 1
        if told != wanted or whole.written() != content:
            yield f"its length table: {told}, and not {wanted}"
        if told.verdict == lengths.DIFFERS and not packed.unfinished(content):
            yield f"its length table is wrong: {told}"
        for (name, (_, wanted)), told in itertools.zip_longest(sorted(variants.items()), found):
            counted[name, told.verdict] += 1
            if told != wanted:
                yield f"its length table, {name}: {told}, and not {wanted}"

    def checked(self, *paths):
        """What `check` tells of each file, in order."""
        command = [self.winterhasp, "check", "--json", *map(str, paths)]
        out = subprocess.run(command, capture_output=True, text=True).stdout
        return [lengths.Told.of(json.loads(line)) for line in out.splitlines()]

    def shown(self, path, *words):
        """What `show` tells, also where it refuses a tile."""
        command = [self.winterhasp, "show", "--json", *words, path]
        return json.loads(subprocess.run([str(word) for word in command], capture_output=True).stdout)

    def listed(self, path):
        """The numbers of each line, under the line's word; no line if the file is refused."""
        found = defaultdict(list)
        for word, *numbers in map(bytes.split, (told([self.winterhasp, "list", path]) or b"").splitlines()):
            found[word.decode()].append(tuple(map(int, numbers)))
        return found


# Packets in the main header

PACKED_GRIDS = [Grid(GRAY, (64, 64), 3), Grid(COLOUR, (32, 32), 2, origin=(7, 9), tile_origin=(3, 5))]
PACKED_WAYS = [[], ["-I", "-c", "[32,32]", "-p", "RPCL"], ["-r", "20,5,1", "-p", "CPRL"]]
PPM, PLM, PPT = FORMS = ["PPM", "PLM", "PPT"]
# What OpenJPEG makes of one tile of the whole file is counted, and nothing hangs on it.
ASKED = f"{OPENJPEG}, asked for one tile of the whole"
REFUSED_PPM = "its main header holds the packet headers of all tiles (PPM"


class Packed:
    """Files with packet headers or lengths where OpenJPEG writes none."""

    def __init__(self, run):
        self.run = run
        self.tiles = Counter()
        self.troubles = []

    def all(self):
        for number, (grid, way) in enumerate(itertools.product(PACKED_GRIDS, PACKED_WAYS)):
            folder = self.run.folder / f"packed{number}"
            folder.mkdir()
            words = [*grid.words(), *way, "-SOP", "-EPH"]
            for what in self.file(folder, grid, words):
                self.troubles.append(f"{what}: {' '.join(words)}")
            shutil.rmtree(folder)

    def file(self, folder, grid, words):
        plain, lengths = folder / "plain.j2k", folder / "lengths.j2k"
        if not self.run.compressed(grid.image, plain, words) or not self.run.compressed(grid.image, lengths, [*words, "-PLT"]):
            yield NOT_MADE
            return
        made = {
            PPM: packed.with_ppm(plain.read_bytes()),
            PPT: packed.with_ppt(plain.read_bytes()),
            PLM: packed.with_plm(lengths.read_bytes()),
        }
        siz = read_siz(plain.read_bytes())
        pictures = self.decoded(folder / "of-the-whole", {"plain": plain.read_bytes()} | made)
        for form, codestream in made.items():
            for decoder, found in pictures.items():
                if not found["plain"] or found[form] != found["plain"]:
                    yield f"{form}: the whole is another picture by {decoder}"
            yield from self.cut(folder / form, form, codestream, siz, {decoder: found["plain"] for decoder, found in pictures.items()})

    def cut(self, folder, form, codestream, siz, pictures):
        """Each tile: of PPM by our own hand, once the command has refused it."""
        path = folder.with_suffix(".j2k")
        path.write_bytes(codestream)
        tiles = {}
        for tile in sorted({part.tile for part in packed.taken_apart(codestream)[1]}):
            if form == PPM:
                yield from self.refused(path, tile)
                asked = self.run.library.picture(path, tile)
                self.tiles[PPM, ASKED, outcome_of(asked and asked.planes, crop(siz, tile, pictures[OPENJPEG]))] += 1
                tiles[tile] = packed.cut_out(codestream, tile, area(bounds(siz, tile)))
            else:
                cut = self.run.cut(path, tile, IN_PLACE)
                tiles[tile] = cut.content
                if cut.content != packed.cut_out(codestream, tile, area(bounds(siz, tile))):
                    yield f"{form}: tile {tile} is cut otherwise {cut.said}"
                    return
        for decoder, shown in self.decoded(folder, tiles).items():
            for tile, planes in shown.items():
                outcome = outcome_of(planes, crop(siz, tile, pictures[decoder]))
                self.tiles[form, decoder, outcome] += 1
                # of PPM the first tile takes its own packet headers, and any other that one's
                if (outcome == EQUAL) != (form != PPM or tile == 0):
                    yield f"{form}: tile {tile} {outcome} by {decoder}"

    def refused(self, path, tile):
        for rule in RULES:
            cut = self.run.cut(path, tile, rule)
            if cut.content is not None or REFUSED_PPM not in cut.said or cut.path.exists():
                yield f"tile {tile} by {rule} is not refused: {cut.said}"

    def decoded(self, folder, codestreams):
        """Planes of each, by either decoder."""
        folder.mkdir()
        paths = {name: folder / f"{name}.j2k" for name in codestreams}
        for name, path in paths.items():
            path.write_bytes(codestreams[name])
        pictures = {name: self.run.library.picture(path) for name, path in paths.items()}
        by_grok = grok(folder)
        return {
            OPENJPEG: {name: picture and picture.planes for name, picture in pictures.items()},
            GROK: {name: by_grok[str(name)] for name in codestreams},
        }


# All of them


def kinds(seen):
    return sorted({one.kind for one in seen}, key=lambda kind: (kind in GRIDS_IN_PLACE, kind != MUST, kind))


def table(seen):
    """A row for each kind of grid and rule, or for both that move a tile where all is counted alike."""
    columns = [EQUAL, *WRONG, *NOT_HELD]
    views = [THE_TILE, AT_THE_CORNER, SOMETHING_ELSE]
    print("| kind of grid | rule | files | tiles | " + " | ".join(columns + views) + " |")
    print("|---|---|" + "---:|" * (2 + len(columns + views)))
    for sort in kinds(seen):
        chosen = [one for one in seen if one.kind == sort]
        sums = sum((one.outcomes for one in chosen), Counter())
        shown = sum((one.views for one in chosen), Counter())
        rows = {}
        for rule in [IN_PLACE] if sort in GRIDS_IN_PLACE else RULES:
            outcomes = [sums[rule, column] for column in columns]
            rows[rule] = [len(chosen), sum(outcomes), *outcomes, *(shown[rule, column] for column in views)]
        if ANNEX_B in rows and rows[ANNEX_B] == rows[ORIGINAL]:
            rows = {IN_PLACE: rows[IN_PLACE], "both others": rows[ANNEX_B]}
        for rule, cells in rows.items():
            print(f"| {sort} | {rule} | " + " | ".join(map(str, cells)) + " |")


def table_of_grok(seen):
    """Tiles in place, by Grok."""
    columns = [EQUAL, *WRONG, LEFT_OUT, NO_WHOLE]
    print("| kind of grid | tiles | " + " | ".join(columns) + " |")
    print("|---|" + "---:|" * (1 + len(columns)))
    for sort in kinds(seen):
        sums = sum((one.decoders for one in seen if one.kind == sort), Counter())
        cells = [sums[GROK, column] for column in columns]
        print(f"| {sort} | {sum(cells)} | " + " | ".join(map(str, cells)) + " |")


def table_of_features(seen):
    """Tiles that are equal in place, by what their file has; gives the fewest of any by either decoder."""
    found = {feature: Counter() for case in cases() for feature in case.features()}
    for one in seen:
        for feature, decoder in itertools.product(one.features, DECODERS):
            found[feature][decoder] += one.decoders[decoder, EQUAL]
    print("| what a file has | " + " | ".join(f"equal by {decoder}" for decoder in DECODERS) + " |")
    print("|---|" + "---:|" * len(DECODERS))
    for feature, counts in sorted(found.items()):
        print(f"| {feature} | " + " | ".join(str(counts[decoder]) for decoder in DECODERS) + " |")
    return {decoder: min(counts[decoder] for counts in found.values()) for decoder in DECODERS}


def table_of_tables(seen):
    """What was told of length tables, by who wrote the file, and by what was made of it."""
    found = sum((one.tables for one in seen), Counter())
    columns = [lengths.PASS, lengths.DIFFERS, lengths.REFUSED, lengths.NO_TABLE]
    print("| a length table | " + " | ".join(columns) + " |")
    print("|---|" + "---:|" * len(columns))
    for name in sorted({name for name, _ in found}):
        print(f"| {name} | " + " | ".join(str(found[name, column]) for column in columns) + " |")
    return found


def summary(results, files_packed):
    """Prints it; whether all is as it must be. A file that wasn't made is none of our trouble."""
    for trouble in itertools.chain(files_packed.troubles, *(one.troubles for one in results if one and one.kind != NOT_MADE)):
        print(trouble)
    not_made = sum(one is not None and one.kind == NOT_MADE for one in results)
    seen = [one for one in results if one and one.kind != NOT_MADE]
    table(seen)
    table_of_grok(seen)
    of_a_feature = table_of_features(seen)
    tables = table_of_tables(seen)
    as_rgb = sum((one.rgb for one in seen), Counter())
    for decoder in DECODERS:
        counts = ", ".join(f"{as_rgb[decoder, outcome]} {outcome}" for outcome in RGB)
        print(f"openjpeg: tiles in place as RGB by {decoder}: {counts}")
    for form, decoder in [*itertools.product(FORMS, DECODERS), (PPM, ASKED)]:
        counts = ", ".join(f"{files_packed.tiles[form, decoder, outcome]} {outcome}" for outcome in [EQUAL, *WRONG])
        print(f"openjpeg: tiles of files with {form} by {decoder}: {counts}")
    print(f"openjpeg: {not_made} files {NOT_MADE}")
    if None in results:
        print(f"{results.count(None)} files left out, as time was up")
    troubles = [*files_packed.troubles, *itertools.chain(*(one.troubles for one in seen))]
    outcomes = sum((one.outcomes for one in seen), Counter())
    tiles = Counter()
    for (rule, _), count in outcomes.items():
        tiles[rule] += count
    right = ", ".join(f"{outcomes[rule, EQUAL]} of {tiles[rule]} by {rule}" for rule in RULES)
    same = sum(one.kind != LISTS_DIFFER for one in seen)
    print(f"openjpeg: {len(seen)} files, {same} tile-part lists equal, tiles equal: {right}; {len(troubles)} troubles")
    bound = sum((one.bound for one in seen), Counter())
    sized = sum((one.sized for one in seen), Counter())
    decoders = sum((one.decoders for one in seen), Counter())
    files = sum(one.kind == MUST for one in seen)
    least = [
        *((f"tiles equal in place by {decoder}", decoders[decoder, EQUAL], LEAST_IN_PLACE) for decoder in DECODERS),
        *((f"of these at least by {decoder}, whatever a file has", of_a_feature[decoder], LEAST_OF_A_FEATURE) for decoder in DECODERS),
        *((f"tiles in place as RGB by {decoder}", as_rgb[decoder, EQUAL_RGB], LEAST_RGB) for decoder in DECODERS),
        (f"files: {MUST}", files, LEAST_FILES),
        *((f"tiles equal by {rule}: {MUST}", bound[rule, MUST], LEAST_TILES) for rule in MOVING),
        (f"tiles equal by {ANNEX_B}: {HALF}", bound[ANNEX_B, HALF], LEAST_HALF),
        (f"tiles with their own size by {ANNEX_B}, where tiles start before the image", bound[OWN_SIZE], LEAST_APART),
        ("tiles with equal components, where origins are equal", sized[True, "equal"], LEAST_SIZED),
        ("tiles with equal components, where tiles start before the image", sized[False, "equal"], LEAST_SIZED_APART),
        (f"length tables of {OPENJPEG} that pass", tables[OPJ_COMPRESS, lengths.PASS], LEAST_TABLES),
        (f"length tables of {GROK} that pass", tables[GRK_COMPRESS, lengths.PASS], LEAST_TABLES_OF_GROK),
        ("files without a length table", sum(tables[tool, lengths.NO_TABLE] for tool in (OPJ_COMPRESS, GRK_COMPRESS)), LEAST_WITHOUT_TABLE),
    ]
    for what, count, needed in least:
        print(f"openjpeg: {count} {what} (needed: {needed})")
    enough = all(count >= needed for _, count, needed in least)
    if not enough:
        print("openjpeg: too few files or tiles were compared where they must be equal")
    return enough and not troubles


def binary(folder):
    """The command line, if it has all that is asked of it."""
    path = Path(folder).resolve() / "winterhasp"
    if not path.exists():
        give_up(f"no {path}; build it by cargo build --release in rust/cli/")
    help_text = subprocess.run([path, "--help"], capture_output=True, text=True).stdout
    for command in ["list", "check", "show", "tile"]:
        if f"winterhasp {command} " not in help_text:
            give_up(f"{path} has no command {command}")
    help_text = subprocess.run([path, "tile", "--help"], capture_output=True, text=True).stdout
    if not all(rule in help_text for rule in RULES):
        give_up(f"{path} does not cut tiles by {', '.join(RULES)}")
    return path


def main():
    arguments = argparse.ArgumentParser(description=__doc__.splitlines()[0])
    arguments.add_argument("--seconds", type=float, default=180)
    arguments.add_argument("--bin", default=ROOT / "rust/cli/target/release")
    chosen = arguments.parse_args()
    program = binary(chosen.bin)
    if not install():
        give_up("libopenjp2-tools and grokj2k-tools can't be installed")
    with tempfile.TemporaryDirectory() as folder:
        run = Run(program, Path(folder), chosen.seconds)
        files_packed = Packed(run)
        with ThreadPoolExecutor(WORKERS) as workers:
            first = workers.submit(files_packed.all)
            files = [workers.submit(run.file, at, case) for at, case in enumerate(cases())]
            results = [file.result() for file in files]
            first.result()
    return 0 if summary(results, files_packed) else 1


if __name__ == "__main__":
    sys.exit(main())
