"""What tests/openjpeg.py compresses: images, grids of tiles over them, and the ways in which each is written."""

import itertools
import random
import struct
from collections import Counter
from typing import NamedTuple

from pictures import told

SEED = 15444


class Image(NamedTuple):
    """Size in samples of a component that isn't subsampled; (dx, dy) of each component."""

    width: int
    height: int
    components: tuple = ((1, 1),)
    bits: int = 8
    signed: bool = False

    def sampling(self):
        return ":".join(f"{dx}x{dy}" for dx, dy in self.components)


class Grid(NamedTuple):
    """What decides where tiles stand and how they are divided."""

    image: Image
    tile: tuple
    levels: int
    origin: tuple = (0, 0)
    tile_origin: tuple = (0, 0)
    subsampling: tuple = (1, 1)

    def is_sampled_fully(self):
        return {*self.image.components, self.subsampling} == {(1, 1)}

    def words(self):
        pair = "{0[0]},{0[1]}".format
        words = ["-t", pair(self.tile), "-n", str(self.levels + 1)]
        for option, value, usual in [
            ("-d", self.origin, (0, 0)),
            ("-T", self.tile_origin, (0, 0)),
            ("-s", self.subsampling, (1, 1)),
        ]:
            words += [option, pair(value)] if value != usual else []
        return words


GRAY = Image(130, 100)
GRAY_12 = Image(90, 70, bits=12)
COLOUR = Image(97, 75, ((1, 1),) * 3)
HALF_WIDTH = Image(128, 60, ((1, 1), (2, 1)))
CHROMA_HALVED = Image(128, 96, ((1, 1), (2, 2), (2, 2), (1, 1)))
# 4:2:0
CHROMA_420 = Image(126, 90, ((1, 1), (2, 2), (2, 2)))
CHROMA_422 = Image(126, 90, ((1, 1), (2, 1), (2, 1)))
CHROMA_QUARTERED = Image(60, 52, ((1, 1), (4, 4)))
MIXED = Image(120, 99, ((1, 1), (3, 3), (2, 1)))
SMALL = Image(41, 33)
TINY = Image(16, 14)
SIGNED = Image(80, 60, signed=True)
NARROW = Image(3, 150)

MANY_TILES = Grid(Image(130, 130), (8, 8), 2)

GRIDS = [
    *(Grid(GRAY, (64, 64), levels) for levels in range(7)),
    Grid(GRAY, (32, 32), 5),
    Grid(GRAY, (128, 64), 5),
    Grid(GRAY, (32, 128), 3),
    Grid(GRAY, (256, 256), 5),
    Grid(NARROW, (64, 64), 5),
    Grid(NARROW, (2, 32), 1),
    Grid(GRAY_12, (32, 32), 4),
    Grid(COLOUR, (32, 32), 5),
    Grid(COLOUR, (64, 32), 2),
    Grid(HALF_WIDTH, (64, 32), 4),
    Grid(CHROMA_HALVED, (64, 64), 5),
    Grid(CHROMA_HALVED, (32, 32), 4),
    Grid(SIGNED, (32, 32), 3),
    Grid(GRAY_12, (64, 64), 4, subsampling=(2, 2)),
    Grid(COLOUR, (64, 64), 5, subsampling=(2, 1)),
    Grid(GRAY_12, (128, 64), 4, subsampling=(4, 4)),
    # tiles that start before the image: by half a side
    Grid(GRAY, (64, 64), 3, origin=(32, 32)),
    Grid(GRAY, (64, 64), 5, origin=(32, 0)),
    Grid(COLOUR, (32, 32), 4, origin=(0, 16)),
    Grid(CHROMA_HALVED, (64, 64), 4, origin=(32, 32)),
    Grid(GRAY_12, (64, 32), 2, origin=(32, 16), subsampling=(2, 2)),
    # by another number
    Grid(GRAY, (64, 64), 3, origin=(5, 3)),
    Grid(GRAY, (64, 64), 0, origin=(5, 3)),
    Grid(GRAY, (256, 256), 5, origin=(3, 1)),
    Grid(GRAY_12, (32, 32), 2, origin=(8, 20)),
    Grid(COLOUR, (64, 64), 5, origin=(7, 9), tile_origin=(3, 5)),
    Grid(SIGNED, (32, 32), 3, origin=(40, 40), tile_origin=(24, 24)),
    Grid(CHROMA_HALVED, (64, 64), 4, origin=(2, 2)),
    Grid(GRAY_12, (50, 40), 2, origin=(11, 9)),
    Grid(GRAY_12, (50, 40), 2, origin=(9, 8), tile_origin=(5, 3), subsampling=(3, 2)),
]

# Both rules cut the same here, and pixels may be wrong: fewer files.
GRIDS_COUNTED = [
    # side too small; opj_compress refuses one below 2^levels by itself
    Grid(CHROMA_HALVED, (32, 32), 5),
    Grid(HALF_WIDTH, (16, 16), 4),
    Grid(COLOUR, (32, 32), 5, subsampling=(2, 2)),
    Grid(GRAY_12, (64, 64), 5, subsampling=(4, 4)),
    # subsampling not a power of two
    Grid(GRAY_12, (128, 128), 5, subsampling=(3, 3)),
    Grid(GRAY_12, (64, 64), 1, subsampling=(3, 1)),
    # side not a power of two
    Grid(GRAY, (130, 100), 5),
    Grid(GRAY, (96, 96), 5),
    Grid(GRAY, (96, 96), 1),
    Grid(GRAY, (65, 64), 3),
    Grid(COLOUR, (50, 40), 2),
    Grid(GRAY, (50, 50), 0),
    Grid(CHROMA_HALVED, (48, 48), 3),
    Grid(GRAY_12, (96, 96), 5, subsampling=(3, 3)),
    # origins equal, and not 0
    Grid(GRAY, (64, 64), 3, origin=(64, 64), tile_origin=(64, 64)),
    Grid(GRAY, (64, 64), 3, origin=(32, 32), tile_origin=(32, 32)),
    Grid(GRAY, (64, 64), 3, origin=(5, 3), tile_origin=(5, 3)),
    Grid(CHROMA_HALVED, (64, 64), 4, origin=(2, 2), tile_origin=(2, 2)),
    Grid(GRAY_12, (50, 30), 2, origin=(11, 0), tile_origin=(11, 0)),
    Grid(GRAY_12, (50, 40), 2, origin=(7, 9), tile_origin=(7, 9), subsampling=(3, 2)),
]

# Of these tiles are cut in place alone. Of three components, two of them with fewer samples, opj_decompress makes RGB.
GRIDS_IN_PLACE = {
    "4:2:0": [
        Grid(CHROMA_420, (64, 64), 4),
        Grid(CHROMA_420, (50, 40), 2),
        Grid(CHROMA_420, (126, 90), 1),
        Grid(CHROMA_420, (51, 33), 2, origin=(7, 9), tile_origin=(7, 9)),
        Grid(CHROMA_420, (64, 64), 4, origin=(1, 1), tile_origin=(1, 1)),
        Grid(CHROMA_420, (64, 64), 4, origin=(3, 5)),
        Grid(CHROMA_420, (50, 40), 2, origin=(9, 8), tile_origin=(5, 3)),
    ],
    "4:2:2": [
        Grid(CHROMA_422, (64, 64), 4),
        Grid(CHROMA_422, (51, 33), 2, origin=(7, 9), tile_origin=(3, 2)),
    ],
    "sides odd": [
        Grid(GRAY, (33, 17), 4),
        Grid(GRAY, (37, 29), 4, origin=(13, 7), tile_origin=(1, 3)),
        Grid(COLOUR, (33, 31), 3, origin=(1, 1)),
    ],
    "sides small": [
        Grid(SMALL, (8, 8), 3),
        Grid(SMALL, (9, 11), 3, origin=(5, 3), tile_origin=(2, 1)),
        Grid(SMALL, (7, 4), 2, origin=(3, 2), tile_origin=(1, 1)),
        Grid(TINY, (3, 5), 0),
        Grid(TINY, (1, 1000), 0),
        Grid(CHROMA_QUARTERED, (16, 16), 4, origin=(3, 3)),
    ],
    "subsampling 3": [
        Grid(GRAY_12, (64, 64), 4, subsampling=(3, 3)),
        Grid(COLOUR, (40, 40), 3, origin=(7, 5), tile_origin=(2, 3), subsampling=(3, 2)),
        Grid(MIXED, (37, 29), 2, origin=(5, 9), tile_origin=(4, 2)),
    ],
    "origins far from 0": [
        Grid(GRAY, (64, 64), 3, origin=(1_000_003, 70_001), tile_origin=(1_000_001, 70_000)),
        Grid(GRAY, (50, 40), 3, origin=(2_000_000_003, 1_999_999_999), tile_origin=(2_000_000_000, 1_999_999_990)),
    ],
    "a component without a sample": [
        Grid(Image(8, 8, ((1, 1), (2, 2))), (1, 3), 0),
        Grid(Image(12, 8, ((1, 1), (4, 4), (1, 1))), (3, 3), 0),
    ],
}

PROGRESSIONS = ["LRCP", "RLCP", "RPCL", "PCRL", "CPRL"]
DIVISIONS = [[], ["-TP", "R"], ["-TP", "L"], ["-TP", "C"]]
TLM = [[], ["-TLM"]]
SUFFIXES = ["j2k", "jp2"]
LAYERS = [[], ["-r", "20,5,1"]]
EXTRAS = [[], ["-I"], ["-b", "32,16"], ["-SOP"], ["-PLT"], ["-c", "[128,128]"]]
OPJ_COMPRESS, GRK_COMPRESS = "opj_compress", "grk_compress"
# More ways, in place alone: code-blocks, precincts and modes of every kind, and a change of progression.
POC = "POC"
EXTRAS_IN_PLACE = [
    *EXTRAS,
    *(["-M", mode] for mode in ("1", "2", "4", "8", "16", "32", "63")),
    *(["-b", block] for block in ("4,4", "64,16", "8,64")),
    *(["-c", precincts] for precincts in ("[32,32]", "[64,64],[32,32],[16,16]", "[256,128],[64,64]")),
    *(["-I", *words] for words in (["-c", "[32,32]"], ["-b", "8,16"], ["-r", "40,10"], ["-M", "5"])),
    *(["-EPH"], ["-SOP", "-EPH"], ["-SOP", "-EPH", "-PLT"], ["-ROI", "c=0,U=7"], [POC]),
]
# Ways of grk_compress, with the same words for a grid; of fewer samples it takes no file that is made here.
WAYS_OF_GROK = [
    *([], ["-I"], ["-M", "64"], ["-M", "64", "-I"], ["-S", "-E", "-p", "RPCL"], ["-L", "-u", "R"], ["-X", "-u", "C", "-p", "CPRL"]),
    *(["-r", "20,5,1", "-u", "L"], ["-I", "-r", "20,5"], ["-c", "[32,32]", "-p", "PCRL"], ["-b", "8,16", "-I", "-p", "RLCP"]),
]
FILES_OF_A_GRID = 10
FILES_OF_A_COUNTED_GRID = 6
FILES_OF_A_GRID_IN_PLACE = 8


class Case(NamedTuple):
    """What one file is made of; of some, tiles are cut in place alone, under the name of a kind."""

    grid: Grid
    options: list
    suffix: str
    in_place: str = None
    tool: str = OPJ_COMPRESS

    def words(self):
        return [*self.grid.words(), *self.options]

    def name(self):
        image = self.grid.image
        size = f"{image.width} by {image.height}, {image.bits} bits at {image.sampling()}"
        return f"{self.suffix} of {size}: {self.tool} {' '.join(self.words())}"

    def features(self):
        """What pixels might hang on, beside the kind of grid."""
        words = self.options
        yield "9-7" if "-I" in words else "5-3"
        yield words[words.index("-p") + 1] if "-p" in words else PROGRESSIONS[0]
        if self.tool == GRK_COMPRESS:
            yield "written by Grok"
            yield from ["TLM by Grok"] * ("-X" in words)
            yield from ["high throughput"] * ("64" in words)
            return
        named = {"-c": "precincts", "-b": "code-blocks", "-M": "modes", "-ROI": "ROI", "-POC": POC, "-r": "several layers"}
        named |= {"-TP": "several tile-parts", "-SOP": "SOP", "-EPH": "EPH", "-PLT": "PLT", "-TLM": "TLM"}
        yield from (feature for option, feature in named.items() if option in words)


def cases():
    """Of each file, in an order that mixes them well."""
    chance = random.Random(SEED)
    ways = list(itertools.product(PROGRESSIONS, DIVISIONS, TLM, LAYERS, EXTRAS, SUFFIXES))
    chance.shuffle(ways)
    found = []
    grids = GRIDS * FILES_OF_A_GRID + GRIDS_COUNTED * FILES_OF_A_COUNTED_GRID + [MANY_TILES] * 2
    for grid, way in zip(grids, ways):
        found.append(case(grid, way))
    found += cases_in_place(chance)
    chance.shuffle(found)
    return some_of_each_feature_first(found)


def some_of_each_feature_first(found):
    """So that a slow run has them too."""
    met, first, later = Counter(), [], []
    for case in found:
        features = list(case.features()) if case.in_place else []
        (first if any(met[feature] < 2 for feature in features) else later).append(case)
        met.update(features)
    return first + later


def case(grid, way, in_place=None):
    progression, *options, suffix = way
    options = list(itertools.chain(*options))
    if POC in options:
        ends = f"{grid.levels + 1},{len(grid.image.components)}"
        options[options.index(POC) :] = ["-POC", f"T1=0,0,1,{ends},RLCP/T1=0,0,3,{ends},CPRL"]
    return Case(grid, ["-p", progression, *options], suffix, in_place)


def cases_in_place(chance):
    """Each way is taken about as often as any other."""
    ways_of_grok = itertools.cycle(WAYS_OF_GROK)
    ways = [list(itertools.product([extra], PROGRESSIONS, DIVISIONS, TLM, LAYERS, SUFFIXES)) for extra in EXTRAS_IN_PLACE]
    extras = itertools.cycle(ways)
    for kind, grids in GRIDS_IN_PLACE.items():
        for grid in grids:
            yield from (Case(grid, [], suffix, kind) for suffix in SUFFIXES)
            for _ in range(FILES_OF_A_GRID_IN_PLACE):
                extra, progression, *options, suffix = chance.choice(next(extras))
                yield case(grid, (progression, *options, extra, suffix), kind)
            for suffix in SUFFIXES * 2 if grid.is_sampled_fully() else []:
                yield Case(grid, next(ways_of_grok), suffix, kind, GRK_COMPRESS)


# Images


def samples(image, dx, dy, salt):
    """A slope, an edge and some noise, so that no two places look alike."""
    chance = random.Random(f"{image} {salt}")
    top = (1 << image.bits) - 1
    for y in range(image.height // dy):
        for x in range(image.width // dx):
            edge = top // 3 if (x // 9 + y // 13) % 2 else 0
            yield (x * 3 * dx + y * 5 * dy + salt * 40 + edge + chance.randrange(top // 8)) & top


def write_image(image, folder):
    """Gives the words that have opj_compress read it."""
    planes = [list(samples(image, dx, dy, salt)) for salt, (dx, dy) in enumerate(image.components)]
    code = "B" if image.bits <= 8 else ">H"
    in_bytes = lambda numbers: b"".join(struct.pack(code, number) for number in numbers)
    head = f"{image.width} {image.height}\n{(1 << image.bits) - 1}\n".encode()
    if len(planes) == 1 and not image.signed:
        path, content = folder / "image.pgm", b"P5\n" + head + in_bytes(planes[0])
    elif image.components == ((1, 1),) * 3:
        path, content = folder / "image.ppm", b"P6\n" + head + in_bytes(sum(zip(*planes), ()))
    else:
        path, content = folder / "image.raw", b"".join(map(in_bytes, planes))
    path.write_bytes(content)
    if path.suffix != ".raw":
        return ["-i", str(path)]
    form = f"{image.width},{image.height},{len(planes)},{image.bits},{'s' if image.signed else 'u'}@{image.sampling()}"
    return ["-i", str(path), "-F", form, "-mct", "0"]


def write_images(folder):
    """The words for each image of the grids."""
    words = {}
    in_place = itertools.chain(*GRIDS_IN_PLACE.values())
    for image in {grid.image for grid in [*GRIDS, *GRIDS_COUNTED, *in_place, MANY_TILES]}:
        place = folder / f"image{len(words)}"
        place.mkdir()
        words[image] = write_image(image, place)
    return words


def compressed(read, path, words, tool=OPJ_COMPRESS):
    """Whether the tool wrote the file, of an image with these words for it."""
    if tool == GRK_COMPRESS:
        read = ["-H", "1", *("-Y" if word == "-mct" else word for word in read)]
    return told([tool, *read, "-o", path, *words]) is not None and path.exists()
