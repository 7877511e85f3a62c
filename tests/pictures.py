"""Pictures of codestreams: by OpenJPEG's library, with the place of each component, by opj_decompress, and by Grok.

A plane is (width, height, bytes of a sample, samples); a picture's planes are those of its components.
"""

import contextlib
import ctypes
import re
import shutil
import struct
import subprocess
from typing import NamedTuple

PACKAGES = {"opj_compress": "libopenjp2-tools", "grk_decompress": "grokj2k-tools"}


def install(packages=PACKAGES):
    """Whether the tools are there, each of its package."""
    missing = [package for tool, package in packages.items() if shutil.which(tool) is None]
    asked = [["update", "-q"], ["install", "-y", "-q", "--no-install-recommends", *missing]] if missing else []
    return all(subprocess.run(["apt-get", *words]).returncode == 0 for words in asked)


def told(words):
    """A program's answer, as bytes, or none if it fails."""
    ended = subprocess.run([str(word) for word in words], capture_output=True)
    return ended.stdout if ended.returncode == 0 else None


def read_pgx(content):
    head, _, body = content.partition(b"\n")
    bits, width, height = map(int, head.split()[-3:])
    return width, height, (bits + 7) // 8, body


def taken(folder, stem):
    """The planes of a picture that a tool wrote, which are removed; none if there is none."""
    planes = []
    while (plane := folder / f"{stem}_{len(planes)}.pgx").exists():
        planes.append(read_pgx(plane.read_bytes()))
        plane.unlink()
    return planes or None


def sizes(planes):
    return [(width, height) for width, height, _, _ in planes]


def rectangle(plane, left, top, columns, rows):
    """A part of a plane."""
    width, _, sample, body = plane
    starts = [(row * width + left) * sample for row in range(top, top + rows)]
    cut = b"".join(body[start : start + columns * sample] for start in starts)
    return columns, rows, sample, cut


def corner(planes, part):
    """The upper left of each component, as large as `part`'s is."""
    return [rectangle(plane, 0, 0, *size) for plane, size in zip(planes, sizes(part))]


# OpenJPEG


def decoded(path, *words):
    """By opj_decompress, which converts the colours of some; none if it fails."""
    out = path.with_suffix(".pgx")
    if told(["opj_decompress", "-quiet", "-i", path, "-o", out, *words]) is None:
        return None
    return taken(path.parent, path.stem)


class Component(NamedTuple):
    bits: int
    signed: bool
    factors: tuple
    # x0, y0, x1, y1, on its own grid.
    area: tuple = None


class Picture(NamedTuple):
    """As the library decodes it: no colour is converted. Areas are x0, y0, x1, y1, those of components on their own grids."""

    area: tuple
    areas: list
    planes: list


class OpjComponent(ctypes.Structure):
    NUMBERS = "dx dy w h x0 y0 prec bpp sgnd resno_decoded factor"
    _fields_ = [*((name, ctypes.c_uint32) for name in NUMBERS.split()), ("data", ctypes.c_void_p), ("alpha", ctypes.c_uint16)]

    # What the library has of a sample.
    SAMPLE = 4

    def area(self):
        return self.x0, self.y0, self.x0 + self.w, self.y0 + self.h

    def plane(self):
        samples = ctypes.string_at(self.data, self.w * self.h * self.SAMPLE) if self.data else b""
        return self.w, self.h, self.SAMPLE, samples


class OpjImage(ctypes.Structure):
    NUMBERS = "x0 y0 x1 y1 numcomps color_space"
    _fields_ = [*((name, ctypes.c_uint32) for name in NUMBERS.split()), ("comps", ctypes.POINTER(OpjComponent))]

    def area(self):
        return self.x0, self.y0, self.x1, self.y1

    def components(self):
        return self.comps[: self.numcomps]


class Library:
    """The library behind the tools. opj_dump reads the main header alone and lists no tile-part;
    the library's own dump, asked for once the file is decoded, lists them all. Not strictly
    decoded, as there are files of its own that it fails to decode otherwise. Nor does opj_dump tell
    the size of a component, or anything of one tile; the library's own image does. Pictures are
    decoded strictly, as opj_decompress does."""

    SUFFIX_FORMATS = {"j2k": 0, "jp2": 2}
    MAIN_HEADER_INDEX = 16
    IS_INPUT = 1
    # More than opj_dparameters_t has.
    PARAMETERS = 1 << 16

    def __init__(self):
        self.opj = ctypes.CDLL("libopenjp2.so.7")
        self.libc = ctypes.CDLL(None)
        for function in [
            self.opj.opj_create_decompress,
            self.opj.opj_stream_create_default_file_stream,
            self.libc.fopen,
        ]:
            function.restype = ctypes.c_void_p

    @contextlib.contextmanager
    def opened(self, path, strict=False):
        """Codec, stream, and the image by its main header; none if that can't be read."""
        opj = self.opj
        codec = ctypes.c_void_p(opj.opj_create_decompress(self.SUFFIX_FORMATS[path.suffix[1:]]))
        parameters = ctypes.create_string_buffer(self.PARAMETERS)
        opj.opj_set_default_decoder_parameters(parameters)
        name = str(path).encode()
        stream = ctypes.c_void_p(opj.opj_stream_create_default_file_stream(name, self.IS_INPUT))
        image = ctypes.POINTER(OpjImage)()
        read = (
            opj.opj_setup_decoder(codec, parameters)
            and opj.opj_decoder_set_strict_mode(codec, strict)
            and opj.opj_read_header(stream, codec, ctypes.byref(image))
        )
        try:
            yield (codec, stream, image) if read else None
        finally:
            opj.opj_stream_destroy(stream)
            opj.opj_destroy_codec(codec)
            opj.opj_image_destroy(image)

    def dump(self, path, out):
        """Writes the index of `path` to `out`; whether that went well."""
        with self.opened(path) as opened:
            if not opened or not self.opj.opj_decode(*opened):
                return False
            file = ctypes.c_void_p(self.libc.fopen(str(out).encode(), b"w"))
            self.opj.opj_dump_codec(opened[0], self.MAIN_HEADER_INDEX, file)
            self.libc.fclose(file)
            return True

    def components(self, path, tile=None):
        """The area of the image, or of a tile, which is decoded, and its components; none if it can't be."""
        with self.opened(path) as opened:
            if not opened or tile is not None and not self.opj.opj_get_decoded_tile(*opened, tile):
                return None
            image = opened[2].contents
            return image.area(), [
                Component(one.prec, one.sgnd == 1, (one.dx, one.dy), one.area()) for one in image.components()
            ]

    def picture(self, path, tile=None):
        """All of it, or one tile, asked for by itself; none if it can't be decoded."""
        with self.opened(path, strict=True) as opened:
            if not opened or not self.decode(*opened, tile):
                return None
            image = opened[2].contents
            components = image.components()
            return Picture(image.area(), [one.area() for one in components], [one.plane() for one in components])

    def decode(self, codec, stream, image, tile):
        if tile is not None:
            return self.opj.opj_get_decoded_tile(codec, stream, image, tile)
        return self.opj.opj_decode(codec, stream, image) and self.opj.opj_end_decompress(codec, stream)

    def index(self, path):
        """Where the codestream starts in the file, and (tile, offset in the file, length) of each
        tile-part in the file's order; nothing if the file can't be decoded."""
        out = path.with_suffix(".index")
        return read_index(out.read_text()) if self.dump(path, out) else None


def read_index(text):
    """A tile-part that a TNsot counts, and that is not there, has no place."""
    start = int(re.search(r"Main header start position=(\d+)", text)[1])
    tile, parts = None, []
    line = r"nb of tile-part in tile \[(\d+)\]|star_pos=(\d+), end_header=\d+, end_pos=(\d+)"
    for new_tile, begin, end in re.findall(line, text):
        if new_tile:
            tile = int(new_tile)
        elif int(end):
            parts.append((tile, int(begin), int(end) - int(begin)))
    return start, sorted(parts, key=lambda part: part[1])


# Grok

GROK = ["grk_decompress", "-H", "1"]
GROK_SECONDS = 60


def grok(folder):
    """By its stem, the planes of each codestream in a folder, as grk_decompress shows it; none where it does not. All are asked for at
    once, and where it ends badly over one, one by one."""
    paths = {path.stem: path for path in folder.iterdir()}
    out = folder.with_name(f"{folder.name}.planes")
    out.mkdir()
    whole = ended_well([*GROK, "-y", folder, "-a", out, "-O", "pgx"])
    found = {stem: taken(out, stem) for stem in paths}
    for stem in () if whole else paths:
        alone = ended_well([*GROK, "-i", paths[stem], "-o", out / f"{stem}.pgx"])
        planes = taken(out, stem)
        found[stem] = planes if alone else None
    shutil.rmtree(out)
    return found


def ended_well(words):
    try:
        return subprocess.run([str(word) for word in words], capture_output=True, timeout=GROK_SECONDS).returncode == 0
    except subprocess.TimeoutExpired:
        return False


def box(kind, content):
    return struct.pack(">I4s", 8 + len(content), kind) + content


SIGNATURE = bytes.fromhex("0000000c6a5020200d0a870a")
GRAY = 17


def in_gray_jp2(codestream):
    """In a JP2 that says its colours are gray, whatever the number of components: so none is converted."""
    x1, y1, x0, y0 = struct.unpack_from(">4I", codestream, 8)
    components, depth = struct.unpack_from(">HB", codestream, 40)
    header = box(b"ihdr", struct.pack(">IIHBBBB", y1 - y0, x1 - x0, components, depth, 7, 0, 0))
    header += box(b"colr", struct.pack(">BBBI", 1, 0, 0, GRAY))
    return SIGNATURE + box(b"ftyp", b"jp2 \0\0\0\0jp2 ") + box(b"jp2h", header) + box(b"jp2c", codestream)
