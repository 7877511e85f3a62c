"""Length tables (TLM) of real codestreams, as they are and damaged in one place each, and what has to be told of each: by the
standard's order of segments (ISO/IEC 15444-1, A.7.1), beside the tile-parts that stand there."""

import itertools
import struct
from typing import NamedTuple

import packed
from packed import EOC, SOC, written

TLM = 0xFF55
PASS, NO_TABLE, DIFFERS, REFUSED = "pass", "no length table", "differs", "refused"
REPEATED = 32


class Table(NamedTuple):
    """A segment: Ztlm, Stlm, and a tile and a length for each entry; of no tile where there is no index."""

    number: int
    form: int
    entries: list

    @classmethod
    def read(cls, content):
        number, form, *listed = content
        index, length = sizes(form)
        entries = [bytes(listed[at : at + index + length]) for at in range(0, len(listed), index + length)]
        return cls(number, form, [(as_number(entry[:index]) if index else None, as_number(entry[index:])) for entry in entries])

    def content(self):
        index, length = sizes(self.form)
        listed = ((tile or 0).to_bytes(8, "big")[8 - index :] + size.to_bytes(length, "big") for tile, size in self.entries)
        return bytes([self.number, self.form]) + b"".join(listed)


def sizes(form):
    """Bytes of an entry's index, and of its length."""
    return form >> 4 & 3, 4 if form & 64 else 2


def as_number(content):
    return int.from_bytes(content, "big")


class Told(NamedTuple):
    """What has to be told: a verdict, an entry's number with its place and what is listed and stands there, or a refusal's number and
    place."""

    verdict: str
    number: int = None
    place: int = None
    listed: tuple = None
    standing: tuple = None
    eoc_counted: bool = None

    @classmethod
    def of(cls, found):
        """What JSON has of it."""
        if found["verdict"] == REFUSED:
            return cls(REFUSED, found["refused"]["number"], found["refused"]["place"])
        if found["verdict"] != DIFFERS:
            return cls(found["verdict"])
        differs = found["differs"]
        listed, standing = (each and (each["tile"], each["length"]) for each in (differs["listed"], differs["standing"]))
        return cls(DIFFERS, differs["number"], differs["offset"], listed, standing, differs["eoc_counted"])


class Codestream(NamedTuple):
    """A header's segments before its first TLM and behind it, the tables, and the tile-parts' bytes."""

    before: list
    tables: list
    behind: list
    parts: list

    @classmethod
    def read(cls, content):
        header, parts = packed.taken_apart(content)
        markers = [marker for marker, _ in header]
        at = markers.index(TLM) if TLM in markers else len(header)
        behind = [segment for segment in header[at:] if segment[0] != TLM]
        tables = [Table.read(content) for marker, content in header if marker == TLM]
        return cls(header[:at], tables, behind, [part.written() for part in parts])

    def segments(self):
        tables = [(TLM, table.content()) for table in self.tables]
        return [written(*segment) for segment in [*self.before, *tables, *self.behind]]

    def written(self):
        return SOC + b"".join(self.segments()) + b"".join(self.parts) + EOC

    def told(self):
        """By comparing the two lists."""
        numbers = [table.number for table in self.tables]
        for at, number in enumerate(numbers):
            if number in numbers[:at]:
                return Told(REFUSED, REPEATED, len(SOC) + sum(map(len, self.segments()[: len(self.before) + at])))
        entries = [entry for table in sorted(self.tables) for entry in table.entries]
        count = itertools.count()
        listed = [(next(count) if tile is None else tile, size) for tile, size in entries]
        place = len(SOC) + sum(map(len, self.segments()))
        standing = [(struct.unpack_from(">H", part, 4)[0], len(part)) for part in self.parts]
        for number, (entry, there) in enumerate(itertools.zip_longest(listed, standing)):
            if entry != there:
                return Told(DIFFERS, number, place, entry, there, False) if listed else Told(NO_TABLE)
            place += there[1]
        return Told(PASS)


def variants(whole):
    """By name what is made of a codestream with one table, which passes, and what has to be told of it."""
    [table] = whole.tables
    middle = len(table.entries) // 2
    tile, size = table.entries[middle]
    entries = lambda *changed: [*table.entries[:middle], *changed, *table.entries[middle + 1 :]]
    of = lambda *tables: whole._replace(tables=tables)
    changed = {
        "one length": of(table._replace(entries=entries((tile, size + 1)))),
        "one entry left out": of(table._replace(entries=entries())),
        "one entry twice": of(table._replace(entries=entries(*[(tile, size)] * 2))),
        "one part twice": whole._replace(parts=[*whole.parts[: middle + 1], *whole.parts[middle:]]),
    }
    if tile is not None:
        changed["one tile"] = of(table._replace(entries=entries(((tile + 1) % 256, size))))
    if len(whole.parts) > 1:
        changed["one part left out"] = whole._replace(parts=[*whole.parts[:middle], *whole.parts[middle + 1 :]])
    first, last = table._replace(number=4, entries=table.entries[:middle]), table._replace(number=9, entries=table.entries[middle:])
    changed["two segments"] = of(first, last)
    changed["two segments, swapped with their numbers"] = of(last, first)
    changed["two segments, swapped without"] = of(last._replace(number=4), first._replace(number=9))
    changed["two segments of one number"] = of(first, last._replace(number=4))
    found = {name: (each.written(), each.told()) for name, each in changed.items()}
    found["no length of the last part"] = without_length(whole)
    return found


def without_length(whole):
    """Psot 0, so that the last tile-part takes EOC too; the standard's table leaves that out."""
    *parts, last = whole.parts
    content = whole._replace(parts=[*parts, last[:6] + bytes(4) + last[10:]]).written()
    [table] = whole.tables
    tile, size = struct.unpack_from(">H", last, 4)[0], len(last)
    place = len(content) - len(EOC) - size
    return content, Told(DIFFERS, len(table.entries) - 1, place, (tile, size), (tile, size + len(EOC)), True)
