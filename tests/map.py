#!/usr/bin/env python3
"""The map of the modules: tests/map.py [--write]

docs/MAP.md has a line for each module of the library crates: its code, what it means, its laws, the wrong programs that it
rules out, and how it is replayed and compared. It is made of what is there; with --write it is made again. Status 1 if it is
not what the tree makes of it, or if a module is missing from the table below or a file that it names from the tree.
"""

import re
import sys
from pathlib import Path

from verdict import verdict

ROOT = Path(__file__).resolve().parent.parent
MAP = ROOT / "docs/MAP.md"
BESIDE = ROOT / "rust/beside/src/functions"

# The replay's kind of case, and the modules of rust/beside that compare. A module that only others call has theirs.
SHOWN = {
    "numbers": ("", []),
    "types": ("", []),
    "types/markers": ("", []),
    "types/siz": ("", []),
    "types/table": ("", []),
    "header/step": ("1, 2, 18", ["extent", "header"]),
    "header/extent": ("1", ["extent", "enough"]),
    "header/find": ("17", ["marker"]),
    "header/tlm": ("2, 10, 18 to 21", ["header"]),
    "header/numbering": ("2, 10, 18 to 21", ["header"]),
    "header/edition": ("20, 21", ["header"]),
    "header/reading": ("2, 10, 18 to 21", ["header"]),
    "header/strip": ("2, 10, 18 to 21", ["header"]),
    "header/walk": ("2, 10, 18 to 21", ["header"]),
    "header/parse": ("2, 18, 20", ["header", "enough"]),
    "parts/scan": ("3", ["scan"]),
    "parts/step": ("3", ["scan"]),
    "parts/walk": ("3", ["scan"]),
    "parts/fill": ("3", ["scan"]),
    "parts/order": ("22", ["order"]),
    "parts/split": ("4", ["split"]),
    "lengths/check": ("26", ["check"]),
    "lengths/segments": ("26", ["check"]),
    "index/keys": ("24, 25", ["index"]),
    "index/sort": ("24, 25", ["index"]),
    "index/merge": ("24, 25", ["index"]),
    "index/extend": ("24, 25", ["index"]),
    "index/run": ("24, 25", ["index"]),
    "index/entries": ("24", ["index"]),
    "records/main_header": ("10, 19, 21", ["header", "enough"]),
    "records/scan": ("11", ["scan"]),
    "records/order": ("23", ["order"]),
    "records/by_tile": ("25", ["index"]),
    "records/tables": ("10, 11, 19, 21, 23, 25", ["header", "scan", "order", "index"]),
    "tile/siz": ("5, 6, 12 to 16", ["rewrite", "assembly", "components"]),
    "tile/original": ("5, 6", ["rewrite", "assembly"]),
    "tile/annex_b": ("12 to 16", ["rewrite", "assembly", "components"]),
    "tile/rules": ("5, 6, 12 to 16", ["rewrite", "assembly", "components"]),
    "tile/rewrite": ("5, 13, 15", ["rewrite"]),
    "tile/assembly": ("6, 14, 16", ["assembly"]),
    "reader/siz": ("8", ["siz", "pixel"]),
    "reader/components": ("12", ["components"]),
    "reader/search": ("7", ["search"]),
    "reader/boxes": ("27", ["boxes"]),
    "reader/box_step": ("27", ["boxes"]),
    "reader/box_row": ("27", ["boxes"]),
    "reader/growth": ("9", ["growth", "enough"]),
    "host/offsets": ("", []),
    "host/extent": ("", ["extent"]),
    "host/find": ("", ["marker"]),
    "host/parse": ("", ["header"]),
    "host/scan": ("", ["scan"]),
    "host/check": ("", ["check"]),
    "host/order": ("", ["order"]),
    "host/by_tile": ("", ["index"]),
    "host/split": ("", ["split"]),
    "host/rewrite": ("", ["rewrite"]),
    "host/assembly": ("", ["assembly"]),
    "host/search": ("", ["search"]),
    "host/boxes": ("", ["boxes"]),
    "host/siz": ("", ["siz", "pixel"]),
    "host/components": ("", ["components"]),
    "host/growth": ("", ["growth"]),
    "probe": ("", ["search"]),
    "probe/own": ("", ["header", "scan", "order", "index"]),
    "probe/main_header": ("", ["header"]),
    "probe/scan": ("", ["scan"]),
    "probe/order": ("", ["order"]),
    "probe/by_tile": ("", ["index"]),
}

# Definitions that go with a module of another name.
ALSO = {
    "header/parse": ["IsoMain", "Base"],
    "header/step": ["Iso", "Base"],
    "header/tlm": ["IsoTlm"],
    "header/numbering": ["IsoTlm"],
    "header/walk": ["Base"],
    "parts/step": ["Scan", "Sot", "Iso"],
    "parts/scan": ["Iso", "Tiles", "Begin"],
    "parts/fill": ["Walk"],
    "parts/order": ["Iso", "Tiles"],
    "lengths/check": ["Agree", "Iso"],
    "lengths/segments": ["Places", "Iso"],
    "index/keys": ["Index"],
    "index/extend": ["Extend", "Index"],
    "parts/split": ["Sot", "Tiles"],
    "tile/annex_b": ["Iso"],
    "tile/original": ["Iso"],
    "tile/rewrite": ["Siz", "Iso"],
    "tile/assembly": ["FromParts"],
    "reader/components": ["Iso"],
    "reader/search": ["Iso"],
    "reader/boxes": ["BoxTree", "IsoBoxes"],
    "types/siz": ["IsoSiz"],
}

HEAD = """\
# The map

A line a module: where its code stands, what it means, its laws, the wrong programs that must be refused, its kind in the
replayed list (README.md) and the modules of `rust/beside/src/functions` that compare it with the original. `tests/map.py --write` makes
this of the tree, and `.ci/run` sees that it is so. A law file has its definition's name in front: what is said of
`specs/Scan.antt` stands in `proofs/Scan*.antt`. `Iso*` are the standard's own tables, and the laws that hold ours to them;
`Base` has the texts that definitions had before one changed, and the laws that hold the new ones to these.
Proofs of single functions stand in `proofs/MODULE/FUNCTION`.

| module | code | definition | laws | must fail | replay | compared |
|---|---|---|---|---|---|---|
"""

TAIL = """
Over all of them stands crate `laws`, with no code: `proofs/Demand3*.antt` (what a codestream that is accepted promises of
the tiles cut out of it), `proofs/Sample*.antt` (sample A and the edges of the rules), `proofs/Settled.antt` (each entry point's
contract settles its outcome), `proofs/Rows.antt` (tables of rows and of records agree), `proofs/Region*.antt` (how much header
is enough) and `proofs/OrderPremises.antt` (what the laws on the order of tile-parts ask for). Crate `chain`, with no code either,
says what a walk is: `specs/Chain.antt`, `proofs/ChainLaws.antt`; and crate `settling` what it is that a contract settles its outcome: `specs/Settles.antt`,
`proofs/Settling.antt`. The archives for C are `host_c` and `probe_c`: thin calls of `host` and `probe`, and `proofs/Settled.antt`.
"""


def named(module):
    """The name of a module's definition: main_header is MainHeader."""
    return "".join(word.capitalize() for word in module.split("_"))


def modules():
    """Each library's modules in the order of crates.txt, with its definitions: those of its name, and of a crate of a single
    file all."""
    for crate in re.findall(r"^(\w+):", (ROOT / "crates.txt").read_text(), re.M):
        source = ROOT / "crates" / crate / "src"
        if not (source / "lib.rt").exists():
            continue
        files = [file for file in sorted(source.glob("*.rt")) if re.search(r"^ *(pub )?(extern \"C\" )?(fn|const|struct|enum) ", file.read_text(), re.M)]
        for file in files:
            yield crate, "" if file.stem == "lib" else file.stem


def row(crate, module):
    home = ROOT / "crates" / crate
    names = {file.stem for file in (home / "specs").glob("*.antt")} - {"Lib"}
    others = {named(file.stem) for file in (home / "src").glob("*.rt")}
    own = {named(module), *ALSO.get(f"{crate}/{module}", [])} & names if module else names - others
    laws = {file.stem for file in (home / "proofs").glob("*.antt")} - {"Lib"}
    # a law file goes with the definition or the module whose name it has in front, the longest where several do; the standard's,
    # and one without such a name, with each definition that it cites; and one that cites none with all
    mine = set()
    for law in laws:
        front = max((name for name in names | others if law.startswith(name)), key=len, default="")
        text = (home / "proofs" / f"{law}.antt").read_text()
        cited = {name for name in names if f"Rattle.{crate}.specs.{name}." in text}
        if front in {named(module), *own} or ((not front or front.startswith("Iso")) and (cited & own or not cited)):
            mine.add(law)
    code = f"src/{module or 'lib'}.rt"
    touched = {code, *(f"specs/{name}.antt" for name in own)}
    edits = sorted(
        block.split("\n", 1)[0]
        for edit in (home / "must-fail").glob("*.edit")
        for block in re.split(r"^## ", edit.read_text(), flags=re.M)[1:]
        if touched & set(re.findall(r"^file: (\S+)$", block, re.M)[:1])
    )
    kind, compared = SHOWN[f"{crate}/{module}".rstrip("/")]
    cells = [
        f"{crate}::{module}" if module else crate,
        f"`crates/{crate}/{code}`",
        ", ".join(f"`specs/{name}.antt`" for name in sorted(own)),
        ", ".join(f"`{law}`" for law in sorted(mine)),
        ", ".join(edits),
        kind,
        ", ".join(compared),
    ]
    return "| " + " | ".join(cells) + " |\n"


def unlisted(rows):
    """Definitions and law files that no row has."""
    for crate in sorted({crate for crate, _ in rows}):
        text = "".join(row for (of, _), row in rows.items() if of == crate)
        for folder in "specs", "proofs":
            for file in sorted((ROOT / "crates" / crate / folder).glob("[A-Z]*.antt")):
                if file.stem != "Lib" and not re.search(rf"`(specs/)?{file.stem}(\.antt)?`", text):
                    yield f"{file.relative_to(ROOT)} goes with no module"


def main():
    found = list(modules())
    known = {tuple(name.partition("/")[::2]) for name in SHOWN}
    said = [f"{crate}/{module} is not in tests/map.py" for crate, module in found if (crate, module) not in known]
    said += [f"{crate}/{module} of tests/map.py is not there" for crate, module in sorted(known - set(found))]
    for _, compared in SHOWN.values():
        said += [f"rust/beside/src/functions/{name} is not there" for name in compared if not list(BESIDE.glob(f"{name}*"))]
    if not said:
        rows = {module: row(*module) for module in found}
        said += unlisted(rows)
        text = HEAD + "".join(rows.values()) + TAIL
        if sys.argv[1:] == ["--write"]:
            MAP.write_text(text)
        if not MAP.exists() or MAP.read_text() != text:
            said.append("docs/MAP.md is not what the tree makes of it: python3 tests/map.py --write")
    return verdict("map", said, f"{len(found)} modules")


if __name__ == "__main__":
    sys.exit(main())
