#!/usr/bin/env python3
"""Spells the repository's own definitions and lemmas in snake case: tools/respell.py [--said]

Run once, at the top, behind the kit's port.py, which spelled some of them so already. A name that specs/ or a lemma file of
proofs/ declares with a small first letter gets plain underscores: bytesIn is bytes_in, length-put is length_put. Types, modules,
functions of src/, exported names, constants and the parameters that ISO/IEC 15444-1 names (Lsiz, XTOsiz) keep theirs. Where the
new name would meet another, KEPT_APART says what it is instead. With --said it only prints what would change.
"""

import re
import sys
from pathlib import Path

ROOT = Path(__file__).resolve().parent.parent
NAME = r"[^\s(){}\[\].;,@\"«»:]+"
DECLARED = re.compile(rf"^ *(?:(?:pub|abbrev|unfoldable|mutual) )*({NAME})(?: \{{[^{{}}\n]*\}})* :(?= |$)", re.M)
TOKEN = re.compile(rf"(?<![^\s(){{}}\[\].;,@\"«»:]){NAME}")
# Names that would meet a parameter, with what they are instead.
KEPT_APART = {"firstSot": "at_first_sot"}
# Lemmas that port.py spelled like a definition.
LEMMAS = ("all_apart", "by_index", "cut_by", "scratch_after")
# A lemma that stands in the library too, under the same name.
OF_THE_LIBRARY = {"and-false"}


def snake(name):
    words = re.sub(r"(?<=[a-z0-9])[A-Z]+", lambda m: "_" + m[0].lower(), name)
    return words.replace("-", "_")


def lemma_files(root):
    for path in sorted(root.glob("crates/*/specs/*.antt")) + sorted(root.glob("crates/*/proofs/*.antt")):
        if path.name != "Lib.antt" and not path.parent.parent.name == "out":
            yield path


def table(root):
    """Each name with its new one. A lemma that would have a definition's name gets `_lem`."""
    declared = set()
    for path in lemma_files(root):
        declared |= {m[1] for m in DECLARED.finditer(path.read_text())}
    found = {name: KEPT_APART.get(name, snake(name)) for name in declared - OF_THE_LIBRARY if name[0].islower() and snake(name) != name}
    words = declared | {new for name, new in found.items() if "-" not in name}
    lemmas = {name: f"{new}_lem" for name, new in found.items() if "-" in name and new in words}
    return found | lemmas | {name: f"{name}_lem" for name in LEMMAS if name in declared}


def respelled(text, names):
    return TOKEN.sub(lambda m: names.get(m[0], m[0]), text)


def ghost_only(text, names):
    """In a .rt file only what contracts and proofs see: `ghost use` items and clauses."""
    out, i = [], 0
    for m in re.finditer(r"ghost use [^;]*;|\b(?:requires|ensures)\*?(?: \w+)? \{|\bghost \w+: \{", text):
        if m.start() < i:
            continue
        out.append(text[i : m.start()])
        end = m.end()
        if not m[0].startswith("ghost use"):
            depth = 1
            while depth:
                depth += {"{": 1, "}": -1}.get(text[end], 0)
                end += 1
        out.append(respelled(text[m.start() : end], names))
        i = end
    return "".join(out) + text[i:]


def main():
    names = table(ROOT)
    if sys.argv[1:] == ["--said"]:
        for old, new in sorted(names.items()):
            print(old, new)
        return
    for path in sorted(ROOT.glob("crates/*/**/*")):
        if path.suffix not in (".antt", ".rt") or "out" in path.relative_to(ROOT).parts:
            continue
        text = path.read_text()
        new = respelled(text, names) if path.suffix == ".antt" else ghost_only(text, names)
        if new != text:
            path.write_text(new)


if __name__ == "__main__":
    main()
