#!/usr/bin/env python3
"""Each entry point has its theorem in a file Settled.antt: tests/settled.py

An entry point is a public function of a library that requires nothing, a conversion (`From`) too, or any that is exported for C. Crate
laws has the theorems, and each archive (host_c, probe_c) its own. That of a function over a type is for every type that meets the
bound: `SettlesOver`, of all that the contract is given, for as long as the type lives. The prover holds a theorem to the function's
own contract; what it can't see is a function that has none. Status 1 if there is one, if a theorem looks at less than the whole answer
though the answer is no part of a lent slice, or if one of a function over a type is not for every type.
"""

import re
import sys
from pathlib import Path

from verdict import verdict

ROOT = Path(__file__).resolve().parent.parent
SETTLED = [ROOT / f"crates/{crate}/proofs/Settled.antt" for crate in ("laws", "host_c", "probe_c")]

ITEM = re.compile(
    r'^impl (?:From<(?P<source>\w+)> for )?(?P<type>\w+) \{$|^(?P<end>\})$|^ *(?:pub (?P<c>extern "C" )?|(?=fn from\())fn (?P<name>\w+)(?P<head>.*?)\{$',
    re.M | re.S,
)
ALIAS = re.compile(r"^use Rattle\.(\w+)\.specs\.contracts as (\w+)$", re.M)
THEOREM = re.compile(r"→ (Settles|SettlesAs) M (\S+)\.ended \(λ 𝓤\. (\S+)\.clauses\)")
OVER = re.compile(
    r": \{M : Type 1\} \((?P<type>\w+) : RattleType\) (?P<bound>(?:\(\w+ : [^()]+\) )*)→ SettlesOver M "
    r"\((?P<ended>\S+)\.ended (?P<of>[^()]+)\) \(λ 𝓤\. (?P<clauses>\S+)\.clauses (?P<same>[^()]+)\) (?P<lives>\S+)\.lives(?!\S)"
)
# a parameter that is no lifetime
GENERIC = re.compile(r"<(?:\s*'[^,>]+,)*\s*[^'\s>]")
# what the theorem of an entry point has to be
PART, WHOLE, EVERY = "of a part of a lent slice", "of the whole answer", "for every type"


def entry_points(crate, module, source):
    """The path of each, as Settled.antt names it, and what its theorem has to be."""
    found = {}
    owner = None
    for item in ITEM.finditer(source):
        if item["type"]:
            owner = item["type"] + (f"From{item['source'][0].upper()}{item['source'][1:]}" if item["source"] else "")
        elif item["end"]:
            owner = None
        elif item["c"] or not re.search(r"^ *requires\b", item["head"], re.M):
            path = ".".join(part for part in (crate, module, owner, item["name"]) if part)
            found[path] = EVERY if GENERIC.match(item["head"]) else PART if "-> &" in item["head"] else WHOLE
    return found


def faults(points, settled):
    crates = {alias: crate for crate, alias in ALIAS.findall(settled)}
    text = " ".join(settled.split())
    theorems = {}

    def note(kinds, ended, clauses):
        alias, _, rest = clauses.partition(".")
        if ended == clauses and alias in crates:
            theorems[f"{crates[alias]}.{rest}"] = kinds

    for kind, ended, clauses in THEOREM.findall(text):
        note((PART, WHOLE) if kind == "Settles" else (PART,), ended, clauses)
    for one in OVER.finditer(text):
        given = [one["type"], *re.findall(r"\((\w+) :", one["bound"])]
        every = one["of"].split() == one["same"].split() == given and one["lives"] == one["type"]
        note((EVERY,) if every else (), one["ended"], one["clauses"])
    said = [f"{path} has no theorem" for path in points if path not in theorems]
    said += [f"{path}: its theorem is not {kind}" for path, kind in points.items() if kind not in theorems.get(path, (kind,))]
    return said


def main():
    points = {}
    for library in sorted(ROOT.glob("crates/*/src/lib.rt")):
        for file in sorted(library.parent.glob("*.rt")):
            module = None if file == library else file.stem
            points |= entry_points(library.parts[-3], module, file.read_text())
    settled = "\n".join(file.read_text() for file in SETTLED)
    said = faults(points, settled)
    # it is seen where a theorem is missing, is of two functions, looks at a part, or is of one type or of a shorter life
    for path, kind in points.items():
        name = re.escape(path)
        changes = [
            re.sub(rf"\b{name}\.(ended|clauses)\b", r"other.\1", settled),
            re.sub(rf"\b{name}\.ended\b", "other.ended", settled),
        ]
        if kind == WHOLE:
            changes.append(re.sub(rf"Settles (M\s+{name}\.ended)", r"SettlesAs \1", settled))
        if kind == EVERY:
            changes.append(re.sub(rf"(SettlesOver\s+M\s+\({name}\.ended) \w+", r"\1 u8", settled))
            changes.append(re.sub(rf"({name}\.clauses [^()]+\)) \w+\.lives", r"\1 u8.lives", settled))
        for changed in changes:
            if not said and len(faults(points, changed)) != 1:
                said.append(f"{path}: this check does not see its theorem change")
    return verdict("settled", said, f"{len(points)} entry points, a theorem for each")


if __name__ == "__main__":
    sys.exit(main())
