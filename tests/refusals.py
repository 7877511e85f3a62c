#!/usr/bin/env python3
"""The refusals are those of docs/RULES.md, wherever they are told: tests/refusals.py

The table of "Refusals" there says of each number its name, when it is given, its place and what that counts from, what is
wrong and what to do. Held to it are the README's table, the header for C, the texts of the Rust crate, the labels of the
comparisons, which have to name every number, and the enum of reasons in the Rattle code, which has to have every number under
its name, and of which the code has to give every reason. Status 1 if anything differs, or if this check does not see a change.
"""

import re
import sys
from pathlib import Path
from typing import NamedTuple

from verdict import verdict

ROOT = Path(__file__).resolve().parent.parent
# the listing program's own: no comparison meets it, and tests/listing.py has to
LISTING = 23
UNUSED = 1000

RULES = "docs/RULES.md"
README = "README.md"
HEADER = "include/winterhasp.h"
CRATE = "rust/winterhasp/src/refusal.rs"
MODEL = "rust/beside/src/model/mod.rs"
RUNS = ["rust/beside/src/wanted.rs"]
LISTED = "tests/listing.py"
CODE = ["crates/*/src/*.rt"]

RULES_HEAD = "| number | name | given exactly when | place | counts from | what is wrong | what to do |"
README_HEAD = "| number | what is wrong | place | what to do |"
ORIGINS = ["file", "codestream", "needed"]

STRING = r'"((?:[^"\\]|\\.)*)"'
DEFINE = re.compile(r"^[ \t]*#[ \t]*define[ \t]+WINTERHASP_(\w+)[ \t]+\(?(\d+)[uUlL]*\)?[ \t]*(?:/\*\s*(.*?)\s*\*/)?[ \t]*$", re.M)
WORDS = re.compile(
    rf"Words\s*\{{\s*number:\s*(\d+),\s*name:\s*{STRING},\s*wrong:\s*{STRING},\s*origin:\s*Origin::(\w+),\s*remedy:\s*{STRING},?\s*\}}", re.S
)
TEXTS = re.compile(r"\bREFUSALS:\s*&\[Words\]\s*=\s*&\[(.*?)\n?\s*\];", re.S)
LABEL = re.compile(r'"refused (\d+)"')
LABELS = re.compile(r"\blabels!\[([\d\s]*)\]")
LISTS = re.compile(r"\brefused\(.*?, (\d+), ")
REASONS = re.compile(r"^pub enum Reason \{\n(.*?)^\}", re.M | re.S)
REASON = re.compile(r"^ +(\w+) = (\d+),$", re.M)
GIVEN = re.compile(r"\bReason::(\w+)")


class Refusal(NamedTuple):
    number: int
    name: str
    given: str
    place: str
    origin: str
    wrong: str
    remedy: str


def cells(line):
    return [cell.strip() for cell in line.strip().removeprefix("|").removesuffix("|").split("|")]


def table(text, head):
    """The rows below a head that stands once, as cells; no rows where it does not."""
    lines = text.splitlines()
    if lines.count(head) != 1:
        return []
    at = lines.index(head)
    if cells(lines[at + 1]) != ["---"] * len(cells(head)):
        return []
    rows = []
    for line in lines[at + 2 :]:
        if not line.startswith("|"):
            break
        rows.append(cells(line))
    return rows


def refusals(text):
    """What the rules' table says, and what is wrong with the table itself."""
    rows = table(text, RULES_HEAD)
    said = [f"{RULES}: a row of {len(row)} cells: {row}" for row in rows if len(row) != len(Refusal._fields)]
    said += [f"{RULES}: {row[0]} is no number" for row in rows if not row[0].isdecimal()]
    if said:
        return [], said
    known = [Refusal(int(row[0]), *row[1:]) for row in rows]
    numbers = [refusal.number for refusal in known]
    if numbers != sorted(set(numbers)) or numbers[:1] != [1]:
        said.append(f"{RULES}: no rows from 1 on, each number once and in order, below {RULES_HEAD}")
    if len({refusal.name for refusal in known}) != len(known):
        said.append(f"{RULES}: a name stands twice")
    for refusal in known:
        said += [f"{RULES}: {refusal.number}: {what}" for what in ill_formed(refusal)]
    return known, said


def ill_formed(refusal):
    if not all(refusal):
        yield "an empty cell"
    if not re.fullmatch(r"[A-Z][A-Z0-9_]*", refusal.name):
        yield f"{refusal.name} is no name"
    if refusal.origin not in ORIGINS:
        yield f"counts from {refusal.origin}"
    for clause in refusal.wrong, refusal.remedy:
        if not clause[:1].islower() or clause.endswith(".") or re.search(r'["\\]|\*/|[^ -~]', clause):
            yield f"no clause of plain words: {clause}"


def differ(where, saw, wanted):
    """A line for each number of which two tables say different things."""
    said = []
    for number in sorted(saw.keys() | wanted.keys()):
        if number not in saw:
            said.append(f"{where}: {number} is missing")
        elif number not in wanted:
            said.append(f"{where}: {number} is none of the rules'")
        elif saw[number] != wanted[number]:
            said.append(f"{where}: {number} is {saw[number]}, and not {wanted[number]}")
    return said


def by_number(where, rows):
    """The rest of each row under its first, the number; and a line for each number that stands twice."""
    found, twice = {}, []
    for number, *rest in rows:
        if number in found:
            twice.append(f"{where}: {number} stands twice")
        found[number] = rest
    return found, twice


# What is held to the table, each by the texts that it reads: what is wrong there.


def in_readme(known, text):
    rows = table(text, README_HEAD)
    saw, twice = by_number(README, rows)
    wanted = {str(refusal.number): [refusal.wrong, refusal.place, refusal.remedy] for refusal in known}
    return twice + differ(README, saw, wanted)


def in_header(known, text):
    saw, twice = by_number(HEADER, ((int(number), name, wrong) for name, number, wrong in DEFINE.findall(text)))
    wanted = {refusal.number: [refusal.name, refusal.wrong] for refusal in known}
    return twice + differ(HEADER, saw, wanted)


def unquoted(text):
    """A string of Rust, of which a line may be broken by a backslash."""
    return re.sub(r'\\(["\\])', r"\1", re.sub(r"\\\n\s*", "", text))


def in_crate(known, text):
    found = TEXTS.search(text)
    if not found:
        return [f"{CRATE}: no REFUSALS"]
    entries = WORDS.findall(found[1])
    said = []
    if len(entries) != len(re.findall(r"\bWords\b", found[1])):
        said.append(f"{CRATE}: only {len(entries)} entries are read")
    rows = ((int(number), unquoted(name), unquoted(wrong), origin, unquoted(remedy)) for number, name, wrong, origin, remedy in entries)
    saw, twice = by_number(CRATE, rows)
    wanted = {
        refusal.number: [refusal.name, refusal.wrong, refusal.origin.capitalize(), refusal.remedy] for refusal in known
    }
    return said + twice + differ(CRATE, saw, wanted)


def numbers(pattern, text):
    found = (number for match in pattern.finditer(text) for number in match.groups() if number)
    return {int(number) for number in found}


def of(known):
    return {refusal.number for refusal in known}


def unknown(where, named, known):
    return [f"{where}: {number} is none of the rules'" for number in sorted(named - of(known))]


def unnamed(where, named, wanted):
    return [f"{where}: {number} is not there" for number in sorted(wanted - named)]


def in_model(known, text):
    """The labels that the comparisons count under."""
    found = LABELS.search(text)
    named = {int(number) for number in found[1].split()} if found else set()
    return unknown(MODEL, named, known) + unnamed(MODEL, named, of(known))


def in_comparisons(known, text):
    where = "the answers that comparisons have to meet"
    named = numbers(LABEL, text)
    return unknown(where, named, known) + unnamed(where, named, of(known) - {LISTING})


def in_listing(known, text):
    named = numbers(LISTS, text)
    return unknown(LISTED, named, known) + unnamed(LISTED, named, {LISTING})


def reason(refusal):
    """Its name as the code's enum has it."""
    return "".join(word.capitalize() for word in refusal.name.split("_"))


def in_code(known, text):
    where = "the Rattle code"
    found = REASONS.search(text)
    if not found:
        return [f"{where}: no enum Reason"]
    saw, twice = by_number(where, ((int(number), name) for name, number in REASON.findall(found[1])))
    wanted = {refusal.number: [reason(refusal)] for refusal in known}
    given = set(GIVEN.findall(text))
    ungiven = [f"{where}: {reason(refusal)} is never given" for refusal in known if reason(refusal) not in given]
    return twice + differ(where, saw, wanted) + ungiven


class Held(NamedTuple):
    """A check, the files that it reads, and the cells that it has to see change."""

    check: object
    files: list
    cells: list


HELD = [
    Held(in_readme, [README], ["number", "place", "wrong", "remedy"]),
    Held(in_header, [HEADER], ["number", "name", "wrong"]),
    Held(in_crate, [CRATE], ["number", "name", "origin", "wrong", "remedy"]),
    Held(in_model, [MODEL], ["number"]),
    Held(in_comparisons, RUNS, ["number"]),
    Held(in_listing, [LISTED], ["number"]),
    Held(in_code, CODE, ["number", "name"]),
]


def read(patterns):
    """The files as one text; nothing where there is none."""
    files = (file for pattern in patterns for file in sorted(ROOT.glob(pattern)))
    return "\n".join(file.read_text() for file in files)


def changed(refusal, field):
    """The same with another cell."""
    if field == "number":
        return refusal._replace(number=UNUSED)
    if field == "origin":
        return refusal._replace(origin=ORIGINS[ORIGINS.index(refusal.origin) - 1])
    return refusal._replace(**{field: f"{getattr(refusal, field)}s"})


def blind(held, known, text):
    """Each change that a check does not see, where it has no fault yet: another cell in the table, a number that leaves
    the text, or one that comes to it."""
    name = held.check.__name__
    for at, refusal in enumerate(known):
        if held.check is in_listing and refusal.number != LISTING:
            continue
        for field in held.cells:
            if not held.check([*known[:at], changed(refusal, field), *known[at + 1 :]], text):
                yield f"{name} does not see that {field} of {refusal.number} changes"
        if held.check is in_comparisons and refusal.number == LISTING:
            continue
        number = refusal.number
        for other in "", UNUSED:
            if not held.check(known, re.sub(rf"\b{number}\b", str(other), text)):
                yield f"{name} does not see that {number} becomes {other or 'nothing'} in the text"
        if held.check is in_code and not held.check(known, text.replace(f"Reason::{reason(refusal)}", "")):
            yield f"{name} does not see that {reason(refusal)} is given no more"


def main():
    known, said = refusals(read([RULES]))
    texts = [(held, read(held.files)) for held in HELD]
    if not said:
        for held, text in texts:
            said += held.check(known, text) if text else [f"{' '.join(held.files)}: not there"]
    # a check that can't fail is worth nothing
    if not said:
        said = [line for held, text in texts for line in blind(held, known, text)]
    return verdict("refusals", said, f"{len(known)} numbers, the same in the rules, README, C header, crate, comparisons and code")


if __name__ == "__main__":
    sys.exit(main())
