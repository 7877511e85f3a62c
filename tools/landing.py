#!/usr/bin/env python3
"""What a change moved, for its note in docs/changes: tools/landing.py [--time] BEFORE [AFTER]

BEFORE and AFTER are commits (AFTER is HEAD unless given). Of the crates it tells, by name:

- each definition of specs/ whose text is new, gone or another, comments and layout aside, and each struct, enum and
  constant of src/;
- each promise: what a function takes and gives with its `requires` and `ensures`;
- each proof file that is new, gone or another;
- the lines of code, definitions and proof before and after. What commits up to November 2026 have of a tool's (derivations) is
  counted by itself.

With --time both are checked, BEFORE first: in a clean clone `rt check` of each crate in the order of crates.txt, one job each, on a
machine that should do nothing else. Seconds by the clock. They are those of a check from nothing only where the machine has kept
nothing of these crates: `rt check` begins with what it kept in other copies. Differences of 2 s or a twentieth are noise.
"""

import argparse
import os
import platform
import re
import subprocess
import tempfile
import time
from pathlib import Path

ROOT = Path(__file__).resolve().parent.parent
MADE = "tools/twin.py"

DEFINED = re.compile(r"^ *(?:unfoldable |abbrev |opaque )*(?:record |data )?(?:pub )?([^\s:(){}]+)(?: [^:=]*)? :(?: |$)")
DECLARED = re.compile(r"^ *(?:pub(?:\(crate\))? )?(struct|enum|const) (\w+)")
METHODS = re.compile(r"^impl (\w+) \{$")
FUNCTION = re.compile(r'^( *)(?:pub(?:\(crate\))? )?(?:extern "C" )?fn (\w+)')


def git(*words):
    return subprocess.run(["git", "-C", ROOT, *words], check=True, capture_output=True, text=True).stdout


def unfolded(lines, mark):
    """The text without comments, and with one space where there are several."""
    return " ".join(" ".join(line.split(mark)[0] if mark in line else line for line in lines).split())


def definitions(text):
    """What a file of specs/ defines, by name."""
    found, name = {}, None
    for line in text.splitlines():
        if line.lstrip().startswith(("--", "use ")):
            continue
        head = DEFINED.match(line)
        if head and not line.lstrip().startswith(("field", "module")):
            name = head[1]
        if name:
            found.setdefault(name, []).append(line)
    return {name: unfolded(lines, "-- ") for name, lines in found.items()}


def declarations(text):
    """The structs, enums and constants of a file of src/."""
    found, name = {}, None
    for line in text.splitlines():
        head = DECLARED.match(line)
        if head:
            name = head[2]
        if name:
            found.setdefault(name, []).append(line)
        if name and (line.startswith("}") or line.endswith(";")):
            name = None
    return {name: unfolded(lines, "//") for name, lines in found.items()}


def promises(text):
    """The functions of a file of src/: what each takes, gives and promises."""
    found, owner, name, indent = {}, "", None, ""
    for line in text.splitlines():
        methods = METHODS.match(line)
        if methods or line == "}":
            owner = f"{methods[1]}::" if methods else ""
        head = FUNCTION.match(line)
        if head:
            indent, name = head[1], owner + head[2]
        if name and line == indent + "{":
            name = None
        if name:
            found.setdefault(name, []).append(line)
        if name and line.startswith((f"{indent}fn", f"{indent}pub", f"{indent})")) and line.endswith("{"):
            name = None
    return {name: unfolded(lines, "//") for name, lines in found.items()}


class Tree:
    """The crates at a commit."""

    def __init__(self, commit):
        self.commit = git("rev-parse", "--short", commit).strip()
        self.files = {}
        for path in git("ls-tree", "-r", "--name-only", "-z", commit, "--", "crates").split("\0"):
            if path.endswith((".rt", ".antt")):
                self.files[path] = git("show", f"{commit}:{path}")

    def of(self, room):
        return {path: text for path, text in self.files.items() if path.split("/")[2] == room}

    def named(self, room, reading):
        found = {}
        for path, text in self.of(room).items():
            place = path.removeprefix("crates/").replace(f"/{room}/", "::").rsplit(".", 1)[0]
            found.update({f"{place} {name}": body for name, body in reading(text).items()})
        return found

    def lines(self, crate=None):
        """Lines of code, definitions, proofs, and of what was made."""
        counted = dict.fromkeys(["src", "specs", "proofs", "made"], 0)
        for path, text in self.files.items():
            _, own, room = path.split("/")[:3]
            if crate in (None, own) and room in counted:
                counted["made" if MADE in text.split("\n", 1)[0] else room] += text.count("\n")
        return counted


def moved(before, after):
    """Lines `+ new`, `- gone`, `~ another text`."""
    lines = [f"+ {name}" for name in after.keys() - before.keys()]
    lines += [f"- {name}" for name in before.keys() - after.keys()]
    lines += [f"~ {name}" for name in before.keys() & after.keys() if before[name] != after[name]]
    return sorted(lines, key=lambda line: (line[2:], line[0]))


def tell(what, before, after):
    lines = moved(before, after)
    print(f"\n{what}: {len(lines) or 'none'} of {len(before | after)} moved")
    for line in lines:
        print(f"    {line}")


def checked(commit):
    """Seconds of a check, of all crates and of each."""
    seconds = {}
    with tempfile.TemporaryDirectory() as folder:
        clone = Path(folder) / "clone"
        subprocess.run(["git", "clone", "-q", ROOT, clone], check=True)
        subprocess.run(["git", "-C", clone, "checkout", "-q", commit], check=True)
        for crate in re.findall(r"^(\w+)[^:#\n]*:", (clone / "crates.txt").read_text(), re.M):
            start = time.monotonic()
            said = subprocess.run(["rt", "check", "--jobs", "1"], cwd=clone / "crates" / crate, capture_output=True, text=True)
            seconds[crate] = round(time.monotonic() - start)
            if said.returncode != 0:
                raise SystemExit(f"{commit}: {crate} is not proved:\n{said.stdout[-2000:]}{said.stderr[-2000:]}")
    return sum(seconds.values()), seconds


def main():
    words = argparse.ArgumentParser()
    words.add_argument("--time", action="store_true")
    words.add_argument("before")
    words.add_argument("after", nargs="?", default="HEAD")
    asked = words.parse_args()
    before, after = Tree(asked.before), Tree(asked.after)
    print(f"{before.commit} and {after.commit}")
    tell("definitions", before.named("specs", definitions), after.named("specs", definitions))
    tell("types and constants", before.named("src", declarations), after.named("src", declarations))
    tell("promises", before.named("src", promises), after.named("src", promises))
    tell("proof files", before.of("proofs"), after.of("proofs"))

    rooms = sorted({line.split("/")[1] for line in (name[2:] for name in moved(before.files, after.files))})
    print("\n| lines | code | definitions | proof | made |\n|---|---:|---:|---:|---:|")
    for crate in [None, *rooms]:
        first, last = before.lines(crate), after.lines(crate)
        print(f"| {crate or 'all crates'} | " + " | ".join(f"{first[room]} → {last[room]}" for room in first) + " |")
    if asked.time:
        (first, by_crate), (last, by_crate_after) = checked(before.commit), checked(after.commit)
        print(f"\n| seconds of a check, {os.cpu_count()} cores of {platform.machine()} | before | after |\n|---|---:|---:|")
        print(f"| all crates | {first:.0f} | {last:.0f} |")
        for crate in rooms:
            print(f"| {crate} | {by_crate.get(crate, '-')} | {by_crate_after.get(crate, '-')} |")


main()
