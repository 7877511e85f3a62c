#!/usr/bin/env python3
"""Each wrong program is refused by itself: tests/edits.py [CRATE..]

A file of crates/*/must-fail has several wrong programs, which are tried together so that they share one check of their crate:

    ## NAME
    # what the program gets wrong
    # refused: WHERE, WHERE ..
    file: ..
    old: ..
    new: ..

WHERE is a function, as header::parse::tell, whose proof no longer closes, or a law, as proofs/IsoTlm.antt tlm_entries. Each file
is applied to a copy of the tree, and `rt check` is run there; what it says is kept in target/must-fail/CRATE/NAME.log and is held
to these lines: what fails, by a fact of its own and not since something that it cites has failed, is what the programs of the file
name, no more and no less. An error of form, of a name that is not there, or
of a place that the proof file does not have, is no fact. Nor is it one that a search met a bound of its own: a program of which the log says nothing else has a line `# at a bound`,
and is named at the end. Status 1 if anything differs.

Goals and steps are named by the code's own text, as returns-then-a-b in `if a < b`, so a program that changes a condition changes
such names. Before the check the function's proof file is fitted to them, place by place as `rt names` tells them of the code before
and after: what then fails is a fact.
"""

import json
import os
import re
import shutil
import subprocess
import sys
import tempfile
from concurrent.futures import ThreadPoolExecutor
from pathlib import Path
from queue import Queue

from verdict import verdict

ROOT = Path(__file__).resolve().parent.parent
LOGS = ROOT / "target/must-fail"

ERROR = re.compile(r"^\./(proofs/\S+\.antt):\d+:\d+: error: (.*(?:\n  has no .*)?)$", re.M)
# A goal for which there is no answer, and which the search no longer proves.
UNPROVED = re.compile(r"^fn (\S+): .*`search` did not prove", re.M)
# What fails since something that it cites has failed.
FOLLOWS = re.compile(r"was not admitted|were not admitted|which was rejected|which were rejected")
FORM = re.compile(r"not in scope|has no field|module `[^`]+` has no|that can be named|no such|not a function|unknown name|cannot be named|is not defined")
# A place of the program, or what is needed there, beside another: said on any line of an error.
PLACE = re.compile(r"(?:expected type|has type|a value of) `(?:goal\.|\S+\.(?:Lts|Goals)\.)(?:View\.)?(?:After|At|In|Start|Then|Else|Joined|Step|Arm|Own|Past|Asks)\b")
# What the compiler refuses before anything is proved.
UNREAD = re.compile(r"^(?:src/\S+: error.*|\./(?:src|specs)/\S+: error.*)$", re.M)
LINES = re.compile(r"(?:\n  .*)*")
BOUND = re.compile(r"met a bound of its own|at the step limit|gave up at one of its limits")
NAME = re.compile(r"(?<![^\s(){}\[\].;,@:])[^\s(){}\[\].;,@:]+")
PROOF = re.compile(r"proofs/(.+)/(?:Answers|Invariants|Proof)\.antt")


def programs(text):
    """Each wrong program's name, and where it says it is refused."""
    found = {}
    for block in re.split(r"^## ", text, flags=re.M)[1:]:
        name = block.split("\n", 1)[0].strip()
        lines = re.findall(r"^# refused: (.*)$", block, re.M)
        found[name] = {where.strip() for line in lines for where in line.split(",")}
    return found


def bounded(text):
    """The wrong programs that say that no fact is named."""
    return set(re.findall(r"^## (.*)\n(?:#.*\n)*# at a bound$", text, re.M))


def edited(text, home):
    """The texts of the files that the programs change, by their path in the crate."""
    texts, path, old = {}, "", ""
    for line in text.split("\n"):
        if line.startswith("file: "):
            path = line.removeprefix("file: ").strip()
        elif line.startswith("old: "):
            old = line.removeprefix("old: ")
        elif line.startswith("new:"):
            now = texts.get(path) or (home / path).read_text()
            if now.count(old) != 1:
                raise ValueError(f"{path} has {now.count(old)} times: {old}")
            texts[path] = now.replace(old, line.removeprefix("new:").removeprefix(" "))
    return texts


def failed(crate, log):
    """Where the prover's refusals stand, those that follow from others left out, and of these where a fact is named; and the errors
    of form."""
    where, form = set(UNPROVED.findall(log)), UNREAD.findall(log)
    facts = set(where)
    for error in ERROR.finditer(log):
        file, message = error.groups()
        if FOLLOWS.search(message):
            continue
        proof = PROOF.fullmatch(file)
        law = re.match(r"`([^`]+)`", message)
        place = "::".join([crate, *proof[1].split("/")]) if proof else f"{file} {law[1] if law else ''}".strip()
        where.add(place)
        said = message + LINES.match(log, error.end())[0]
        if not BOUND.search(said):
            facts.add(place)
        if FORM.search(message) or PLACE.search(said):
            form.append(f"{file}: {message}")
    return where, facts, form


def faults(crate, name, text, log):
    known = programs(text)
    said = [f"{program} does not say where it is refused" for program, where in known.items() if not where]
    if not known or len(re.findall(r"^## ", text, re.M)) != len(known):
        said.append("no program, or a name that stands twice")
    if len(re.findall(r"^new:", text, re.M)) < len(known):
        said.append("a program without a change")
    wanted = set().union(*known.values()) if known else set()
    where, facts, form = failed(crate, log)
    at_bound = {program for program, places in known.items() if places & where - facts}
    said += [f"{one} is refused at a bound, and names no fact" for one in sorted(at_bound - bounded(text))]
    said += [f"{one} says that it is refused at a bound, and names a fact" for one in sorted(bounded(text) - at_bound)]
    said += [f"{one} is not refused" for one in sorted(wanted - where)]
    said += [f"{one} is refused, and no program says so" for one in sorted(where - wanted)]
    said += [f"an error of form: {one}" for one in form]
    if not re.search(r"^logic=", log, re.M):
        said.append("the check came to no end")
    return [f"{crate}/{name}: {line}" for line in said]


def write(home, texts):
    for path, text in texts.items():
        (home / path).write_text(text)


def copy_tree(to):
    """The crates without what was built of them."""
    for file in "crates.txt", "HANDLES":
        if (ROOT / file).exists():
            shutil.copy(ROOT / file, to)
    for home in sorted((ROOT / "crates").iterdir()):
        for part in "src", "specs", "proofs":
            if (home / part).is_dir():
                shutil.copytree(home / part, to / "crates" / home.name / part)


def names(home):
    """The names that proof files cite, as `rt names` writes them: of each function, by the place in its code."""
    with tempfile.TemporaryDirectory() as folder:
        subprocess.run(["rt", "names", folder], cwd=home, stdout=subprocess.DEVNULL, stderr=subprocess.DEVNULL)
        file = Path(folder) / "names.json"
        return json.loads(file.read_text()) if file.exists() else {}


def by_place(told):
    """Of one function: each goal, step, arm and place, by where it stands."""
    found = {("goal", old): new for old, new in told["needs"]}
    for place, name, arm in zip(told["places"], told["places_by_name"], told["arms"]):
        found["step", place[0]], found["place", place[0]] = place[2][1], name
        if arm:
            found["arm", place[0]] = arm[0]
    return found


def fitted(crate, home, before):
    """The proof files of functions whose names the programs change, with the names of the changed code."""
    texts = {}
    for key, told in names(home).items():
        function = re.fullmatch(rf"Rattle-{crate}-proofs\.(.+)\.Lts", key)
        if not function or key not in before:
            continue
        was, now = by_place(before[key]), by_place(told)
        other = {was[place]: now[place] for place in was if was[place] != now.get(place, was[place])}
        # a branch is spelled like its place, and what an arm leaves to later ones like the arm
        other |= {old[0].lower() + old[1:]: new[0].lower() + new[1:] for old, new in other.items()}
        other |= {old.replace("in-", "not-", 1): new.replace("in-", "not-", 1) for old, new in other.items() if old.startswith("in-")}
        for file in "Answers", "Invariants":
            path = f"proofs/{function[1].replace('.', '/')}/{file}.antt"
            if other and (home / path).exists():
                texts[path] = NAME.sub(lambda name: "+".join(other.get(part, part) for part in name[0].split("+")), (home / path).read_text())
    return texts


def tried(edit, copies):
    """What the prover says of the crate with the programs of a file."""
    crate = edit.parts[-3]
    copy = copies.get()
    home = copy / "crates" / crate
    try:
        before = names(home)
        texts = edited(edit.read_text(), home)
        kept = {path: (home / path).read_text() for path in texts}
        write(home, texts)
        texts = fitted(crate, home, before)
        kept |= {path: (home / path).read_text() for path in texts if path not in kept}
        write(home, texts)
        ran = subprocess.run(["rt", "check", "--jobs", "1"], cwd=home, stdout=subprocess.PIPE, stderr=subprocess.STDOUT, text=True, errors="replace")
        write(home, kept)
        return ran.stdout
    except (OSError, ValueError) as error:
        return f"./src/{error}: error: it can't be applied\n"
    finally:
        copies.put(copy)


def logs(edits):
    """What the prover says of each, so many at a time as there are processors."""
    with tempfile.TemporaryDirectory() as folder:
        copies = Queue()
        for number in range(os.cpu_count() or 1):
            copy = Path(folder) / str(number)
            copy.mkdir()
            copy_tree(copy)
            copies.put(copy)
        with ThreadPoolExecutor(copies.qsize()) as pool:
            yield from zip(edits, pool.map(lambda edit: tried(edit, copies), edits))


def main():
    said, files, count, at_bound = [], 0, 0, []
    # a place beside another is seen, whatever line says it
    for line in "expected type `A.Lts.View.In-In-Part`, but this has type `B`", "a value of `A.Lts.View.Asks-returns B` has to be a record":
        if not failed("a", f"./proofs/A.antt:1:1: error: `a`: the two types differ\n  {line}\n")[2]:
            said.append(f"this check does not see {line}")
    edits = [edit for edit in sorted(ROOT.glob("crates/*/must-fail/*.edit")) if not sys.argv[1:] or edit.parts[-3] in sys.argv[1:]]
    # what stands unchanged is proved once, for all copies
    for crate in sorted({edit.parts[-3] for edit in edits}):
        if subprocess.run(["rt", "check"], cwd=ROOT / "crates" / crate, stdout=subprocess.DEVNULL).returncode:
            said.append(f"{crate} is not proved as it stands")
    for edit, log in logs(edits):
        crate, name, text = edit.parts[-3], edit.stem, edit.read_text()
        (LOGS / crate).mkdir(parents=True, exist_ok=True)
        (LOGS / crate / f"{name}.log").write_text(log)
        said += faults(crate, name, text, log)
        # it is seen where a program is refused at one place less, or at one more
        for where in sorted(set().union(*programs(text).values())):
            for other in "", f"{where}, {crate}::nothing":
                changed = re.sub(rf"(^# refused:.*?){re.escape(where)}(?=,|$)", rf"\g<1>{other}", text, flags=re.M)
                if not faults(crate, name, changed, log):
                    said.append(f"{crate}/{name}: this check does not see {where}")
        at_bound += [f"{crate}/{program}" for program in sorted(bounded(text))]
        files += 1
        count += len(programs(text))
    if not files:
        said.append("there is none")
    named = f"; OF {len(at_bound)} THE LOG NAMES NO FACT: {', '.join(at_bound)}" if at_bound else ""
    return verdict("edits", said, f"{count} wrong programs in {files} files, each refused where it says{named}")


if __name__ == "__main__":
    sys.exit(main())
