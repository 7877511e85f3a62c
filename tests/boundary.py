#!/usr/bin/env python3
"""The boundary for C: tests/boundary.py

Holds include/winterhasp.h and the declarations in rust/ to the functions that crates/host_c and crates/probe_c export, name by
name and type by type, a struct that is passed to its fields, and both to what the archives in target/staticlib define; then compiles the C programs of tests/c with
every warning an error, links the archive, and runs them on sample A. Status 1 if anything differs. CC names the C compiler.
"""

import os
import re
import subprocess
import sys
import tempfile
from pathlib import Path

from verdict import verdict

ROOT = Path(__file__).resolve().parent.parent
HEADER = ROOT / "include/winterhasp.h"
PROGRAMS = ROOT / "tests/c"
SAMPLE = ROOT / "crates/tileparts/stdin"
LISTING = ROOT / "crates/tileparts/stdout"
ARCHIVES = ROOT / "target/staticlib"
RUST = {"host": ROOT / "rust/winterhasp/src/boundary.rs", "probe": ROOT / "rust/probe/src/boundary.rs"}
EXPORTED = ROOT / "crates/header/src/reading.rt"
STRICT = ["-std=c99", "-pedantic", "-Wall", "-Wextra", "-Werror"]

EXPORT = re.compile(r'^pub extern "C" fn (\w+)\((.*?)\) -> (\w+)$', re.M | re.S)
PROTOTYPE = re.compile(r"^(uint\d+_t) (\w+)\(([^;{]*)\);$", re.M)
DECLARATION = re.compile(r"^ *pub fn (\w+)\(([^;{]*)\) -> (\w+);$", re.M)
WORDS = {"u8": "uint8_t", "u16": "uint16_t", "u32": "uint32_t", "u64": "uint64_t", "usize": "size_t"}
# A struct that is passed by value, as C and Rust name it.
READING = "ReadingNumbers"
IN_C, IN_RUST = {READING: "winterhasp_reading"}, {READING: "Reading"}
EXPORTED_FIELDS = re.compile(rf"^#\[repr\(C\)\]\n(?:#\[.*\]\n)*pub struct {READING} \{{\n(.*?)^\}}$", re.M | re.S)
C_FIELDS = re.compile(rf"^typedef struct {IN_C[READING]} \{{\n(.*?)^\}} {IN_C[READING]};$", re.M | re.S)
RUST_FIELDS = re.compile(rf"^#\[repr\(C\)\]\n(?:#\[.*\]\n)*pub struct {IN_RUST[READING]} \{{\n(.*?)^\}}$", re.M | re.S)
# What C has another use for.
RENAMED = {"signed": "signed_samples"}


def exports(crate):
    """Each function's answer and parameters, these as what C and Rust pass: (type, name)."""
    found = {}
    for file in sorted((ROOT / "crates" / crate / "src").glob("*.rt")):
        for name, parameters, answer in EXPORT.findall(file.read_text()):
            passed = []
            for parameter in filter(None, map(str.strip, parameters.split(","))):
                called, kind = parameter.split(": ")
                pointed = re.fullmatch(r"&(mut )?(\[)?(\w+)\]?", kind)
                if not pointed:
                    passed.append((kind, called))
                    continue
                passed.append((f"*{'mut' if pointed[1] else 'const'} {pointed[3]}", called))
                if pointed[2]:
                    passed.append(("usize", f"{called}_len"))
            found[name] = (answer, passed)
    return found


def in_c(function):
    answer, passed = function
    kinds = []
    for kind, name in passed:
        pointer = re.fullmatch(r"\*(mut|const) (\w+)", kind)
        if pointer:
            kind = f"{'const ' if pointer[1] == 'const' else ''}{WORDS[pointer[2]]} *"
        else:
            kind = f"{IN_C.get(kind) or WORDS[kind]} "
        kinds.append(kind + RENAMED.get(name, name))
    return (WORDS[answer], kinds)


def in_rust(function):
    answer, passed = function
    return (answer, [f"{name}: {IN_RUST.get(kind, kind)}" for kind, name in passed])


def fields(pattern, text):
    """Of the struct that is passed, in order, as C writes them: type and name."""
    [body] = pattern.findall(text) or [""]
    rust = [(WORDS[kind], name) for name, kind in re.findall(r"^    pub (\w+): (\w+),$", body, re.M)]
    return rust or re.findall(r"^    (uint\d+_t) (\w+);", body, re.M)


def declared(pattern, text, answer_first):
    found = {}
    for one, two, three in pattern.findall(text):
        answer, name, parameters = (one, two, three) if answer_first else (three, one, two)
        found[name] = (answer, [" ".join(part.split()) for part in parameters.split(",") if part.strip()])
    return found


def differences(what, wanted, found):
    names = sorted(wanted.keys() | found.keys())
    return [f"{what}: {name}: {found.get(name)} and not {wanted.get(name)}" for name in names if wanted.get(name) != found.get(name)]


def defined(archive):
    listed = subprocess.run(["nm", "--defined-only", archive], check=True, capture_output=True, text=True).stdout
    return set(re.findall(r"^\w+ T (winterhasp_\w+)$", listed, re.M))


def texts(host, probe, header, rust):
    """What differs between the exports and their texts."""
    said = differences("winterhasp.h", {name: in_c(function) for name, function in host.items()}, declared(PROTOTYPE, header, True))
    for crate, functions in (("host", host), ("probe", probe)):
        wanted = {name: in_rust(function) for name, function in functions.items()}
        said += differences(f"rust, {crate}", wanted, declared(DECLARATION, rust[crate], False))
    wanted = {READING: fields(EXPORTED_FIELDS, EXPORTED.read_text()) or "no fields"}
    said += differences("winterhasp.h", wanted, {READING: fields(C_FIELDS, header)})
    said += differences("rust, host", wanted, {READING: fields(RUST_FIELDS, rust["host"])})
    return said


def uncalled(host):
    text = (PROGRAMS / "calls.c").read_text()
    return [f"tests/c/calls.c does not call {name}" for name in host if not re.search(rf"\b{name}\(", text)]


def run(name, folder):
    """What a program of tests/c prints of sample A, and what is wrong with that."""
    program = folder / name
    source = PROGRAMS / f"{name}.c"
    command = [os.environ.get("CC", "cc"), *STRICT, "-I", HEADER.parent, "-o", program, source, ARCHIVES / "libhost.a"]
    built = subprocess.run(command, capture_output=True, text=True)
    if built.returncode != 0:
        return "", [f"{source.name} is not built:\n{built.stderr}"]
    ran = subprocess.run([program], stdin=SAMPLE.open(), capture_output=True, text=True)
    return ran.stdout, [] if ran.returncode == 0 else [f"{source.name}: status {ran.returncode}\n{ran.stdout}"]


def main():
    host, probe = exports("host_c"), exports("probe_c")
    header = HEADER.read_text()
    rust = {crate: file.read_text() for crate, file in RUST.items()}
    said = texts(host, probe, header, rust)
    # it is seen where one of them changes
    for name in host:
        for changed in (header.replace(f"{name}(", f"{name}(uint8_t more, "), header.replace(f" {name}(", " winterhasp_other(")):
            if not said and not texts(host, probe, changed, rust):
                said.append(f"{name}: this check does not see its prototype change")
    swapped = re.sub(r"(    uint32_t numbering;.*\n)(    uint32_t edition;.*\n)", r"\2\1", header)
    if not said and not texts(host, probe, swapped, rust):
        said.append("this check does not see the fields of a reading change places")
    for crate, functions in (("host", host), ("probe", probe)):
        archive = defined(ARCHIVES / f"lib{crate}.a")
        said += [f"lib{crate}.a and crates/{crate}: {name}" for name in sorted(archive ^ functions.keys())]
    said += uncalled(host)
    with tempfile.TemporaryDirectory() as folder:
        _, wrong = run("calls", Path(folder))
        said += wrong
        listed, wrong = run("list", Path(folder))
        said += wrong
        if not wrong and listed != LISTING.read_text():
            said.append(f"list.c lists sample A so:\n{listed}")
    return verdict("boundary", said, f"{len(host)} functions for C and {len(probe)} for the runs, their texts, the archives and two programs in C")


if __name__ == "__main__":
    sys.exit(main())
