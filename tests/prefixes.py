#!/usr/bin/env python3
"""Every prefix of headers that OpenJPEG and Grok wrote: tests/prefixes.py PROGRAM

Has small images written in as many ways as tests/openjpeg.py does, and hands the files to the program, prefixes of rust/beside, which damages
them too, and holds what is said of each prefix, and of growth's region, to what is said of the whole. The program's status, or 2 if too few files
can be made.
"""

import subprocess
import sys
import tempfile
from pathlib import Path

from grids import cases, compressed, write_images
from pictures import install

FILES = 100


def made(folder):
    images = write_images(folder)
    paths = []
    for case in cases():
        path = folder / f"{len(paths)}.{case.suffix}"
        if compressed(images[case.grid.image], path, case.words(), case.tool):
            paths.append(path)
        if len(paths) == FILES:
            break
    return paths


def main():
    if len(sys.argv) != 2:
        sys.exit(f"usage: {__doc__.splitlines()[0].partition(': ')[2]}")
    if not install():
        print("prefixes: the tools that write files can't be installed", file=sys.stderr)
        return 2
    with tempfile.TemporaryDirectory() as name:
        paths = made(Path(name))
        if len(paths) < FILES:
            print(f"prefixes: no more than {len(paths)} files could be made", file=sys.stderr)
            return 2
        return subprocess.run([sys.argv[1], *paths]).returncode


if __name__ == "__main__":
    sys.exit(main())
