#!/usr/bin/env python3
"""Copies crates of this repository, with all that they stand on, into another repository of Rattle.

    python3 examples/take_crates.py FOLDER NAME..

FOLDER is the top of the other repository. The crates come into FOLDER/crates, without their tests, planted
bugs and what was built; their lines are put behind those of FOLDER/crates.txt. A crate that is there already
stays as it is.
"""

import pathlib
import re
import shutil
import sys

TOP = pathlib.Path(__file__).resolve().parent.parent
# a module of tests, in a file of its own or where it is declared
TESTS = re.compile(r"\n*^#\[cfg\(test\)\]\nmod (\w+)(?:;\n| \{\n.*?^\}\n)", re.M | re.S)


def crates_below():
    """Of each crate those that it stands on, and its line: `NAME: DEP ..`, or `NAME staticlib: DEP ..`."""
    lines = (TOP / "crates.txt").read_text().splitlines()
    lines = {line.split()[0].rstrip(":"): line for line in lines if ":" in line and line[0] != "#"}
    return {name: line.partition(":")[2].split() for name, line in lines.items()}, lines


def needed(names, below):
    """The crates of these names and all below them that stand in this repository, lowest first."""
    found = []
    for name in names:
        if name in below:
            found += [it for it in [*needed(below[name], below), name] if it not in found]
    return list(dict.fromkeys(found))


def leave_out_tests(crate):
    """Takes the modules of tests out of a copy of a crate, with their files and proofs."""
    for file in sorted((crate / "src").rglob("*.rt")):
        if not file.exists():
            continue
        text = file.read_text()
        for name in TESTS.findall(text):
            beside = file.parent if file.stem in ("lib", "main") else file.with_suffix("")
            (beside / f"{name}.rt").unlink(missing_ok=True)
            shutil.rmtree(beside / name, ignore_errors=True)
            shutil.rmtree(crate / "proofs" / beside.relative_to(crate / "src") / name, ignore_errors=True)
        file.write_text(TESTS.sub("\n", text))


def main():
    if len(sys.argv) < 2:
        sys.exit(__doc__)
    folder, *names = sys.argv[1:]
    below, said = crates_below()
    unknown = [name for name in names if name not in below]
    if unknown or not names:
        print(
            "take_crates.py:",
            f"no such crate: {' '.join(unknown)}" if unknown else "name a crate",
            file=sys.stderr,
        )
        sys.exit(f"those of this repository are {' '.join(sorted(below))}")
    for name in needed(names, below):
        there = pathlib.Path(folder) / "crates" / name
        if not there.exists():
            shutil.copytree(TOP / "crates" / name, there, ignore=shutil.ignore_patterns("out", "must-fail"))
            leave_out_tests(there)
            with open(pathlib.Path(folder) / "crates.txt", "a") as lines:
                lines.write(f"{said[name]}\n")
            print(name)


if __name__ == "__main__":
    main()
