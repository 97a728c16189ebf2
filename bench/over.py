#!/usr/bin/env python3
"""Proves one crate over the statements of those below it, as the gate does, with no proof of theirs loaded.

    python3 bench/over.py BUILT check NAME [FLAG..]      proves the crate; after an edit what changed. FLAG is one of
                                                         `rattle check`: --only module::function, --test, --allow-holes
    python3 bench/over.py BUILT library NAME [FLAG..]    proves it, and keeps its statements for the crates above it
    python3 bench/over.py BUILT program NAME [FLAG..]    proves a program and links it: crates/NAME/out/over/NAME
    python3 bench/over.py BUILT archive NAME [FLAG..]    proves a static library and builds it: crates/NAME/out/over/libNAME.a;
                                                         both take --cpu x86-64-v3, for processors with AVX2

BUILT is the top of a clone in which `rt ci` has proved the crates below: it leaves their statements in crates/*/out/rlib. What
`library` has made in this clone counts in place of those. One job, unless FLAG says another. It gives no verdict: `rt ci` does.
"""

import pathlib
import shutil
import subprocess
import sys
import tempfile

TOP = pathlib.Path(__file__).resolve().parent.parent
TRIPLE = "x86_64-unknown-linux-gnu"


def kit():
    """The toolchain's folder."""
    page = subprocess.run(["rt", "doc"], capture_output=True, text=True, check=True).stdout.strip()
    return pathlib.Path(page).parent


def crates_below():
    """Of each crate those that it stands on, of this repository and of the toolchain; and the static libraries."""
    lines = (TOP / "crates.txt").read_text().splitlines()
    pairs = [line.partition(":") for line in lines if ":" in line and line[0] != "#"]
    below = {name.split()[0]: below.split() for name, _, below in pairs}
    return below, {name.split()[0] for name, _, _ in pairs if name.split()[1:] == ["staticlib"]}


def all_below(name, below):
    """The repository's crates below one, lowest first."""
    found = []
    for it in below[name]:
        if it in below:
            found += [more for more in [*all_below(it, below), it] if more not in found]
    return found


class Crate:
    def __init__(self, built, name):
        self.built, self.name, self.kit = built, name, kit()
        self.below, self.static = crates_below()
        self.folder = TOP / "crates" / name
        self.over = self.folder / "out" / "over"
        self.over.mkdir(parents=True, exist_ok=True)

    def library_of(self, name):
        """The statements of a crate below: those made here, or else BUILT's."""
        own = TOP / "crates" / name / "out" / "over" / f"{name}.rlib"
        return own if own.exists() else self.built / "crates" / name / "out" / "rlib" / f"{name}.rlib"

    def words(self):
        """What each command of rattle is told of the crate, but for the checked logic."""
        root = "src/main.rt" if (self.folder / "src/main.rt").exists() else "src/lib.rt"
        words = ["--crate-name", self.name, root, "-L", f"dependency={self.kit}/rlibs"]
        for name in ["std", *self.below[self.name]]:
            library = self.library_of(name) if name in self.below else f"{self.kit}/rlibs/{name}.rlib"
            words += ["--extern", f"{name}={library}"]
        for name in all_below(self.name, self.below):
            words += ["-L", f"dependency={self.library_of(name).parent}"]
        if self.name in self.static:
            words += ["--crate-type", "staticlib"]
        project = self.kit / "rattle/logic/antt-project.json"
        return [*words, "--antt-project", str(project), "--links", f"{self.name}="]

    def rattle(self, verb, *words):
        return subprocess.run([f"{self.kit}/bin/rattle", verb, *self.words(), *words], cwd=self.folder, check=False).returncode

    def checked(self, flags):
        """What a command that proves is told beside that."""
        jobs = [] if "--jobs" in flags else ["--jobs", "1"]
        return ["--logic-built", f"{self.kit}/logic_built", *jobs, *flags]

    def check(self, flags):
        kept = self.over / ("tests" if "--test" in flags else "kept")
        kept.mkdir(exist_ok=True)
        return self.rattle("check", *self.checked(flags), "--incremental", str(kept))

    def library(self, flags):
        made = self.over / f"{self.name}.rlib"
        shutil.rmtree(made, ignore_errors=True)
        return self.rattle("build", *self.checked(flags), "--statements", "-o", str(made))

    def archive(self, flags):
        kept = self.over / "kept"
        kept.mkdir(exist_ok=True)
        made = self.over / f"lib{self.name}.a"
        tools = ["--toolchain", f"{self.kit}/toolchain", "--incremental", str(kept)]
        return self.rattle("build", *self.checked(flags), *tools, "-o", str(made))

    def program(self, flags):
        made, tools = self.over / self.name, ["--toolchain", f"{self.kit}/toolchain"]
        # code is made for the processor that the crate was checked for
        cpu = flags[flags.index("--cpu") :][:2] if "--cpu" in flags else []
        with tempfile.TemporaryDirectory() as room:
            status = self.rattle("check", *self.checked(flags), "-o", f"{room}/checked")
            status = status or self.rattle("build", "--crate-checked", f"{room}/checked", *tools, *cpu, "--backend", "llvm", "-o", f"{made}.o")
        libraries = [f"{self.kit}/c/libos_c.a", f"{self.kit}/c/liblibc_c.a"]
        words = ["--target", TRIPLE, *tools, "-o", str(made), f"{made}.o", *libraries]
        return status or subprocess.run([f"{self.kit}/bin/rattle-link", *words], check=False).returncode


def main():
    if len(sys.argv) < 4 or sys.argv[2] not in ("check", "library", "program", "archive"):
        sys.exit(__doc__)
    built, verb, name, *flags = sys.argv[1:]
    sys.exit(getattr(Crate(pathlib.Path(built).resolve(), name), verb)(flags))


if __name__ == "__main__":
    main()
