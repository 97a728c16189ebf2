"""What the checks share: their words, their counts, and how they run the program."""

import argparse
import pathlib
import random
import subprocess
import sys
import tempfile
from typing import NamedTuple

TOP = pathlib.Path(__file__).resolve().parent.parent
BUILT = TOP / "crates/zfpi/out/zfpi"
# No call of a check needs more seconds than this, on a slow machine too.
SECONDS = 60
MOST_FAILURES_SHOWN = 20


class Ended(NamedTuple):
    """How a run ended. The code is negative after a signal, and `None` where the time was over."""

    code: int | None
    out: bytes
    line: bytes


class Check:
    """A check: its words, its random numbers, a folder of its own, and its counts."""

    def __init__(self, about):
        parser = argparse.ArgumentParser(description=about.splitlines()[0])
        parser.add_argument("program", nargs="?", default=str(BUILT), help="the built program")
        parser.add_argument("--seed", type=int, default=1, help="what random cases are made from")
        parser.add_argument("--quick", action="store_true", help="fewer cases")
        words = parser.parse_args()
        self.program = str(pathlib.Path(words.program).resolve())
        self.seed, self.quick = words.seed, words.quick
        self.random = random.Random(self.seed)
        self.passed = self.failed = 0
        self._room = tempfile.TemporaryDirectory(prefix="zfpi-check-")
        self.room = pathlib.Path(self._room.name)

    def expect(self, holds, what, *seen):
        """Counts a case. One that fails is shown, with what was seen."""
        if holds:
            self.passed += 1
            return
        self.failed += 1
        if self.failed <= MOST_FAILURES_SHOWN:
            print(f"FAILED (seed {self.seed}): {what}", *(short(it) for it in seen), sep="\n    ", flush=True)

    def skip(self, what):
        print(f"skipped: {what}", flush=True)

    def say(self, what):
        print(what, flush=True)

    def folder(self, name="work"):
        """An empty folder of this name."""
        folder = self.room / name
        if folder.exists():
            empty(folder)
        folder.mkdir(exist_ok=True)
        return folder

    def run(self, words, data=b"", folder=None, before=(), **how):
        """Runs the program on these words and this input. `before` are words of a program that runs it."""
        how.setdefault("cwd", folder or self.room)
        how |= {"input": data} if "stdin" not in how else {}
        how = {"stdout": subprocess.PIPE, "stderr": subprocess.PIPE} | how
        command = [*before, self.program, *words]
        try:
            ran = subprocess.run(command, timeout=SECONDS, check=False, **how)
        except subprocess.TimeoutExpired as late:
            return Ended(None, late.stdout or b"", late.stderr or b"")
        return Ended(ran.returncode, ran.stdout or b"", ran.stderr or b"")

    def end(self):
        """Says the counts, and ends the check."""
        if self.failed > MOST_FAILURES_SHOWN:
            print(f"{self.failed - MOST_FAILURES_SHOWN} more failures are not shown")
        print(f"{self.passed} passed, {self.failed} failed", flush=True)
        self._room.cleanup()
        sys.exit(1 if self.failed else 0)


def short(seen):
    """What was seen, cut to a length that can be read."""
    text = seen.hex() if isinstance(seen, bytes) and not seen.isascii() else repr(seen)
    return text if len(text) <= 600 else f"{text[:600]}.. ({len(text)} characters)"


def empty(folder):
    for entry in folder.iterdir():
        if entry.is_dir() and not entry.is_symlink():
            empty(entry)
            entry.rmdir()
        else:
            entry.unlink()


def files_of(folder):
    """The files of a folder, by name."""
    return {entry.name: entry.read_bytes() for entry in folder.iterdir() if entry.is_file()}


def put_files(folder, files):
    for name, data in files.items():
        (folder / name).write_bytes(data)


def error_line(text):
    return f"zfpi: {text}\n".encode() if text else b""
