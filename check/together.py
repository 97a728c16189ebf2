#!/usr/bin/env python3
"""Runs two, four and eight runs of one file at once: no change is lost, and no code lies.

    python3 check/together.py [PROGRAM] [--seed N] [--quick]

They are run in a folder for files of a while, in one that is kept in memory, and, where there is a C
compiler, in one without locks, in one that locks as NFS does, and in one without links. In half of
the rounds some runs are killed. Each run that ends with 0 has its change in the file, each that ends
with 12 has none, and of one that is killed either may be. All add to one number, too, so that the sum
tells whether a change was lost. Whoever only reads ends with 0.
"""

import os
import pathlib
import re
import subprocess
import tempfile
import time

from definition.commands import answer
from preload import Preload
from shared import Check, error_line

ROUNDS, QUICK_ROUNDS = 200, 3
CLAIM = re.compile(r"\.a\.zfpi@[0-9a-f]{32}")
IN_MEMORY = pathlib.Path("/dev/shm")
# Values that come back exactly beside zeros.
STEP = 1024
BLOCKS = 12
# The block to which all add.
COMMON = BLOCKS - 1
NEW = f"new a int32 {4 * BLOCKS} 256"


class Together:
    def __init__(self, check, folder, settings):
        self.check, self.random = check, check.random
        self.folder, self.env = folder, {**os.environ, **settings}
        self.number = 0
        self.zeros = answer(NEW.split(), b"", {}).files["a"]
        (self.folder / "a").write_bytes(self.zeros)
        self.held = [0] * BLOCKS

    def start(self, script, words="run a"):
        run = subprocess.Popen(
            [self.check.program, *words.split()],
            stdin=subprocess.PIPE,
            stdout=subprocess.PIPE,
            stderr=subprocess.PIPE,
            cwd=self.folder,
            env=self.env,
        )
        return run, script

    def ended(self, run, script):
        """The code and the line with which a run ends that gets its script now, or got it."""
        try:
            _, line = run.communicate(script, timeout=60)
        except subprocess.TimeoutExpired:
            run.kill()
            run.communicate()
            return None, b""
        return run.returncode, line

    def values(self):
        """The first value of each block, as `look` gives it."""
        script = "".join(f"get {4 * block}\n" for block in range(BLOCKS)).encode()
        seen = self.check.run(["look", "a"], script, self.folder)
        return [int(text) for text in seen.out.split()] if seen.code == 0 else None

    def round(self, what, number, runs, with_kill):
        """Some runs at once, each of which writes into a block of its own and adds to a common one."""
        value = number * STEP
        scripts = [f"set {4 * k} {value}\nadd {4 * COMMON} {STEP}\n".encode() for k in range(runs)]
        started = [self.start(script) for script in [*scripts, b"get 0\n"]]
        # All have their script before one is waited for, so that they save at once.
        for run, script in started:
            run.stdin.write(script)
            run.stdin.close()
            run.stdin = None
        if with_kill:
            time.sleep(self.random.random() * 0.012)
            for killed in self.random.sample(range(runs), self.random.randrange(1, runs // 2 + 1)):
                started[killed][0].kill()
        endings = [self.ended(run, None) for run, _ in started]
        self.judge(f"{what}: round of {runs} runs", value, endings, with_kill)

    def judge(self, what, value, endings, with_kill):
        values = self.values()
        if values is None:
            self.check.expect(False, f"{what}: the file is no array", endings)
            return
        *writers, reader = endings
        good = reader == (0, b"")
        for k, (code, line) in enumerate(writers):
            changed, kept = values[k] == value, values[k] == self.held[k]
            good = good and {0: changed, 12: kept, -9: changed or kept}.get(code, False)
            # One that is killed may have said before that it could not save.
            lines = {0: (b"",), 12: (error_line("save fault"),)}.get(code, (b"", error_line("save fault")))
            good = good and line in lines
        done = sum(code == 0 for code, _ in writers)
        killed = sum(code == -9 for code, _ in writers)
        added = (values[COMMON] - self.held[COMMON]) // STEP
        good = good and done <= added <= done + killed and (done > 0 or with_kill)
        self.check.expect(good, what, endings, self.held, values)
        self.held = values

    def with_new(self, number):
        """A run and a `new` at once: the file is the new one, with the run's change or without it."""
        script = f"set 0 {number * STEP}\n".encode()
        changed = answer(["run", "a"], script, {"a": self.zeros}).files["a"]
        started = [self.start(script), self.start(b"", NEW)]
        (code, line), made = [self.ended(run, data) for run, data in started]
        file = (self.folder / "a").read_bytes()
        good = made == (0, b"") and file in (self.zeros, changed)
        lost = (12, error_line("save fault"), self.zeros)
        good = good and ((code, line) == (0, b"") or (code, line, file) == lost)
        self.check.expect(good, f"a run and a new file, round {number}", code, line, made)

    def nothing_left(self, what):
        """After one more save nothing is beside the file, but claims of runs that were killed at the end."""
        script = f"add {4 * COMMON} {STEP}\n".encode()
        self.check.run(["run", "a"], script, self.folder, env=self.env)
        left = {entry.name for entry in self.folder.iterdir()}
        claims = {name for name in left if CLAIM.fullmatch(name)}
        spent = all(not (self.folder / name).exists() or "NO_LINKS" in self.env for name in claims)
        self.check.expect(left - claims == {"a"} and spent, f"{what}: nothing is left beside", sorted(left))

    def rounds(self, what, rounds):
        """All rounds in this folder."""
        for runs in (2, 4, 8):
            for _ in range(rounds):
                self.number += 1
                self.round(f"{what}, {self.number}", self.number, runs, with_kill=self.number % 2 == 0)
        if "NO_LOCKS" not in self.env:
            self.nothing_left(what)
        for number in range(1, rounds + 1):
            self.with_new(number)


def places(check):
    """Folders of several kinds, and what is set for the program there."""
    yield "files", check.folder(), {}
    if IN_MEMORY.is_dir():
        with tempfile.TemporaryDirectory(prefix="zfpi-check-", dir=IN_MEMORY) as folder:
            yield "memory", pathlib.Path(folder), {}
    else:
        check.skip("a folder in memory, since there is no /dev/shm")
    preload = Preload(check)
    if preload.is_built():
        for name in ("NO_LOCKS", "STRICT_LOCKS", "NO_LINKS"):
            yield name, check.folder(), preload.settings(**{name: 1})


def main():
    check = Check(__doc__)
    for what, folder, settings in places(check):
        Together(check, folder, settings).rounds(what, QUICK_ROUNDS if check.quick else ROUNDS)
    check.end()


if __name__ == "__main__":
    main()
