#!/usr/bin/env python3
"""Times zfpi beside zfp, and shows how much memory zfpi holds and how its time grows.

    python3 bench/bench.py [PROGRAM] [MEBIBYTES] [FIELDS] [NUMBER] [ROUNDS]

PROGRAM is the built program, by default crates/zfpi/out/zfpi; MEBIBYTES the size of each array, by default 64; FIELDS fields of bench/fields.py, joined by
commas, by default waves,sparse,constant,noise, made from NUMBER, by default 0; ROUNDS how often each row is run, by default 7: more on a machine that others share. Needs the programs zfp and time
(Debian's packages of these names) and numpy, and 50 times MEBIBYTES of memory.

One field is measured after the other. The arrays are nearly cubes, of one to four dimensions, of int32 and int64, each in three modes; every side is a multiple of four. All are made before
anything is timed, and lie in memory (/dev/shm, where there is such a folder), so that no disk has a part in the times. A round goes over all rows, an array
in one mode, and runs ours and zfp's by turns; of each the least of all rounds counts. So what slows the machine for some seconds meets one round
of a row, and a change of its clock both programs.

Of each row the table has bits a value of our stream, and of compress and of restore: nanoseconds a value of processor time (user and system), how many
times as fast ours is as zfp's, by processor time and by the clock on the wall, the most memory that ours held, and its time a value at a quarter of the size and at
four times it, as parts of that at once the size. Below it stand the least and the median of the rows. Plain numbers: nothing is claimed of them.
"""

import filecmp
import math
import os
import pathlib
import statistics
import subprocess
import sys
import tempfile
import time
from typing import NamedTuple

from fields import near_cube

SIZES = (0.25, 1, 4)
WAYS = ("compress", "restore")
HERE = pathlib.Path(__file__).resolve().parent
MEMORY = pathlib.Path("/dev/shm")


class Run(NamedTuple):
    processor: float
    wall: float
    megabytes: float


def run_once(words, given=None, made=None):
    """Seconds of processor time and of wall time of a command, and its most memory."""
    with tempfile.NamedTemporaryFile("r") as told, tempfile.TemporaryFile("r") as said:
        # by a small process, so that this one's memory is not counted with the program's
        command = ["/usr/bin/time", "-o", told.name, "-f", "%M", *words]
        with open(given or "/dev/null", "rb") as source, open(made or "/dev/null", "wb") as sink:
            start = time.monotonic()
            process = subprocess.Popen(command, stdin=source, stdout=sink, stderr=said)
            _, status, used = os.wait4(process.pid, 0)
            wall = time.monotonic() - start
        process.returncode = os.waitstatus_to_exitcode(status)
        if process.returncode != 0:
            said.seek(0)
            sys.exit(f"{' '.join(words)}: {said.read().strip()}")
        return Run(used.ru_utime + used.ru_stime, wall, int(told.read()) * 1024 / 1e6)


class Array(NamedTuple):
    width: int
    sizes: list
    raw: str

    def values(self):
        return math.prod(self.sizes)

    def shape(self):
        return "x".join(map(str, self.sizes))

    def mode(self, bits):
        return ["reversible"] if bits is None else ["rate", str(bits * 4 ** len(self.sizes))]

    def theirs(self, bits):
        words = ["zfp", "-q", "-t", f"i{self.width}", f"-{len(self.sizes)}", *map(str, self.sizes)]
        return words + (["-R"] if bits is None else ["-r", str(bits)])


def array_made(folder, width, dims, mebibytes, field, number):
    """An array of about this size, in a file."""
    sizes = near_cube(mebibytes * 2**20 * 8 / width, dims)
    array = Array(width, sizes, str(folder / f"int{width}_{dims}_{mebibytes}"))
    # in a process of its own, so that no copy of the array stays in this one
    subprocess.run([sys.executable, str(HERE / "fields.py"), field, str(width), array.shape(), number, array.raw], check=True)
    return array


class Row:
    """An array of each size in one mode; `bits` is bits a value, or None without loss."""

    def __init__(self, arrays, bits):
        self.arrays = arrays
        self.bits = bits
        self.runs = {}
        self.stream_bytes = 0

    def measure(self, program, folder):
        for size, array in self.arrays.items():
            self.measure_size(program, folder, size, array)

    def measure_size(self, program, folder, size, array):
        """Both ways, ours and, of the array of once the size, zfp's."""
        stream, theirs, back, theirs_back = (str(folder / name) for name in ("ours", "theirs", "back", "theirs_back"))
        self.add("compress", size, run_once([program, "compress", f"int{array.width}", array.shape(), *array.mode(self.bits)], array.raw, stream))
        if size == 1:
            self.add("compress", "zfp", run_once([*array.theirs(self.bits), "-i", array.raw, "-z", theirs]))
        self.add("restore", size, run_once([program, "restore"], stream, back))
        if size == 1:
            self.add("restore", "zfp", run_once([*array.theirs(self.bits), "-z", theirs, "-o", theirs_back]))
            self.stream_bytes = pathlib.Path(stream).stat().st_size
        if self.bits is None and not filecmp.cmp(back, array.raw, shallow=False):
            sys.exit("the values did not come back")

    def add(self, way, who, run):
        """Keeps the least of each number over all rounds."""
        before = self.runs.get((way, who), run)
        self.runs[way, who] = Run(*map(min, before, run))

    def times(self, way):
        """How many times as fast as zfp, by processor time."""
        return self.runs[way, "zfp"].processor / self.runs[way, 1].processor

    def value_time(self, way, size):
        return self.runs[way, size].processor / self.arrays[size].values() * 1e9

    def names(self):
        array = self.arrays[1]
        return [f"int{array.width} {array.shape()}", "reversible" if self.bits is None else f"rate {self.bits}"]

    def text(self):
        parts = [*self.names(), f"{self.stream_bytes * 8 / self.arrays[1].values():.2f}"]
        for way in WAYS:
            ours, zfp = self.runs[way, 1], self.runs[way, "zfp"]
            grown = " ".join(f"{self.value_time(way, size) / self.value_time(way, 1):.2f}" for size in SIZES if size != 1)
            parts += [f"{self.value_time(way, 1):.2f}", f"{self.times(way):.2f}", f"{zfp.wall / ours.wall:.2f}", f"{ours.megabytes:.1f}", grown]
        return "| " + " | ".join(parts) + " |"


def print_table(rows):
    heads = ["array", "mode", "bits"]
    for way in WAYS:
        heads += [f"{way}: ns a value", "times zfp", "by the clock", "MB", "a quarter, four times"]
    print("| " + " | ".join(heads) + " |")
    print("|" + "---|" * len(heads))
    for row in rows:
        print(row.text())
    for way in WAYS:
        least = min(rows, key=lambda row: row.times(way))
        median = statistics.median(row.times(way) for row in rows)
        print(f"{way}: least {least.times(way):.3f} times zfp, {' '.join(least.names())}; median {median:.3f}")


def measure_field(program, mebibytes, field, number, rounds):
    """The table of one field. Its arrays are gone before those of the next are made."""
    with tempfile.TemporaryDirectory(dir=MEMORY if MEMORY.is_dir() else None) as name:
        folder = pathlib.Path(name)
        rows = []
        for width in (32, 64):
            for dims in (1, 2, 3, 4):
                arrays = {size: array_made(folder, width, dims, size * mebibytes, field, number) for size in SIZES}
                rows += [Row(arrays, bits) for bits in (8, 16, None)]
        for round_number in range(1, rounds + 1):
            print(f"{field}: round {round_number} of {rounds}", file=sys.stderr, flush=True)
            for row in rows:
                row.measure(program, folder)
        print(f"{field}:\n")
        print_table(rows)
        print()


def main():
    program = sys.argv[1] if len(sys.argv) > 1 else "crates/zfpi/out/zfpi"
    mebibytes = int(sys.argv[2]) if len(sys.argv) > 2 else 64
    fields = sys.argv[3] if len(sys.argv) > 3 else "waves,sparse,constant,noise"
    number = sys.argv[4] if len(sys.argv) > 4 else "0"
    rounds = int(sys.argv[5]) if len(sys.argv) > 5 else 7
    for field in fields.split(","):
        measure_field(program, mebibytes, field, number, rounds)


if __name__ == "__main__":
    main()
