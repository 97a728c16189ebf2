#!/usr/bin/env python3
"""Shows where the time of a block goes: nanoseconds a block by stage, for each dimension, type and mode.

    python3 bench/stages.py [PROGRAM] [MEBIBYTES]

PROGRAM is the built program, by default crates/zfpi/out/zfpi; MEBIBYTES the size of each array, by default 16. Needs the program perf (Debian's package
linux-perf) and numpy.

Each array is compressed and restored under perf, which looks many times a second which function runs: the share of the looks that find a stage's
functions, of the least processor time of three runs without perf, is the stage's time. A function that the compiler has put into another counts for that
one: copies of blocks, ranking and small calls mostly stand in `stream`. Plain numbers: nothing is claimed of them.
"""

import math
import os
import pathlib
import subprocess
import sys
import tempfile

from fields import near_cube

RUNS = 3
HERE = pathlib.Path(__file__).resolve().parent

# the stages, by how the names of their functions begin; the first that fits counts
STAGES = (
    ("planes", ("zf_planes::",)),
    ("turning", ("zf_coef::planes", "zf_coef::digits", "zf_coef::turning")),
    ("ranking", ("zf_coef::",)),
    ("transform", ("zf_lift::", "zf_lorenzo::", "zf_axes::")),
    ("blocks", ("zf_pad::", "zf_base::")),
    ("codes", ("zf_block::",)),
    ("bits", ("zf_bits::",)),
    ("stream", ("zf_stream::", "zf_header::", "zf_dev::", "zfpi::")),
)
OTHERS = ("copies", "system")


def stage_of(dso, symbol):
    """The stage of a function, or where it is none of ours: copies and cleared memory, which the C library does, and the system."""
    if "kernel" in dso:
        return "system"
    for name, beginnings in STAGES:
        if symbol.startswith(beginnings):
            return name
    return "copies" if "libc" in dso else "stream"


def seconds_of(words, given, made):
    """Seconds of processor time of a command, the least of some runs."""
    best = None
    for _ in range(RUNS):
        with open(given, "rb") as source, open(made, "wb") as sink:
            process = subprocess.Popen(words, stdin=source, stdout=sink)
            _, status, used = os.wait4(process.pid, 0)
            process.returncode = os.waitstatus_to_exitcode(status)
        if process.returncode != 0:
            sys.exit(f"{' '.join(words)}: exit code {process.returncode}")
        seconds = used.ru_utime + used.ru_stime
        best = seconds if best is None else min(best, seconds)
    return best


def profile(words, given, made, folder):
    """Seconds of processor time of a command by stage."""
    seconds = seconds_of(words, given, made)
    told = str(folder / "perf")
    with open(given, "rb") as source, open(made, "wb") as sink:
        subprocess.run(["perf", "record", "-q", "-F", "5000", "-o", told, *words], stdin=source, stdout=sink, stderr=subprocess.DEVNULL, check=True)
    script = subprocess.run(["perf", "script", "-i", told, "-F", "ip,sym,dso"], capture_output=True, text=True, check=True).stdout
    counts = dict.fromkeys([name for name, _ in STAGES] + list(OTHERS), 0)
    for line in script.splitlines():
        # an address, the symbol and in brackets the file that it is of
        head, _, dso = line.strip().rpartition(" (")
        symbol = head.split(" ", 1)[-1].strip()
        counts[stage_of(dso, symbol)] += 1
    looks = max(sum(counts.values()), 1)
    return {name: seconds * count / looks for name, count in counts.items()}


def main():
    program = str(pathlib.Path(sys.argv[1] if len(sys.argv) > 1 else "crates/zfpi/out/zfpi").resolve())
    mebibytes = int(sys.argv[2]) if len(sys.argv) > 2 else 16
    names = [name for name, _ in STAGES] + list(OTHERS)
    print(f"{'nanoseconds a block':36}" + "".join(f"{name:>10}" for name in [*names, "all"]))
    with tempfile.TemporaryDirectory() as name:
        folder = pathlib.Path(name)
        raw, stream, back = (str(folder / part) for part in ("raw", "stream", "back"))
        for width in (32, 64):
            for dims in (1, 2, 3, 4):
                sizes = near_cube(mebibytes * 2**20 * 8 / width, dims)
                shape = "x".join(map(str, sizes))
                blocks = math.prod(size // 4 for size in sizes)
                subprocess.run([sys.executable, str(HERE / "fields.py"), "waves", str(width), shape, "0", raw], check=True)
                for bits in (8, 16, None):
                    mode = ["reversible"] if bits is None else ["rate", str(bits * 4**dims)]
                    title = f"int{width} {dims}-D " + ("reversible" if bits is None else f"{bits} bits a value")
                    for way, words, given, made in (
                        ("compress", [program, "compress", f"int{width}", shape, *mode], raw, stream),
                        ("restore", [program, "restore"], stream, back),
                    ):
                        parts = profile(words, given, made, folder)
                        numbers = [parts[name] * 1e9 / blocks for name in names]
                        print(f"{title + ' ' + way:36}" + "".join(f"{number:10.0f}" for number in [*numbers, sum(numbers)]), flush=True)


if __name__ == "__main__":
    main()
