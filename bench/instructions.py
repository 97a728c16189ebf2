#!/usr/bin/env python3
"""Counts the instructions of zfpi beside those of zfp, which other work on the machine does not change.

    python3 bench/instructions.py [PROGRAM] [KIBIBYTES] [FIELDS] [OTHER]

PROGRAM is the built program, by default crates/zfpi/out/zfpi; KIBIBYTES the size of each array, by default 1024; FIELDS fields of bench/fields.py, joined by
commas, by default waves,sparse,constant,noise; OTHER another built program, such as one before a change, whose count stands beside. Needs the programs
valgrind and zfp (Debian's packages of these names) and numpy.

The rows are those of bench/bench.py: one to four dimensions, int32 and int64, each at 8 and 16 bits a value and without loss. Of each the table has, for compress
and restore, instructions a value, how many times as many zfp's are, and how many the other program's are as parts of ours. What a program takes for
an array of one block is left out of its count.
"""

import math
import os
import pathlib
import re
import statistics
import subprocess
import sys
import tempfile

from fields import near_cube

HERE = pathlib.Path(__file__).resolve().parent
MEMORY = pathlib.Path("/dev/shm")


def count_of(words, given=None, made=None):
    """The instructions of a command."""
    with open(given or os.devnull, "rb") as source, open(made or os.devnull, "wb") as sink:
        command = ["valgrind", "--tool=callgrind", "--callgrind-out-file=/dev/null", *words]
        done = subprocess.run(command, stdin=source, stdout=sink, stderr=subprocess.PIPE, text=True, check=True)
    return int(re.search(r"Collected : (\d+)", done.stderr)[1])


def mode(bits, dims):
    return ["reversible"] if bits is None else ["rate", str(bits * 4**dims)]


def ours(program, width, sizes, bits, raw, folder):
    stream, back = str(folder / "ours"), str(folder / "back")
    shape = "x".join(map(str, sizes))
    there = count_of([program, "compress", f"int{width}", shape, *mode(bits, len(sizes))], raw, stream)
    return there, count_of([program, "restore"], stream, back)


def zfps(width, sizes, bits, raw, folder):
    stream, back = str(folder / "theirs"), str(folder / "theirs_back")
    words = ["zfp", "-q", "-t", f"i{width}", f"-{len(sizes)}", *map(str, sizes), *(["-R"] if bits is None else ["-r", str(bits)])]
    return count_of([*words, "-i", raw, "-z", stream]), count_of([*words, "-z", stream, "-o", back])


def made_raw(field, width, sizes, folder):
    raw = str(folder / "raw")
    subprocess.run([sys.executable, str(HERE / "fields.py"), field, str(width), "x".join(map(str, sizes)), "0", raw], check=True)
    return raw


def less(whole, least):
    return [a - b for a, b in zip(whole, least)]


def measure_field(programs, kibibytes, field, folder):
    print(f"{field}:\n")
    print("| array | mode | compress: instructions a value | times zfp | other | restore: instructions a value | times zfp | other |")
    print("|---|---|---|---|---|---|---|---|")
    times = ([], [])
    for width in (32, 64):
        for dims in (1, 2, 3, 4):
            sizes = near_cube(kibibytes * 2**10 * 8 / width, dims)
            for bits in (8, 16, None):
                # of one block, whose count is that of the program without its values
                raw = made_raw(field, width, [4] * dims, folder)
                least = [ours(program, width, [4] * dims, bits, raw, folder) for program in programs]
                least_zfp = zfps(width, [4] * dims, bits, raw, folder)
                raw = made_raw(field, width, sizes, folder)
                counts = [less(ours(program, width, sizes, bits, raw, folder), few) for program, few in zip(programs, least)]
                zfp = less(zfps(width, sizes, bits, raw, folder), least_zfp)
                parts = [f"int{width} {'x'.join(map(str, sizes))}", "reversible" if bits is None else f"rate {bits}"]
                for way in (0, 1):
                    times[way].append(zfp[way] / counts[0][way])
                    other = f"{counts[1][way] / counts[0][way]:.2f}" if len(counts) > 1 else ""
                    parts += [f"{counts[0][way] / math.prod(sizes):.1f}", f"{times[way][-1]:.2f}", other]
                print("| " + " | ".join(parts) + " |", flush=True)
    for name, way in (("compress", 0), ("restore", 1)):
        print(f"{name}: least {min(times[way]):.2f} times zfp, median {statistics.median(times[way]):.2f}")
    print()


def main():
    program = sys.argv[1] if len(sys.argv) > 1 else "crates/zfpi/out/zfpi"
    kibibytes = int(sys.argv[2]) if len(sys.argv) > 2 else 1024
    fields = sys.argv[3] if len(sys.argv) > 3 else "waves,sparse,constant,noise"
    with tempfile.TemporaryDirectory(dir=MEMORY if MEMORY.is_dir() else None) as name:
        for field in fields.split(","):
            measure_field([program, *sys.argv[4:5]], kibibytes, field, pathlib.Path(name))


if __name__ == "__main__":
    main()
