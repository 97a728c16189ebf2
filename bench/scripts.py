#!/usr/bin/env python3
"""Times scripts on arrays.

    python3 bench/scripts.py [PROGRAM [OTHER]]

PROGRAM is the built program, by default crates/zfpi/out/zfpi. OTHER is a program to compare with, by default none: both run
each script in turn, in one run of this. Needs the program time (Debian's package of this name).

Each row has one script: the seconds that the process computes, which is the work of the library, parsing and replies
included; and the seconds that the system takes for it, which are its reads and its writes of replies. The least of five runs.
With OTHER a row has its seconds too, and what part of them PROGRAM took, of the process and of both. Replies go to
a file. Plain numbers: nothing is claimed of them.
"""

import pathlib
import subprocess
import sys
import tempfile

RUNS = 5

SCRIPTS = (
    ("10^6 get lines on a cached block", "int32 8 64", "get 0\n" * 10**6),
    ("10^6 set lines on a cached block", "int32 8 64", "set 0 7\n" * 10**6),
    ("10^6 get lines, 3 dimensions", "int32 8x8x8 64", "get 1,2,3\n" * 10**6),
    ("10^6 set lines, 3 dimensions", "int32 8x8x8 64", "set 1,2,3 7\n" * 10**6),
    ("fill and sum of 256x256x64 values", "int32 256x256x64 512", "fill 3\nsum\nstats\n"),
    ("sum of 256x256x64 values", "int32 256x256x64 512", "sum\n"),
    ("vsum of 256x256x64 values", "int32 256x256x64 512", "vsum\n"),
)


def run_once(program, folder, script):
    """Seconds of the process and of the system for a script."""
    with tempfile.NamedTemporaryFile("r") as told, tempfile.NamedTemporaryFile("wb") as replies:
        command = ["/usr/bin/time", "-o", told.name, "-f", "%U %S", program, "run", "a"]
        with open(script, "rb") as source:
            subprocess.run(command, stdin=source, stdout=replies, cwd=folder, check=True)
        user, system = (float(seconds) for seconds in told.read().split())
    return user, system


def measured(programs, folder, script):
    """The least seconds of some runs of each program, which run in turn."""
    best = [None] * len(programs)
    for _ in range(RUNS):
        for n, program in enumerate(programs):
            times = run_once(program, folder, script)
            if best[n] is None or sum(times) < sum(best[n]):
                best[n] = times
    return best


def main():
    words = sys.argv[1:3] or ["crates/zfpi/out/zfpi"]
    programs = [str(pathlib.Path(word).resolve()) for word in words]
    with tempfile.TemporaryDirectory() as name:
        folder = pathlib.Path(name)
        for title, array, script in SCRIPTS:
            subprocess.run([programs[0], "new", "a", *array.split()], cwd=folder, check=True)
            (folder / "script").write_text(script)
            times = measured(programs, folder, folder / "script")
            row = "; ".join(f"process {user:5.2f} s, system {system:5.2f} s" for user, system in times)
            if len(times) == 2:
                (user, system), (other_user, other_system) = times
                parts = user / max(other_user, 0.01), (user + system) / max(other_user + other_system, 0.01)
                row += f"; part of the other's {parts[0]:.2f}, of both {parts[1]:.2f}"
            print(f"{title:36} {row}", flush=True)


if __name__ == "__main__":
    main()
