#!/usr/bin/env python3
"""The library beside the program: C, C++, Python, HDF5 and zarr, in memory that is lent.

    check/library.py [PROGRAM] [--seed N] [--quick]

The library is the one that ZFPI_LIBRARY names, with its archive `libzfpi.a` beside it, or crates/zfpi_c/out/libzfpi.so.1.
Without it the check is left out: the gate proves the crates and builds no archive, install.sh does.
"""

import importlib.util
import json
import math
import os
import pathlib
import shutil
import subprocess
import sys
import threading

from calls import Calls, shape_word
from definition.commands import WIDTHS
from definition.streams import NARROW
from shared import TOP, Check

BUILT = TOP / "crates/zfpi_c/out/libzfpi.so.1"
C_FIELDS = (
    # type, sizes with x first, mode, parameter
    ("int32", (1000,), 1, 0), ("int32", (50, 40), 2, 100), ("int32", (17, 13, 9), 1, 0), ("int32", (4, 4), 1, 0),
    ("int64", (300,), 3, 30), ("int64", (33, 31), 2, 1500), ("int64", (9, 8, 7), 2, 4096), ("int64", (6, 5, 6, 5), 1, 0),
    ("int8", (123,), 1, 0), ("uint8", (64, 64), 2, 128), ("int16", (20, 20, 20), 1, 0), ("uint16", (9, 9, 9, 4), 3, 40),
)
NUMBERS = {"int32": 1, "int64": 2, "int8": 3, "uint8": 4, "int16": 5, "uint16": 6}
MODES = {1: "reversible", 2: "rate", 3: "precision"}
WIDTH = {**WIDTHS, **{name: bits[0] for name, bits in NARROW.items()}}


def built(check, library, source, name):
    """A C or C++ program over the archive, or `None` where there is no compiler."""
    compiler = shutil.which("c++" if source.suffix == ".cpp" else "cc")
    if compiler is None:
        check.skip(f"{source.name}: there is no C compiler")
        return None
    made, own = check.room / name, ["-g", "-O1", "-Wall", "-Wextra", "-Werror", f"-I{TOP}/capi"]
    done = subprocess.run([compiler, *own, "-o", str(made), str(source), str(library.with_name("libzfpi.a"))], check=False)
    check.expect(done.returncode == 0, f"{source.name} is compiled")
    return made if done.returncode == 0 else None


def c_calls(check, library):
    program = built(check, library, TOP / "check/library/calls.c", "calls")
    watch = ["valgrind", "-q", "--error-exitcode=99", "--leak-check=full"] if shutil.which("valgrind") else []
    if not watch:
        check.skip("C calls under valgrind: it is not there")
    for kind, sizes, mode, parameter in C_FIELDS if program else ():
        raw = Calls(check.random).raw(WIDTH[kind], math.prod(sizes))
        (check.room / "raw").write_bytes(raw)
        words = [NUMBERS[kind], len(sizes), *(*sizes, 0, 0, 0)[:4], mode, parameter, check.room / "stream"]
        ran = subprocess.run([*watch, program, check.room / "raw", *map(str, words)], capture_output=True, check=False)
        what = f"{kind} {shape_word(sizes)} {MODES[mode]} {parameter} in C"
        check.expect(ran.returncode == 0, what, ran.stderr)
        said = [MODES[mode]] + [str(parameter)] * (mode != 1)
        ours = check.run(["compress", kind, shape_word(sizes), *said], raw)
        check.expect(ran.returncode or ours.out == (check.room / "stream").read_bytes(), f"{what}: the program's stream")


def c_others(check, library):
    program = built(check, library, TOP / "check/library/calls.cpp", "calls_cpp")
    check.expect(program is None or subprocess.run([program], check=False).returncode == 0, "a field in C++")
    program = built(check, library, TOP / "check/library/memory.c", "memory")
    if program:
        ran = subprocess.run([program], capture_output=True, text=True, check=False)
        check.expect(ran.returncode == 0, "each allocation refused", ran.stdout)
        check.say(ran.stdout.strip())


def python_with(check, *modules):
    """A Python that has these modules, or `None`."""
    for python in (sys.executable, "/usr/bin/python3"):
        there = [python, "-c", f"import {', '.join(modules)}"]
        if os.access(python, os.X_OK) and subprocess.run(there, capture_output=True, check=False).returncode == 0:
            return python
    check.skip(f"no Python here has {' and '.join(modules)}")
    return None


def in_python(check, library, script, *modules):
    """Runs a script of check/library in a Python that has these modules; each line that it writes is a case."""
    python = python_with(check, *modules)
    if python is None:
        return
    env = {**os.environ, "ZFPI_LIBRARY": str(library), "PYTHONPATH": f"{TOP}/python:{TOP}/check", "ZFPI": check.program}
    env["HDF5_PLUGIN_PATH"] = str(check.room / "plugin")
    words = [python, str(TOP / "check/library" / script), str(check.seed), "quick" if check.quick else "full"]
    ran = subprocess.run(words, capture_output=True, text=True, cwd=check.folder(), env=env, check=False)
    for line in ran.stdout.splitlines():
        case = json.loads(line)
        check.expect(case["holds"], case["what"], case.get("seen", ""))
    check.expect(ran.returncode == 0, f"{script} ends well", ran.stderr)


def plugin(check, library):
    """The filter of HDF5, or nothing where its headers are not there."""
    flags = ["-I/usr/include/hdf5/serial", "-L/usr/lib/x86_64-linux-gnu/hdf5/serial", "-lhdf5"]
    (check.room / "plugin").mkdir()
    own = ["cc", "-O2", "-Wall", "-Wextra", "-Werror", "-fPIC", "-shared", f"-I{TOP}/capi"]
    words = [*own, "-o", str(check.room / "plugin/libH5Zzfpi.so"), str(TOP / "hdf5/H5Zzfpi.c"), str(library.with_name("libzfpi.a"))]
    if not shutil.which("cc") or not pathlib.Path("/usr/include/hdf5/serial/hdf5.h").exists():
        check.skip("the filter of HDF5: there is no compiler, or no libhdf5-dev")
        return False
    done = subprocess.run([*words, *flags], capture_output=True, check=False)
    check.expect(done.returncode == 0, "the filter of HDF5 is compiled", done.stderr)
    return done.returncode == 0


def main():
    check = Check(__doc__)
    spec = importlib.util.spec_from_file_location("header_file", TOP / "check/library/header_file.py")
    header_file = importlib.util.module_from_spec(spec)
    spec.loader.exec_module(header_file)
    for holds, what, seen in header_file.cases(TOP):
        check.expect(holds, what, seen)
    library = pathlib.Path(os.environ.get("ZFPI_LIBRARY", BUILT))
    if not library.exists():
        check.skip("all calls of the library: it is not built")
        check.end()
    c_calls(check, library)
    c_others(check, library)
    in_python(check, library, "arrays.py", "numpy")
    if plugin(check, library):
        in_python(check, library, "hdf5.py", "numpy", "h5py")
    in_python(check, library, "chunks.py", "numpy", "zarr", "numcodecs")
    check.end()


if __name__ == "__main__":
    main()
