#!/usr/bin/env python3
"""Runs each command with reads and writes that move little and are interrupted.

    python3 check/pieces.py [PROGRAM] [--seed N] [--quick]

All has to be as without. Needs Linux and a C compiler.
"""

from cases import COMMANDS
from preload import Preload
from shared import Check, files_of, put_files

MOST = (1, 2, 7, 100, 4095)
INTERRUPTED = (2, 3, 10)
QUICK_MOST, QUICK_INTERRUPTED = (1, 100), (2,)


def run(check, preload, case, **settings):
    """How a case ends, and the files behind it."""
    folder = check.folder()
    put_files(folder, case.files)
    ended, _ = preload.run(case.words, case.data, folder, **settings)
    return ended, files_of(folder)


def tries(check, preload, case):
    """Runs a case with pieces of each size, and with interrupts as often."""
    whole = run(check, preload, case)
    check.expect(whole[0].code == case.code, f"{case.name}: ends with {case.code}", whole[0])
    for most in QUICK_MOST if check.quick else MOST:
        for every in QUICK_INTERRUPTED if check.quick else INTERRUPTED:
            ended = run(check, preload, case, MOST=most, INTERRUPTED=every)
            what = f"{case.name}: {most} bytes a call, 1 of {every} interrupted"
            check.expect(ended == whole, what, *ended)


def main():
    check = Check(__doc__)
    preload = Preload(check)
    if preload.is_built():
        for case in COMMANDS:
            tries(check, preload, case)
    check.end()


if __name__ == "__main__":
    main()
