#!/usr/bin/env python3
"""Runs every session that README, docs and examples show, and compares what comes with what stands there.

    python3 docs/check.py [PROGRAM]

PROGRAM is the built program, by default crates/zfpi/out/zfpi. Outside the gate; needs no network. It looks at

- sessions: blocks that begin with `$ `. Each such line is a command, and the lines up to the next one are
  what it writes. The commands of a page run one after the other in one folder, which holds data, examples and
  README;
- blocks of `python` and of `sh`, which have to end well, in the same folder;
- tables behind a line `<!-- table: COMMAND -->`, which the command has to print, or a part of what it prints;
- what CALLING quotes of contracts (docs/calling.py), what the manual page has of GUIDE (docs/codes.py), what
  PROVED has of the planted bugs (docs/edits.py), and whether what the pages name is in the tree
  (docs/claims.py);
- the manual page, by mandoc, where there is one, and the completion for bash (docs/complete.py);
- whether a lent slice that is kept across a call is refused (docs/lent.py), where there is `rt`.

A block, or a page, behind a line `<!-- needs: WORD.. -->` is left out where a program or a module of Python
of such a name is lacking, or the library (`libzfpi`), or the fields of Debian's
python-matplotlib-data (`mpl-data`); the last line says how many commands that were. A block behind
`<!-- not run: WHY -->` is not run.
"""

import functools
import os
import pathlib
import re
import shutil
import subprocess
import sys
import tempfile
from typing import NamedTuple, Optional

import claims

TOP = pathlib.Path(__file__).resolve().parent.parent
# the Python of the system, for which Debian's packages are
PYTHON = "/usr/bin/python3"
# the library, where capi/build.sh or install.sh has built it
LIBRARY = pathlib.Path(os.environ.get("ZFPI_LIBRARY", TOP / "crates/zfpi_c/out/libzfpi.so.1"))
FILES = {"libzfpi": LIBRARY, "mpl-data": pathlib.Path("/usr/share/matplotlib/mpl-data/sample_data")}
BLOCK = re.compile(r"((?:^<!-- [^\n]* -->\n\n?)*)^```([a-z]*)\n(.*?)^```$", re.M | re.S)


class Command(NamedTuple):
    """A command, the lines that it has to write, or None where it has to end well, and what it needs."""

    text: str
    wanted: Optional[list]
    needs: tuple


class Count(NamedTuple):
    run: int = 0
    wrong: int = 0
    left_out: int = 0

    def plus(self, other):
        return Count(*(mine + its for mine, its in zip(self, other)))


def needed(marks):
    return tuple(word for words in re.findall(r"<!-- needs: (.*?) -->", marks) for word in words.split())


def shown(text):
    """The commands of a page in their order."""
    for marks, language, block in BLOCK.findall(text):
        if "<!-- not run" in marks:
            continue
        if language == "python":
            yield Command(f"python3 - <<'END'\n{block}END", None, needed(marks))
        elif language == "sh":
            yield Command("set -e\n" + block, None, needed(marks))
        elif block.startswith("$ "):
            yield from commands(block.splitlines(), needed(marks))


def commands(lines, needs):
    """The commands of a session."""
    found = []
    for line in lines:
        if line.startswith("$ "):
            found.append(Command(line[2:], [], needs))
        elif line.startswith("> ") and not found[-1].wanted:
            found[-1] = found[-1]._replace(text=found[-1].text + "\n" + line[2:])
        else:
            found[-1].wanted.append(line)
    return found


def tables(text):
    """The tables of a page that a command prints."""
    for command, table in re.findall(r"<!-- table: (.*?) -->\n(?:<!-- .* -->\n)*\n?((?:\|.*\n)+)", text):
        marks = re.search(rf"<!-- table: {re.escape(command)} -->\n((?:<!-- .* -->\n)*)", text).group(1)
        yield command, table, needed(marks)


def has(word, known):
    """Whether there is a program or a module of Python of this name; two words stand for files."""
    if word in FILES:
        return FILES[word].exists()
    if shutil.which(word, path=known["PATH"]):
        return True
    return subprocess.run([PYTHON, "-c", f"import {word}"], capture_output=True, check=False).returncode == 0


def run(command, folder, known):
    return subprocess.run(
        ["bash", "-c", command],
        cwd=folder,
        env=known,
        stdin=subprocess.DEVNULL,
        stdout=subprocess.PIPE,
        stderr=subprocess.STDOUT,
        text=True,
        check=False,
    )


def try_command(page, command, folder, known):
    if not all(has(word, known) for word in command.needs):
        return Count(left_out=1)
    done = run(command.text, folder, known)
    wrote = done.stdout.rstrip("\n").split("\n")
    if done.returncode == 0 if command.wanted is None else wrote == (command.wanted or [""]):
        return Count(run=1)
    print(f"{page.name}: {command.text}\n  stands there: {command.wanted}\n  comes:        {wrote}")
    return Count(run=1, wrong=1)


def try_table(page, command, wanted, needs, known, printed):
    """`printed` is what a command prints: several tables may be of one command, which is run once."""
    if not all(has(word, known) for word in needs):
        return Count(left_out=1)
    if wanted in printed(command):
        return Count(run=1)
    print(f"{page.name}: the table of `{command}` is another one")
    return Count(run=1, wrong=1)


def try_page(page, known):
    """Runs the commands and the tables of a page."""
    text, count = page.read_text(), Count()
    with tempfile.TemporaryDirectory() as name:
        folder = pathlib.Path(name)
        for part in ("data", "examples"):
            shutil.copytree(TOP / part, folder / part, ignore=shutil.ignore_patterns("__pycache__"))
        shutil.copy(TOP / "README.md", folder)
        for command in shown(text):
            count = count.plus(try_command(page, command, folder, known))
    printed = functools.lru_cache(None)(lambda command: run(command, TOP, known).stdout)
    for command, wanted, needs in tables(text):
        count = count.plus(try_table(page, command, wanted, needs, known, printed))
    return count


def contracts():
    """Whether the contracts that CALLING quotes are others than those of the code."""
    quoted = run("python3 docs/calling.py", TOP, os.environ).stdout
    if (TOP / "docs/CALLING.md").read_text().endswith(quoted):
        return Count(run=1)
    print("CALLING.md: the contracts are others; python3 docs/calling.py --write")
    return Count(run=1, wrong=1)


def codes():
    """Whether the manual page has other codes and lines than GUIDE."""
    done = run("python3 docs/codes.py", TOP, os.environ)
    print(done.stdout if done.returncode else "", end="")
    return Count(run=1, wrong=min(done.returncode, 1))


def edits():
    """Whether PROVED has another table of planted bugs than docs/edits.py makes."""
    if not (TOP / "docs/edits.py").exists():
        return Count(left_out=1)
    done = run("python3 docs/edits.py --check", TOP, os.environ)
    print(done.stdout if done.returncode else "", end="")
    return Count(run=1, wrong=min(done.returncode, 1))


def names():
    """What the documents name and the tree lacks."""
    wrong = claims.all_wrong()
    print("\n".join(wrong) + "\n" * bool(wrong), end="")
    return Count(run=1, wrong=len(wrong))


def manual():
    """What mandoc finds in the manual page, other than the order of its sections."""
    if shutil.which("mandoc") is None:
        return Count(left_out=1)
    found = run("mandoc -T lint docs/zfpi.1 2>/dev/null", TOP, os.environ).stdout
    print(found, end="")
    return Count(run=1, wrong=len(found.splitlines()))


def completion(known):
    """What the completion offers, by its own script."""
    done = run("python3 docs/complete.py", TOP, known)
    print(done.stdout if done.returncode else "", end="")
    return Count(run=1, wrong=min(done.returncode, 1))


def loans():
    """Whether a lent slice that is kept across a call compiles."""
    if shutil.which("rt") is None:
        return Count(left_out=1)
    done = run("python3 docs/lent.py", TOP, os.environ)
    print(done.stdout if done.returncode else "", end="")
    return Count(run=1, wrong=min(done.returncode, 1))


def surroundings(folder, program):
    """The environment of the commands: the program as `zfpi`, and the system's Python."""
    shutil.copy(program, folder / "zfpi")
    if pathlib.Path(PYTHON).exists():
        (folder / "python3").symlink_to(PYTHON)
    return {
        **os.environ,
        "PATH": f"{folder}:{os.environ['PATH']}",
        "ZFPI": str(program),
        "ZFPI_LIBRARY": str(LIBRARY),
        "PYTHONPATH": str(TOP / "python"),
        "LC_ALL": "C",
        "PYTHONDONTWRITEBYTECODE": "1",
    }


def main():
    program = pathlib.Path(sys.argv[1] if len(sys.argv) > 1 else TOP / "crates/zfpi/out/zfpi").resolve()
    pages = [TOP / "README.md", *sorted((TOP / "docs").glob("*.md"))]
    pages += [TOP / "examples/README.md", TOP / "data/README.md"]
    with tempfile.TemporaryDirectory() as name:
        known = surroundings(pathlib.Path(name), program)
        total = Count()
        for count in [
            *(try_page(page, known) for page in pages),
            contracts(),
            codes(),
            edits(),
            names(),
            manual(),
            completion(known),
            loans(),
        ]:
            total = total.plus(count)
    print(f"{total.run} commands, tables and looks, {total.wrong} wrong, {total.left_out} left out")
    sys.exit(1 if total.wrong else 0)


if __name__ == "__main__":
    main()
