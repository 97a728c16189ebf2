#!/usr/bin/env python3
"""Tries the completions for bash, zsh and fish in their shells, where these are there.

    python3 docs/complete.py

Each line is typed into bash and zsh on a terminal, and the key that inserts all completions is pressed. Then
the line is put between quotes and printed. fish is asked for what it offers. It says which line becomes
another one than it should, and which file is another one than docs/completions.py makes. Then it ends with 1.
"""

import os
import pathlib
import pty
import re
import select
import shutil
import subprocess
import sys
import tempfile
import time

import completions

HERE = pathlib.Path(__file__).resolve().parent
SECONDS = 10
FILES = ["plate.zfpi", "plate.i32", ".plate.new", "no name"]

LINES = [
    ("zfpi ", "zfpi bound compress info look new restore run sample "),
    ("zfpi re", "zfpi restore "),
    ("zfpi compress ", "zfpi compress int16 int32 int64 int8 uint16 uint8 "),
    ("zfpi compress int32 48x32 r", "zfpi compress int32 48x32 rate reversible "),
    ("zfpi restore u", "zfpi restore uint16 uint8 "),
    ("zfpi restore < pl", "zfpi restore < plate.i32 plate.zfpi plates "),
    ("zfpi info <pl", "zfpi info <plate.i32 plate.zfpi plates "),
    ("zfpi compress int32 48x32 reversible < plate.i", "zfpi compress int32 48x32 reversible < plate.i32 "),
    ("zfpi look ", "zfpi look plate.i32 plate.zfpi "),
    ("zfpi run plate.z", "zfpi run plate.zfpi "),
    ("zfpi run plate.zfpi ", "zfpi run plate.zfpi lines twoway "),
    ("zfpi look plate.zfpi ", "zfpi look plate.zfpi lines "),
    ("zfpi bound pl", "zfpi bound plate.i32 plate.zfpi "),
    ("zfpi sample int32 8 1 p", "zfpi sample int32 8 1 precision "),
]


def read_until(terminal, mark):
    """What the terminal shows up to a mark."""
    shown, end = b"", time.monotonic() + SECONDS
    while mark not in shown and time.monotonic() < end:
        if select.select([terminal], [], [], 0.1)[0]:
            shown += os.read(terminal, 65536)
    return shown


BASH_OPTIONS = (
    "bell-style none",
    "mark-directories off",
    "enable-bracketed-paste off",
    "horizontal-scroll-mode on",
)
BIND = "bind " + " ".join(f"'set {option}'" for option in BASH_OPTIONS)
ZSH_SETTINGS = (
    "stty -echo cols 1000",
    "PS1= PS2= RPS1=",
    "unset zle_bracketed_paste",
    "unsetopt beep prompt_sp",
    f"fpath=({HERE} $fpath)",
    "autoload -Uz compinit",
    "compinit -u -D",
    "bindkey -e",
    "zle -C every complete-word _generic",
    "bindkey '^Xa' every",
    "zstyle ':completion:every:*' insert true",
    "zstyle ':completion:every:*' completer _all_matches _complete",
)
# Of a shell: how it is called, what it is told first, and the key that inserts all completions.
SHELLS = {
    "bash": (
        ["bash", "--norc", "--noprofile", "-i"],
        f"stty -echo cols 1000; {BIND}; source {HERE}/zfpi.bash",
        "\x1b*",
    ),
    "zsh": (["zsh", "-f", "-i"], "; ".join(ZSH_SETTINGS), "\x18a"),
}


def begun(shell, folder):
    """The terminal of a shell in this folder that has the completion."""
    words, settings, _ = SHELLS[shell]
    child, terminal = pty.fork()
    if child == 0:
        os.chdir(folder)
        os.environ.update({"TERM": "dumb", "LC_ALL": "C", "PS1": "", "COLUMNS": "1000", "HOME": folder})
        os.execvp(words[0], words)
    os.write(terminal, f"{settings}; echo rea''dy\n".encode())
    read_until(terminal, b"ready\r\n")
    return terminal


def completed(terminal, key, number, line):
    """What a shell makes of a line with all its completions."""
    os.write(terminal, f"{line}{key}\x01echo 'be''gin {number}:\x05:end'\n".encode())
    shown = read_until(terminal, b":end\r\n")
    found = re.findall(rf"begin {number}:(.*?):end\r\n", shown.decode(errors="replace"), re.S)
    return found[-1] if found else None


def by_terminal(shell, folder):
    """What a shell makes of each line."""
    terminal = begun(shell, folder)
    found = [completed(terminal, SHELLS[shell][2], number, line) for number, (line, _) in enumerate(LINES)]
    os.write(terminal, b"exit\n")
    os.close(terminal)
    return found


def by_fish(folder):
    """What fish would make of each line: it says what may stand for its last word."""
    found = []
    for line, _ in LINES:
        asked = f"source {HERE}/zfpi.fish; complete -C '{line}'"
        words = ["fish", "--no-config", "-c", asked]
        said = subprocess.run(
            words, cwd=folder, capture_output=True, text=True, check=False
        ).stdout.splitlines()
        begun_word = re.search(r"[^ <]*$", line)
        offered = [answer.split("\t")[0] for answer in said]
        found.append(" ".join([line[: begun_word.start()] + offered[0], *offered[1:]]) if offered else line)
    return found


def wrong_lines(shell, folder):
    """How many lines become others than they should, which it says."""
    found = by_fish(folder) if shell == "fish" else by_terminal(shell, folder)
    wrong = 0
    for (line, wanted), its in zip(LINES, found):
        if its is None or sorted(its.replace("/", "").split()) != sorted(wanted.split()):
            wrong += 1
            print(f"{shell}: `{line}` becomes `{its}`, not `{wanted}`")
    return wrong


def main():
    shells = [shell for shell in ("bash", "zsh", "fish") if shutil.which(shell)]
    wrong = len(completions.others())
    for name in completions.others():
        print(f"docs/{name} is another one than docs/completions.py makes")
    with tempfile.TemporaryDirectory() as folder:
        for file in FILES:
            pathlib.Path(folder, file).touch()
        pathlib.Path(folder, "plates").mkdir()
        wrong += sum(wrong_lines(shell, folder) for shell in shells)
    print(f"{len(LINES)} completions in {', '.join(shells)}, {wrong} wrong")
    sys.exit(1 if wrong else 0)


if __name__ == "__main__":
    main()
