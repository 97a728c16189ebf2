#!/usr/bin/env python3
"""Makes the completions of the words of zfpi for bash, zsh and fish, all from one list.

    python3 docs/completions.py [--write]

Without `--write` it says which of docs/zfpi.bash, docs/_zfpi and docs/zfpi.fish are others than the list
makes, and ends with 1 then. docs/complete.py tries what they offer.
"""

import pathlib
import sys

HERE = pathlib.Path(__file__).resolve().parent
COMMANDS = {
    "compress": "raw values into a stream",
    "restore": "a stream into raw values",
    "info": "the header of a stream",
    "new": "a cached array of zeros, as a file",
    "run": "a script on a cached array",
    "look": "a script on an array that is only read",
    "bound": "how far values may be off",
    "sample": "an array from a number, there and back",
}
TYPES = ["int32", "int64"]
NARROW = ["int8", "uint8", "int16", "uint16"]
MODES = ["reversible", "rate", "precision"]
# Of commands and the number of a word: the words that may stand there. The others are shapes, names, numbers.
PLACES = (
    (["compress"], 2, TYPES + NARROW),
    (["restore"], 2, NARROW),
    (["new"], 3, TYPES),
    (["sample"], 2, TYPES),
    (["compress"], 4, MODES),
    (["sample"], 5, MODES),
    (["run"], 3, ["lines", "twoway"]),
    (["look"], 3, ["lines"]),
)
# Of commands that take an array: the number of the word that is the name of a file of the current folder.
NAMED, NAME_AT = ["run", "look", "bound"], 2
NAMED_TEXT = "run, look and bound"

BASH = """\
# Completion of the words of zfpi for bash: source this file, or put it into a folder of bash-completion.
# Made by docs/completions.py.

# Files of the current folder that are names as {named} take them.
_zfpi_names() {{
    local file
    for file in "$1"*; do
        [[ -f $file && ${{#file}} -le 64 && $file =~ ^[A-Za-z0-9][A-Za-z0-9_.-]*$ ]] && COMPREPLY+=("$file")
    done
}}

# Where nothing is offered, as behind `<`, bash completes files by itself (bashdefault, default).
_zfpi() {{
    local word=$2 words=() LC_ALL=C
    COMPREPLY=()
    [[ $3 == [\\<\\>]* ]] && return
    case "${{COMP_WORDS[1]}}/$COMP_CWORD" in
        */1) words=({commands}) ;;
{places}
        {names}) _zfpi_names "$word"; return ;;
    esac
    [[ ${{#words[@]}} -gt 0 ]] && mapfile -t COMPREPLY < <(compgen -W "${{words[*]}}" -- "$word")
}}

complete -o bashdefault -o default -F _zfpi zfpi
"""

ZSH = """\
#compdef zfpi
# Completion of the words of zfpi for zsh: put this file into a folder of fpath, before compinit.
# Made by docs/completions.py.

# Files of the current folder that are names as {named} take them.
_zfpi_names() {{
    setopt localoptions extendedglob
    local -a found=(*(N-.))
    found=(${{(M)found:#[A-Za-z0-9][A-Za-z0-9_.-]#}})
    compadd -- ${{(M)found:#?(#c1,64)}}
}}

# Behind `<` and `>` zsh completes files by itself.
_zfpi() {{
    local -a commands=(
{commands}
    )
    case "$words[2]/$((CURRENT - 1))" in
        */1) _describe command commands ;;
{places}
        {names}) _zfpi_names ;;
    esac
}}

_zfpi "$@"
"""

FISH = """\
# Completion of the words of zfpi for fish: put this file into ~/.config/fish/completions.
# Made by docs/completions.py.

# Whether the word at the cursor has this number, of one of these commands.
function __zfpi_is --argument-names number
    set -l words (commandline -opc)
    test (count $words) -eq $number; or return
    test $number -eq 1; or contains -- $words[2] $argv[2..]
end

# Files of the current folder that are names as {named} take them.
function __zfpi_names
    for file in *
        test -f $file; and string match -rq '^[A-Za-z0-9][A-Za-z0-9_.-]{{0,63}}$' -- $file; and echo $file
    end
end

# Behind `<` and `>` fish completes files by itself.
complete -c zfpi -f
{commands}
{places}
complete -c zfpi -n '__zfpi_is {name_at} {names}' -a '(__zfpi_names)'
"""


def lines(line):
    """A line for each place, of its commands, the number of the word and the words."""
    return "\n".join(line(commands, number, " ".join(words)) for commands, number, words in PLACES)


def cases(commands, number):
    return " | ".join(f"{command}/{number}" for command in commands)


def bash():
    return BASH.format(
        named=NAMED_TEXT,
        commands=" ".join(COMMANDS),
        places=lines(lambda its, number, words: f"        {cases(its, number)}) words=({words}) ;;"),
        names=cases(NAMED, NAME_AT),
    )


def zsh():
    return ZSH.format(
        named=NAMED_TEXT,
        commands="\n".join(f"        '{command}:{about}'" for command, about in COMMANDS.items()),
        places=lines(lambda its, number, words: f"        {cases(its, number)}) compadd -- {words} ;;"),
        names=cases(NAMED, NAME_AT),
    )


def fish_place(commands, number, words):
    return f"complete -c zfpi -n '__zfpi_is {number} {' '.join(commands)}' -a '{words}'"


def fish():
    return FISH.format(
        named=NAMED_TEXT,
        commands="\n".join(
            f"complete -c zfpi -n '__zfpi_is 1' -a {command} -d '{about}'"
            for command, about in COMMANDS.items()
        ),
        places=lines(fish_place),
        names=" ".join(NAMED),
        name_at=NAME_AT,
    )


MADE = {"zfpi.bash": bash, "_zfpi": zsh, "zfpi.fish": fish}


def others():
    """The files that are others than the list makes."""
    return [
        name
        for name, made in MADE.items()
        if not (HERE / name).exists() or (HERE / name).read_text() != made()
    ]


def main():
    if sys.argv[1:] == ["--write"]:
        for name, made in MADE.items():
            (HERE / name).write_text(made())
    for name in others():
        print(f"docs/{name} is another one than the list makes: python3 docs/completions.py --write")
    sys.exit(1 if others() else 0)


if __name__ == "__main__":
    main()
