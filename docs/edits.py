#!/usr/bin/env python3
"""Makes the table of planted bugs in docs/PROVED.md, and compares it with what the prover said of them.

    python3 docs/edits.py [--check] [--log FILE [--write]]

Each edit of crates/*/must-fail has a line `clause: NAME`, which the gate doesn't read: the clause that
refuses it. It is one of the function that the edit changes, or `FUNCTION: NAME`; a clause with no name is
called `ensures` or `requires`. Without words the table is put between its two markers. With `--check`
nothing is written, and the exit code is 1 where the page is another one, or where a clause is none of its
function. With `--log`, the output of `rt must-fail` or `rt ci`, each line is compared with the function, and
with the clause where that is told, at which the prover stopped; `--write` sets the lines of the edits by it.
"""

import argparse
import pathlib
import re
import sys
from typing import NamedTuple

TOP = pathlib.Path(__file__).resolve().parent.parent
PAGE = TOP / "docs/PROVED.md"
BEGIN, END = "<!-- edits: made by docs/edits.py -->", "<!-- end of edits -->"
FUNCTION = re.compile(r"^ *(?:pub(?:\([a-z]+\))? )?(?:const )?fn (\w+)", re.M)
CLAUSE = re.compile(r"^ *(requires|ensures)(?: (\w+))? \{", re.M)
# A function with one clause mostly gives it no name.
NAMELESS = {"ensures": "what it ensures", "requires": "what it requires"}
SAID = re.compile(r"must-fail (\w+)/([\w.-]+)\.edit: (.*)")
# A call whose condition is not met is refused by that, and not by a clause of the caller.
CALLED = re.compile(r"`([\w:<>]+)` requires holds at this call")
PLACE = re.compile(r"(?:note: )?(?:\./)?((?:src|proofs|specs)/\S+?):(\d+):\d+: (.*)")


class Edit(NamedTuple):
    """A planted bug: the function that it changes, and the function and the clause that refuse it."""

    crate: str
    name: str
    changed: str
    refusing: str
    clause: str

    def label(self):
        return f"{self.crate}/{self.name}"


class Said(NamedTuple):
    """What the prover said of an edit: the function at which it stopped, and its words."""

    function: str
    words: str


def lines_of(file):
    """The lines of an edit, by the word before the colon."""
    told = {}
    for line in file.read_text().splitlines():
        word, found, rest = line.partition(": ")
        if found:
            told.setdefault(word, rest)
    return told


def function_before(text, at):
    """The function in which a place of a source lies."""
    found = [it for it in FUNCTION.finditer(text) if it.start() <= at]
    return found[-1][1] if found else ""


def read_edit(file):
    crate, told = file.parent.parent.name, lines_of(file)
    text = (TOP / "crates" / crate / told["file"].strip()).read_text()
    changed = function_before(text, text.find(told["old"]))
    refusing, _, clause = told.get("clause", "").rpartition(": ")
    return Edit(crate, file.stem, changed, refusing or changed, clause)


def edits():
    return [read_edit(file) for file in sorted((TOP / "crates").glob("*/must-fail/*.edit"))]


def clauses_of(crate, function):
    """The clauses of all functions of a crate, and of the traits below it, that have this name."""
    names = set()
    for file in (TOP / "crates").glob("*/src/**/*.rt"):
        text = file.read_text()
        if crate != file.relative_to(TOP / "crates").parts[0] and not re.search(r"^pub trait ", text, re.M):
            continue
        starts = [*FUNCTION.finditer(text)]
        for begin, end in zip(starts, [*(it.start() for it in starts[1:]), len(text)]):
            if begin[1] == function:
                names |= {name or kind for kind, name in CLAUSE.findall(text[begin.start() : end])}
    return names


def untrue(edit):
    """What is wrong with the line of an edit by the sources alone; none where nothing is."""
    if not edit.clause:
        return "it has no line `clause:`"
    known = clauses_of(edit.crate, edit.refusing)
    return None if edit.clause in known else f"`{edit.clause}` is no clause of `{edit.refusing}`"


def said_in(log):
    """What a log says of each edit, the last of it."""
    told = {}
    for crate, name, words in SAID.findall(log.read_text(errors="replace")):
        place, called = PLACE.search(words), CALLED.search(words)
        function = called[1].split("::")[-1] if called else stopped_at(crate, place) if place else ""
        told[f"{crate}/{name}"] = Said(function, words)
    return told


def stopped_at(crate, place):
    """The function of a place that the prover named, or nothing where that is no function's."""
    file, line = place[1], int(place[2])
    if file.startswith("proofs/"):
        return file.split("/")[-2] if file.endswith(("Answers.antt", "Goals.antt", "Invariants.antt")) else ""
    if not file.startswith("src/"):
        return ""
    text = (TOP / "crates" / crate / file).read_text()
    at = sum(map(len, text.splitlines(keepends=True)[: line - 1]))
    # A function is named by its first line, which may be an attribute.
    begun = re.compile(r"(?: *(?:#\[|//).*\n)*").match(text, at).end()
    return function_before(text, begun if FUNCTION.match(text, begun) else at)


def told_clause(edit, said):
    """The clause that the prover's words name, if they name one of the function at which it stopped."""
    known = clauses_of(edit.crate, said.function)
    named = [name for name in re.findall(r"-clause-(\w+)`", said.words) if name in known]
    if named:
        return named[0]
    if CALLED.search(said.words):
        return "requires" if "requires" in known else ""
    return "ensures" if "(`returns`)" in said.words and "ensures" in known else ""


def differs(edit, said):
    """Where the line of an edit is another than what was said; none where it is that."""
    if said is None:
        return "the log does not name it"
    if "refused, as it must be" not in said.words:
        return f"it was not refused: {said.words[:90]}"
    if not said.function:
        return f"the prover named no function: {said.words[:90]}"
    if said.function != edit.refusing:
        return f"`{said.function}` refuses it, and not `{edit.refusing}`"
    clause = told_clause(edit, said)
    return None if clause in ("", edit.clause) else f"`{clause}` refuses it, and not `{edit.clause}`"


def set_line(edit, said):
    """Writes the line of an edit by what was said of it, as far as that tells."""
    if said is None or not said.function:
        return
    known = clauses_of(edit.crate, said.function)
    stays = edit.clause if said.function == edit.refusing and edit.clause in known else ""
    clause = told_clause(edit, said) or stays or "ensures"
    own = clause if said.function == edit.changed else f"{said.function}: {clause}"
    write_line(TOP / "crates" / edit.crate / "must-fail" / f"{edit.name}.edit", own)


def write_line(file, clause):
    """Puts the line first, where none of the others is touched."""
    rest = [line for line in file.read_text().split("\n") if not line.startswith("clause: ")]
    file.write_text("\n".join([f"clause: {clause}", *rest]))


def refused_by(edit):
    """The clause in words for the table."""
    clause = NAMELESS.get(edit.clause, f"`{edit.clause}`")
    return clause if edit.refusing == edit.changed else f"`{edit.refusing}`: {clause}"


def table(all_edits):
    rows = ["| Bug | Crate | Function that is changed | Refused by |", "|---|---|---|---|"]
    for edit in all_edits:
        rows.append(f"| `{edit.name}` | `{edit.crate}` | `{edit.changed}` | {refused_by(edit)} |")
    return "\n".join(rows)


def page_with(text, made):
    before, begin, rest = text.partition(BEGIN)
    _, end, after = rest.partition(END)
    if not begin or not end:
        sys.exit(f"docs/edits.py: {PAGE.name} lacks one of the lines {BEGIN} and {END}")
    return f"{before}{BEGIN}\n{made}\n{END}{after}"


def main():
    parser = argparse.ArgumentParser(description=__doc__.splitlines()[0])
    parser.add_argument("--check", action="store_true", help="writes nothing, and says what differs")
    parser.add_argument("--log", type=pathlib.Path, help="what rt must-fail or rt ci printed")
    parser.add_argument("--write", action="store_true", help="sets the lines of the edits by the log")
    words = parser.parse_args()
    all_edits = edits()
    if words.log:
        sys.exit(compare(all_edits, said_in(words.log), words.write))
    wrong = [f"{edit.label()}: {why}" for edit in all_edits if (why := untrue(edit))]
    text = PAGE.read_text() if PAGE.exists() else f"{BEGIN}\n{END}\n"
    made = page_with(text, table(all_edits))
    if words.check:
        wrong += [f"docs/{PAGE.name}: its table of planted bugs is another one"] if made != text else []
    else:
        print(table(all_edits))
        if PAGE.exists():
            PAGE.write_text(made)
    print(*wrong, f"{len(all_edits)} planted bugs, {len(wrong)} wrong", sep="\n")
    sys.exit(1 if wrong else 0)


def compare(all_edits, said, is_written):
    if is_written:
        for edit in all_edits:
            set_line(edit, said.get(edit.label()))
        all_edits = edits()
    wrong = [f"{edit.label()}: {why}" for edit in all_edits if (why := differs(edit, said.get(edit.label())))]
    print(*wrong, f"{len(all_edits)} planted bugs compared, {len(wrong)} differ", sep="\n")
    return 1 if wrong else 0


if __name__ == "__main__":
    main()
