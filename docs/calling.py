#!/usr/bin/env python3
"""Prints the contracts of the library's calls, as docs/CALLING.md quotes them; docs/check.py compares them.

    python3 docs/calling.py [--write]

With `--write` the quoted part of docs/CALLING.md is written anew. What is quoted stands in crates/NAME/src; a
clause is put in one line, its spaces made one. What a loan leaves (`ensures*`) is left out.
"""

import pathlib
import re
import sys

TOP = pathlib.Path(__file__).resolve().parent.parent
PAGE = TOP / "docs/CALLING.md"
MARK = "<!-- contracts -->\n"

CALLS = [
    ("Shapes and positions", "zf_base", "Pos::new Pos::of_sizes Shape::new place"),
    ("Headers", "zf_header", "read"),
    ("Streams", "zf_stream", "compress restore most_bytes"),
    ("In lent memory", "zf_lent", "compress_into"),
    ("Parts of a stream", "zf_part", "read_window write_block"),
    (
        "From C",
        "zfpi_c",
        "zfpi_most zfpi_compress zfpi_header zfpi_read",
    ),
    ("Arrays", "zf_array", "open get set flush save_bytes"),
    ("Read-only arrays", "zf_const", "open"),
    ("Windows", "zf_window", "Window::new"),
    ("Views", "zf_view", "View::bind View::set"),
]


def functions(text):
    """The public functions of a file: the type that each is a call of, its name, its head and its clauses."""
    owner = ""
    lines = text.splitlines()
    for number, line in enumerate(lines):
        found = re.match(r"impl(?:<.*?>)? (?:.* for )?([A-Z]\w*)", line)
        if found:
            owner = found.group(1)
        elif line and not line[0].isspace() and not line.startswith(("}", "//", "#", ")")):
            owner = ""
        found = re.match(r'\s*pub (?:extern "C" )?fn (\w+)', line)
        if found:
            yield owner, found.group(1), *contract(lines[number:])


def contract(lines):
    """The head of a function and its clauses, each in one line."""
    head, clauses = [], []
    for line in lines:
        text = line.strip()
        if text == "{" or text.endswith(" {}") or text == "{}":
            break
        if text.startswith("//"):
            continue
        if text.startswith("ensures*"):
            clauses.append("")
        elif re.match(r"(requires|ensures|decreases)\b", text):
            clauses.append(text)
        elif clauses:
            clauses[-1] += " " + text
        else:
            head.append(text)
        if text.endswith("{") and not clauses and "fn" in " ".join(head):
            head[-1] = text[:-1].strip()
            break
    joined = re.sub(r"\(\s+", "(", re.sub(r",\s*\)", ")", " ".join(head)))
    said = [re.sub(r"\s+", " ", clause) for clause in clauses if clause.startswith(("requires", "ensures", "decreases"))]
    return joined.removeprefix("pub ").removeprefix('extern "C" '), said


def modules():
    """The words of the quoted clauses that crates here define, by the module that their file imports them from."""
    found = {}
    for _, crate, calls in CALLS:
        for source, clauses in quoted_of(crate, calls.split()):
            words = set(re.findall(r"\b[A-Za-z_]\w*", " ".join(clauses)))
            for module, names in re.findall(r"^ghost use Rattle\.(zf\w*\.specs\.[\w.]+)\.\{([^}]*)\};", source, re.M | re.S):
                for name in re.findall(r"[\w]+(?= as |,|$| *\n)|\w+$", names.strip()):
                    if name in words:
                        found.setdefault(module, set()).add(name)
    return found


def quoted_of(crate, names):
    """The text of each file of a crate, and the clauses of those of its calls that are quoted."""
    for source in sorted((TOP / "crates" / crate / "src").glob("*.rt")):
        text = source.read_text()
        yield text, [
            clause
            for owner, name, _, clauses in functions(text)
            if name in names or f"{owner}::{name}" in names
            for clause in clauses
        ]


def index():
    """The table of modules: which words of the clauses come from each."""
    yield "### Where the words stand\n\n| Module, behind `Rattle.` | Words of the clauses above |\n|---|---|"
    for module, words in sorted(modules().items()):
        yield f"| {module} | {' '.join(sorted(words))} |"


def quoted():
    yield from contracts()
    yield "\n".join(index())
    yield ""


def contracts():
    for title, crate, calls in CALLS:
        names = calls.split()
        sources = sorted((TOP / "crates" / crate / "src").glob("*.rt"))
        if not sources:
            continue
        yield f"### {title}: `{crate}`\n\n```text"
        for source in sources:
            if source.stem.startswith("tests"):
                continue
            for owner, name, head, clauses in functions(source.read_text()):
                if name in names or f"{owner}::{name}" in names:
                    yield head.replace("fn ", f"fn {owner}::", 1) if owner else head
                    yield from (f"  {clause}" for clause in clauses)
        yield "```\n"


def main():
    text = "\n".join(quoted())
    if "--write" in sys.argv:
        page = PAGE.read_text()
        PAGE.write_text(page[: page.index(MARK)] + MARK + "\n" + text)
    else:
        print(text, end="")


if __name__ == "__main__":
    main()
