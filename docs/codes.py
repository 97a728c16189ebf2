#!/usr/bin/env python3
"""Makes the exit codes and error lines of the manual page from the table of docs/GUIDE.md.

    python3 docs/codes.py [--write]

Without a word it says whether docs/zfpi.1 has others, and ends with 1 then; docs/check.py runs it. The table has a code,
a line or several, what they mean and what to do about it in each row. The parts of the manual page stand between lines
that say so.
"""

import pathlib
import re
import sys
import textwrap

HERE = pathlib.Path(__file__).resolve().parent
GUIDE, PAGE = HERE / "GUIDE.md", HERE / "zfpi.1"


def rows():
    """The rows of the table: code, lines, meaning, what to do."""
    text = GUIDE.read_text()
    table = re.search(r"^\| Code \| Line \|.*\n\|[-|]+\n((?:\|.*\n)+)", text, re.M).group(1)
    for row in table.splitlines():
        code, lines, means, todo = [cell.strip() for cell in row.split("|")[1:-1]]
        yield int(code), re.findall(r"`([^`]+)`", lines), means, todo


def sentence(text):
    return text[:1].upper() + text[1:] + "." if text else ""


def roff(text):
    """A sentence as lines of the page: what is quoted is a macro of its own, with the marks behind it."""
    made = []
    for part in re.findall(r"`[^`]+`[.,:;]*|[^`]+", text):
        quoted = re.match(r"`([^`]+)`([.,:;]*)", part)
        if quoted:
            word = quoted.group(1).replace("!", r"\&!")
            made.append(f".Ql {word} {' '.join(quoted.group(2))}".rstrip())
        else:
            for line in re.sub(r"(?<=[.;]) ", "\n", part.strip()).splitlines():
                made += textwrap.wrap(line, 79)
    return made


def statuses():
    """The list of codes: what each means, once for all rows that have it."""
    found = {}
    for code, _, means, _ in rows():
        found.setdefault(code, []).append(means)
    for code, meanings in found.items():
        yield f".It {code}"
        yield from roff(sentence("; ".join(meanings)))


def lines():
    """The list of error lines."""
    for _, texts, means, todo in rows():
        for text in texts:
            yield f".It Qq {text}"
        if texts:
            yield from roff(" ".join(filter(None, [sentence(means), sentence(todo)])))


def made(page):
    for name, part in ("codes", statuses()), ("lines", lines()):
        begin, end = f'.\\" {name}: made by docs/codes.py\n', f'.\\" end of {name}\n'
        before, _, rest = page.partition(begin)
        _, _, after = rest.partition(end)
        page = before + begin + "".join(f"{line}\n" for line in part) + end + after
    return page


def main():
    page = PAGE.read_text()
    if "--write" in sys.argv:
        PAGE.write_text(made(page))
    elif made(page) != page:
        print("docs/zfpi.1: the codes or lines are others than those of GUIDE; python3 docs/codes.py --write")
        sys.exit(1)


if __name__ == "__main__":
    main()
