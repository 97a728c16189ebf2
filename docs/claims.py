#!/usr/bin/env python3
"""Looks whether what the documents name is in the tree: functions, clauses, laws, planted bugs, snippets,
error lines.

    python3 docs/claims.py

docs/check.py runs it too. It prints each name that is not there, and ends with 1 where there is one.

A name is a word in backquotes. It has to be declared in some crate: as a function, a type, a clause, a field,
a definition of `specs/`, a file or a word of the program. Where a table says which clauses a function has, as
`f`: `a`, `b`, the function itself has to have them. A block of code behind a line `<!-- from: FILE -->` has
to stand in that file. Under each section of FORMAT and SCRIPTS stands a line that names its definitions, clauses and
proofs, as `CRATE/FILE`: `name`, `CRATE::function`: `clause` and `CRATE/proof`; each is looked up. The pages have
to be the seven that there are, and no longer than they may be.
"""

import pathlib
import re
import sys

TOP = pathlib.Path(__file__).resolve().parent.parent
CRATES = TOP / "crates"
PAGES = "CALLING DECISIONS FORMAT GUIDE MAP PROVED SCRIPTS".split()
NAMING = ["README.md", "CHANGELOG.md", "bench/HISTORY.md", *(f"docs/{page}.md" for page in PAGES)]
README_BYTES, ALL_BYTES = 10240, 200000
CELL, WORDS = 460, 40
SUFFIXES = {".py", ".rt", ".antt", ".md", ".sh", ".h", ".c", ".1", ".bash"}
CODES = [0, 1, 2, 3, 4, 5, 6, 7, 8, 9, 10, 11, 12, 13, 20, 22]

# words that stand in backquotes and are of no crate: programs, libraries and words of other languages
OUTSIDE = set(
    "abs antt bin ensures requires arrayvec bool cat cc ceil floor getfacl noserverino objcopy SplitMix64 start_lib start_io none Threads Wait Net Processes circular_buffer cmp core dask distributed flock i32 i64 io itoa items lz4 memchr"
    " numpy od perf rand_core rand_xoshiro rt sha256sum std std_alloc thiserror u16 u32 u64 u8 xargs zfp zstd"
    " AllocError Copy Display Iterator Option Result Send Sync Vec match mod".split()
    # names of the library for C, of its outside, and one that DECISIONS sets aside
    + ["libzfpi", "malloc", "help", "HDF5_PLUGIN_PATH", "ZFPI_LIBRARY", "RunTwoWay"]
)
# capital words that stand for what a user writes, and letters for numbers
STANDS_FOR = re.compile(r"[A-Z]{1,10}$|[a-z]$|[0-9a-f]{8}$|[0-9a-f]{16}$")
IDENTIFIER = re.compile(r"[A-Za-z_]\w*$")


def sources(pattern):
    return sorted(CRATES.glob(pattern))


def clause_names(lines):
    """The names of the clauses of the function whose head begins these lines."""
    names = set()
    for line in lines:
        text = line.strip()
        if text in ("{", "{}") or text.endswith("{}"):
            break
        names.update(re.findall(r"(?:requires|ensures\*?) (\w+) \{", text))
        if re.match(r'(pub )?(extern "C" )?fn ', text) and line is not lines[0]:
            break
        if text.endswith(";") and not text.startswith("//"):
            break
    return names


def functions():
    """Of each function, by crate and name: the names of its clauses. Those of one name are taken together."""
    found = {}
    for source in sources("*/src/**/*.rt"):
        crate = source.relative_to(CRATES).parts[0]
        lines = source.read_text().splitlines()
        for number, line in enumerate(lines):
            head = re.match(r'\s*(?:pub(?:\(crate\))? )?(?:unsafe )?(?:extern "C" )?fn (\w+)', line)
            if head:
                found.setdefault((crate, head.group(1)), set()).update(clause_names(lines[number:]))
            member = re.match(r"\s*(?:pub )?ghost (\w+)", line)
            if member:
                found.setdefault((crate, member.group(1)), set())
    return found


def declared():
    """All names that the tree declares."""
    names = set(OUTSIDE)
    for crate in CRATES.iterdir():
        names.add(crate.name)
    for (_, name), clauses in functions().items():
        names |= {name} | clauses
    for source in sources("*/src/**/*.rt"):
        text = source.read_text()
        names.update(
            re.findall(r"\b(?:struct|enum|trait|type|const|static|mod|ghost|macro_rules!) (\w+)", text)
        )
        names.update(re.findall(r"^\s+(?:pub )?(\w+):", text, re.M))
        names.update(re.findall(r"^pub use [\w:]+ as (\w+);", text, re.M))
        names.update(re.findall(r"^\s+([A-Z]\w*)(?:\(|,| \{|$)", text, re.M))
        names.update(
            word for literal in re.findall(r'"([^"\n]*)"', text) for word in re.findall(r"\w+", literal)
        )
        names.add(source.stem)
    for source in [*sources("*/specs/**/*.antt"), *sources("*/proofs/**/*.antt")]:
        text = source.read_text()
        names.update(
            re.findall(
                r"^\s*(?:abbrev|unfoldable|pub|record|data|law|theorem)\b[ \w]*?(\w+) ?[:({]", text, re.M
            )
        )
        names.update(re.findall(r"^\s*(?:pub )?(\w+) :", text, re.M))
        names.update(re.findall(r"\b(?:record|data) (\w+)", text))
        names |= {source.stem, source.parent.name}
    names |= {edit.stem for edit in sources("*/must-fail/*.edit")}
    for script in [*TOP.glob("examples/*.py"), *TOP.glob("bench/*.py"), *TOP.glob("check/*.py"), *TOP.glob("python/zfpi/*.py")]:
        names |= {script.stem, *re.findall(r"^def (\w+)", script.read_text(), re.M)}
    return names


def prose(text):
    """A page without its blocks of code."""
    return re.sub(r"^```.*?^```$", "", text, flags=re.M | re.S)


def names_in(text):
    """The identifiers of a page in backquotes, each with the backquoted word that it is of."""
    for quoted in re.findall(r"`([^`\n]+)`", prose(text)):
        bare = re.sub(r"\(.*\)$|^crates/|<.*>$", "", quoted)
        if re.fullmatch(r"[\w:]+", bare):
            for part in bare.split("::"):
                if IDENTIFIER.match(part) and not STANDS_FOR.match(part):
                    yield part, quoted


def missing_names(page, known):
    return [
        f"{page}: `{quoted}` is not in the tree"
        for name, quoted in names_in((TOP / page).read_text())
        if name not in known
    ]


def headings(text):
    """The headings of a page as links name them."""
    return [
        re.sub(r"[^\w\- ]", "", title.lower()).replace(" ", "-") for title in re.findall(r"^#+ (.*)$", prose(text), re.M)
    ]


def missing_files(page):
    """Files, links and headings that a page names and that are not there."""
    text = (TOP / page).read_text()
    wrong = []
    for link, place in re.findall(r"\]\(([^)#]*)(?:#([^)]*))?\)", text):
        target = (TOP / page).parent.joinpath(link) if link else TOP / page
        if "://" in link:
            continue
        if not target.exists():
            wrong.append(f"{page}: no file {link}")
        elif place and place not in headings(target.read_text()):
            wrong.append(f"{page}: no heading {link}#{place}")
    for name in re.findall(r"`((?:crates|docs|bench|examples|check|data|specs|src)/[\w./-]+)`", prose(text)):
        if not (TOP / name).exists() and not any(CRATES.glob(f"*/{name}")) and "NAME" not in name:
            wrong.append(f"{page}: no file {name}")
    return wrong


def rows(text):
    """The cells of each row of each table."""
    for line in text.splitlines():
        if line.startswith("|") and not line.startswith("|---"):
            yield [cell.strip() for cell in re.split(r"(?<!\\)\|", line)[1:-1]]


def claims_in(cell):
    """Of a cell as `f`, `g`: `a`, `b`; law `h`: `c`: the functions and the clauses that they have."""
    for group in cell.split(";"):
        before, colon, after = group.partition("`:")
        if colon:
            called = [name.split("::")[-1] for name in re.findall(r"`([\w:]+)", before + "`")]
            clauses = re.findall(r"`(\w+)`", re.sub(r"\(.*?\)", "", after))
            yield called, clauses


def missing_clauses(page, known):
    """Clauses that a table says of a function which has none of that name; in a table of crates, one of theirs."""
    wrong, crates = [], []
    for cells in rows((TOP / page).read_text()):
        if cells[0] and not cells[0].startswith("`zf"):
            crates = []
        elif cells[0]:
            crates = re.findall(r"`(zf\w*)`", cells[0])
        cell = cells[-1] if crates or len(cells) != 3 else cells[1]
        for called, clauses in claims_in(cell):
            having = set()
            for name in called:
                for (where, function), its in known.items():
                    if function == name and (not crates or where in [*crates, "zf_base"]):
                        having |= its
            if having:
                wrong += [
                    f"{page}: {', '.join(called)} has no clause `{clause}`"
                    for clause in clauses
                    if clause not in having
                ]
    return wrong


def missing_bugs():
    """Planted bugs that PROVED names."""
    return [
        f"docs/PROVED.md: no planted bug {crate}/{bug}"
        for crate, bug in re.findall(r"`(zf\w*)/(\w+)`", (TOP / "docs/PROVED.md").read_text())
        if not (CRATES / crate / "must-fail" / f"{bug}.edit").exists()
    ]


def unindented(text):
    return "\n".join(line.strip() for line in text.splitlines())


def missing_snippets(page):
    """Blocks that say which file they are from and do not stand there, their indentation aside."""
    wrong = []
    for name, text in re.findall(
        r"<!-- from: (\S+) -->\n+```\w*\n(.*?)^```$", (TOP / page).read_text(), re.M | re.S
    ):
        if unindented(text) not in unindented((TOP / name).read_text()):
            wrong.append(f"{page}: the block is not in {name}")
    return wrong


def unsnipped(page):
    """Blocks of Rust that do not say where they are from."""
    text = (TOP / page).read_text()
    return [
        f"{page}: a block of Rust is from no file"
        for _ in re.finditer(r"(?<!-->\n)(?<!-->\n\n)^```rust$", text, re.M)
    ]


def error_lines():
    """The texts of the error lines, as the program has them; a number in one is N."""
    text = (CRATES / "zf_program/src/commands/line.rt").read_text()
    lines = [line for line in re.findall(r'plain\("([^"]+)"\)', text)]
    return lines + [
        f"{before}N{after}" for before, after in re.findall(r'counted\("([^"]*)", .*?, "([^"]*)"\)', text)
    ]


def commands():
    first = re.search(r"fn first\(.*?^}", (CRATES / "zf_words/src/words.rt").read_text(), re.M | re.S).group(0)
    return re.findall(r'"(\w+)" =>', first)


def missing_in_manual():
    """Commands, codes and error lines that the manual page, or GUIDE's table of lines, lacks."""
    manual, guide = (TOP / "docs/zfpi.1").read_text(), (TOP / "docs/GUIDE.md").read_text()
    wrong = [
        f"docs/zfpi.1: no command {command}"
        for command in commands()
        if not re.search(rf"^\.It Cm {command}\b", manual, re.M)
    ]
    wrong += [
        f"docs/zfpi.1: no code {code}" for code in CODES if not re.search(rf"^\.It {code}$", manual, re.M)
    ]
    for line in error_lines():
        said = re.escape(line).replace("N", r"[A-Z]")
        wrong += [f"docs/zfpi.1: no line `{line}`"] * (not re.search(rf"^\.It Qq {said}$", manual, re.M))
        wrong += [f"docs/GUIDE.md: no line `{line}`"] * (not re.search(f"`{said}`", guide))
    wrong += [f"docs/GUIDE.md: no code {code}" for code in CODES if not re.search(rf"^\| {code} \|", guide, re.M)]
    return wrong


def codes_of_the_program():
    """Whether the codes of the program are those that are looked for here."""
    text = (CRATES / "zf_program/src/status.rt").read_text()
    codes = {int(code) for code in re.findall(r"=> (\d+),", text)} | {22}
    return [] if codes == set(CODES) else [f"docs/claims.py: the codes are {sorted(codes)}"]


def long_promises():
    """Sentences and cells of PROVED that are too long to be read in a breath."""
    text = re.sub(r"<!-- edits:.*?<!-- end of edits -->", "", prose((TOP / "docs/PROVED.md").read_text()), flags=re.S)
    cells = [cell for row in rows(text) for cell in row]
    wrong = [
        f"docs/PROVED.md: a cell of {len(cell)} characters: {cell[:40]}"
        for cell in cells
        if len(cell) > CELL
    ]
    running = re.sub(r"\n(?!\n|- |#)", " ", re.sub(r"^\|.*$", "", text, flags=re.M))
    for sentence in re.split(r"(?<=[.:;])\s+|\n", running):
        if len(sentence.split()) > WORDS:
            wrong.append(f"docs/PROVED.md: a sentence of {len(sentence.split())} words: {sentence[:40]}")
    return wrong


def sections(text):
    """The sections of a page: the number and title, and what stands in each."""
    parts = re.split(r"^## (\d+\..*)\n", text, flags=re.M)
    return zip(parts[1::2], parts[2::2])


def file_of(crate, folder, name):
    """The file, or the folder, of a crate's definitions or proofs."""
    place = CRATES / crate / folder
    return next((it for it in (place / f"{name}.antt", place / name) if it.exists()), None)


def grounds(line, known):
    """What a line of a section names and the tree lacks: definitions, clauses and proofs."""
    definitions, clauses, proofs = line.split(" · ")
    for crate, file, names in re.findall(r"`(\w+)/(\w+)`((?:[:,] `\w+`)*)", definitions):
        found = file_of(crate, "specs", file)
        text = found.read_text() if found else ""
        yield from (
            f"no definition {crate}/{file}: {name}"
            for name in re.findall(r"`(\w+)`", names) or [file]
            if not found or not re.search(rf"\b{name}\b", text) and name != file
        )
    for crate, function, names in re.findall(r"`(\w+)::(\w+)`((?:[:,] `\w+`)*)", clauses):
        if (crate, function) not in known:
            yield f"no function {crate}::{function}"
        else:
            having = known[crate, function]
            yield from (f"{crate}::{function} has no clause {it}" for it in re.findall(r"`(\w+)`", names) if it not in having)
    for crate, name in re.findall(r"`(\w+)/(\w+)`", proofs):
        if file_of(crate, "proofs", name) is None:
            yield f"no proof {crate}/{name}"


def ungrounded(page, known):
    """Sections of FORMAT and SCRIPTS without their line, and what such lines name that is not there."""
    wrong = []
    for title, text in sections((TOP / page).read_text()):
        lines = re.findall(r"^Definition .* · clause .* · proof .*$", text.replace("\n  ", " "), re.M)
        if not lines:
            wrong.append(f"{page}: no line of definition, clause and proof under {title}")
        for line in lines:
            wrong += [f"{page}, {title}: {what}" for what in grounds(line, known)]
    return wrong


def pages():
    """All pages of the repository."""
    names = ["README.md", "CHANGELOG.md", "bench/HISTORY.md", "check/README.md", "examples/README.md", "data/README.md"]
    return names + sorted(f"docs/{file.name}" for file in (TOP / "docs").glob("*.md"))


def other_pages():
    """Files that name a page which is none of the repository's."""
    known = {pathlib.Path(page).name for page in pages()}
    places = ("*.*", "capi/*", "check/**/*", "bench/*", "docs/*", "examples/*", "python/**/*", "hdf5/*", "crates/*/*/**/*.*t")
    files = {file for place in places for file in TOP.glob(place) if file.suffix in SUFFIXES and "out" not in file.parts}
    return [
        f"{file.relative_to(TOP)}: no page {name}"
        for file in sorted(files)
        for name in sorted(set(re.findall(r"\b[A-Z]{4,}\.md\b", file.read_text())) - known)
    ]


def wrong_layers():
    """Crates that MAP's table of layers lacks, or that stand on one below or to their right, or on others from outside."""
    text = (TOP / "docs/MAP.md").read_text()
    lines = [line for line in (TOP / "crates.txt").read_text().splitlines() if ":" in line and line[0] != "#"]
    below = {line.split()[0].rstrip(":"): line.partition(":")[2].split() for line in lines}
    table = re.search(r"^\| Layer \|.*\n\|[-|]+\n((?:\|.*\n)+)", text, re.M).group(1)
    seen, wrong = [], []
    for _, crates, outside in rows(table):
        names, others = re.findall(r"`(\w+)`", crates), set(re.findall(r"`(\w+)`", outside))
        used = {name for crate in names for name in below.get(crate, []) if name not in below}
        if used != others:
            wrong.append(f"docs/MAP.md: the layer of {names[0]} uses {sorted(used)} from outside")
        for crate in names:
            wrong += [f"docs/MAP.md: {crate} stands on {it}" for it in below.get(crate, []) if it in below and it not in seen]
            seen.append(crate)
    return wrong + [f"docs/MAP.md: no layer has {crate}" for crate in sorted(set(below) ^ set(seen))]


def wrong_sizes():
    """Whether the pages are others than they should be, or longer."""
    wrong = []
    if [pathlib.Path(page).stem for page in pages() if page.startswith("docs/")] != PAGES:
        wrong.append(f"docs: the pages are not {' '.join(PAGES)}")
    readme, together = (TOP / "README.md").stat().st_size, sum((TOP / page).stat().st_size for page in pages())
    wrong += [f"README.md: {readme} bytes, at most {README_BYTES}"] * (readme > README_BYTES)
    return wrong + [f"all pages: {together} bytes, at most {ALL_BYTES}"] * (together > ALL_BYTES)


def all_wrong():
    known_functions, known = functions(), declared()
    wrong = codes_of_the_program() + missing_bugs() + missing_in_manual() + long_promises() + wrong_layers() + wrong_sizes() + other_pages()
    for page in NAMING:
        wrong += missing_names(page, known) + missing_snippets(page) + unsnipped(page)
    for page in ["docs/PROVED.md"]:
        wrong += missing_clauses(page, known_functions)
    for page in ["docs/FORMAT.md", "docs/SCRIPTS.md"]:
        wrong += ungrounded(page, known_functions)
    for page in pages():
        wrong += missing_files(page)
    return wrong


def main():
    wrong = all_wrong()
    print("\n".join(wrong + [f"claims: {len(wrong)} wrong"]))
    sys.exit(1 if wrong else 0)


if __name__ == "__main__":
    main()
