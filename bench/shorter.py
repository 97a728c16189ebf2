#!/usr/bin/env python3
"""Tries shorter proofs of a crate's lemmas and answers, and writes those that hold.

    python3 bench/shorter.py BUILT NAME [FILE..]

BUILT is the top of a clone in which the crates below are proved: by `rt ci`, or each by `over.py BUILT library` (bench/over.py). FILE is a part of a
path: only such files of crates/NAME/proofs are looked at.

A proof, or a part of one, may be one call of a tactic that is told what it names. Where, is not known before. So copies of each lemma are put
behind it, each under a name of its own and with one part of its text replaced; one check of the crate refuses some, and all others hold.
Parts are a whole clause, what follows a let, a let's term, a field, a term in brackets over several lines; a let that nothing names is left out.
`search (rules, NAMES)` holds most often: of 1,284 copies in two crates 71 of 215 where it stood for a clause, 36 of 174 for what follows a let;
`grind (arith, NAMES)` holds mostly where search does too; `cc`, `simp` and `omega` seldom stand for more than they did.

Of the copies that hold, those that save most lines and do not overlap are written, and the crate is checked again: a lemma that is refused
then gets fewer of them, and at last its old text. Imports that nothing uses any more go. It ends with how many lines are gone.
"""

import pathlib
import re
import subprocess
import sys
from dataclasses import dataclass, field
from typing import NamedTuple

TOP = pathlib.Path(__file__).resolve().parent.parent
WIDTH = 110
LEAST_LINES = 2
MOST_NAMED = 8
MOST_ROUNDS = 8
OPENING, CLOSING = "([{", ")]}"
TOKEN = re.compile(r"--[^\n]*|[(){}\[\],;]|[^\s(){}\[\],;]+")
SIGNATURE = re.compile(r"^( *)(?:pub )?(?!let |--|λ)([^\s:(){}]+) : ")
IMPORT = re.compile(r"^(?:pub )?use ([^{ ]+?)\.\{(.*)\}$")
LAMBDA = re.compile(r"\s*λ [^.]*\. ")
# What ends a term that is applied to arguments.
BETWEEN = set("∙ ≡ + - * / % ^ < ≤ ++ ∷ && || → × ⊎ in = , ; | ↦ : ≢ at as where".split())
# Names of the library's that are no facts, or that a tactic knows.
NO_FACTS = set("refl sym ap subst ◌∙◌ ∙ absurd ⊎_elim inl inr tt arith rules common_steps".split())
COMMON = "Rattle.std.proofs.Common"
SETS = ("arith", "rules")


class Token(NamedTuple):
    text: str
    start: int
    end: int


def tokens(text, start=0, end=None):
    found = TOKEN.finditer(text, start, len(text) if end is None else end)
    return [Token(it[0], it.start(), it.end()) for it in found if not it[0].startswith("--")]


def indent(line):
    return len(line) - len(line.lstrip(" "))


def one_line(text):
    return " ".join(text.split())


def names_a(word, text):
    """Whether a text names this word."""
    return re.search(rf"(?<![^\s(\[{{,]){re.escape(word)}(?=[\s.),;\]}}]|$)", text)


@dataclass
class Lemma:
    """A declaration: its lines, those of each of its clauses, and what may shorten it."""

    path: pathlib.Path
    name: str
    start: int
    end: int
    clauses: list
    text: str
    shorter: list = field(default_factory=list)


@dataclass
class Shorter:
    """A lemma's text with the part from `start` to `end` replaced, which saves lines."""

    lemma: Lemma
    start: int
    end: int
    text: str
    drops: bool
    name: str = ""

    def saved(self):
        return self.lemma.text.count("\n") - self.text.count("\n")

    def in_place(self, text):
        """What it makes of a text that differs from the lemma's behind it alone."""
        behind = len(self.lemma.text) - self.end
        made = self.text[: len(self.text) - behind] if behind else self.text
        return made + text[self.end :]


def paragraph_end(lines, start, depth):
    """Where what begins at a line that is indented so ends, without the empty lines behind it."""
    end = start + 1
    while end < len(lines):
        behind = end
        while behind < len(lines) and not lines[behind].strip():
            behind += 1
        if behind == len(lines) or indent(lines[behind]) < depth:
            return end
        if indent(lines[behind]) == depth and lines[behind].lstrip()[0] not in CLOSING:
            return end
        end = behind + 1
    return end


def lemmas_of(path, lines):
    """The declarations of a file that have a signature and clauses, but for those that compute."""
    found, at = [], 0
    while at < len(lines):
        signature = SIGNATURE.match(lines[at])
        if not signature:
            at += 1
            continue
        blank, name, start = signature[1], signature[2], at
        at, clauses = paragraph_end(lines, at, len(blank)), []
        while at < len(lines) and lines[at].startswith((f"{blank}unfolding ", f"{blank}{name} ")):
            end = paragraph_end(lines, at, len(blank))
            if lines[at].startswith(f"{blank}{name} "):
                clauses.append((at, end))
            at = end
        if clauses:
            found.append(Lemma(path, name, start, at, clauses, "\n".join(lines[start:at])))
        else:
            at = start + 1
    return found


def facts_of(lines, lemmas):
    """Names that a tactic may be told: lemmas that are imported or stand in the file."""
    facts = {it.name for it in lemmas}
    for line in lines:
        imported = IMPORT.match(line)
        if not imported or ".proofs." not in line:
            continue
        is_common = imported[1] == "Rattle.std.proofs.Common"
        for word in re.findall(r"[^\s,{}]+(?: as [^\s,{}]+)?", imported[2]):
            name = word.split(" as ")[-1]
            is_fact = "-" in name if is_common else not re.match(r"[A-Z]|◌|.*\.$", name)
            if is_fact and name not in NO_FACTS:
                facts.add(name)
    return facts


def body_start(text):
    """Where what stands behind a clause's `=` begins."""
    depth = 0
    for it in tokens(text):
        depth += (it.text in OPENING) - (it.text in CLOSING)
        if it.text == "=" and depth == 0:
            return it.end
    return None


def next_at(all_of, at, word):
    """The number of the next such word outside brackets and inner lets."""
    depth = inner = 0
    for number in range(at, len(all_of)):
        text = all_of[number].text
        depth += (text in OPENING) - (text in CLOSING)
        if depth == 0 and text == word and inner == 0:
            return number
        inner += (depth == 0 and text == "let") - (depth == 0 and text == "in" and inner > 0)
    return None


class Let(NamedTuple):
    name: str
    start: int
    term: tuple
    end: int
    is_typed: bool


def lets_of(text, start, end):
    """The lets that a term begins with, and where what stands behind them begins."""
    found, all_of, at = [], tokens(text, start, end), 0
    while at < len(all_of) and all_of[at].text == "let":
        equals = next_at(all_of, at + 1, "=")
        ends = next_at(all_of, equals + 1, "in") if equals else None
        if not ends:
            break
        term = all_of[equals].end, all_of[ends].start
        found.append(Let(all_of[at + 1].text, all_of[at].start, term, all_of[ends].end, all_of[at + 2].text == ":"))
        at = ends + 1
    return found, all_of[at].start if at < len(all_of) else end


def applied(text, start, end, facts):
    """The names of the facts in a part, and the facts as they are applied there, but for those about what a λ or a let of the part binds."""
    bound = {it.name for it in lets_of(text, start, end)[0]}
    for it in re.finditer(r"λ ((?:\([^)]*\) ?|[^.\s]+ ?)+)\.", text[start:end]):
        bound |= {word.text for word in tokens(it[1])}
    all_of, names, terms = tokens(text, start, end), [], []
    for number, it in enumerate(all_of):
        if it.text not in facts:
            continue
        names += [it.text] if it.text not in names else []
        term = one_line(text[it.start : argument_end(all_of, number)])
        if term not in terms and not {word.text.split(".")[0] for word in tokens(term)} & (bound | {"?", "_"}):
            terms.append(term)
    return names[:MOST_NAMED], terms[:MOST_NAMED]


def argument_end(all_of, number):
    """Where the arguments of what stands there end."""
    depth, end = 0, all_of[number].end
    for it in all_of[number + 1 :]:
        if depth == 0 and (it.text in BETWEEN or it.text in CLOSING):
            break
        depth += (it.text in OPENING) - (it.text in CLOSING)
        end = it.end
    return end


class Shortener:
    """Finds the parts of a lemma for which a call may stand."""

    def __init__(self, lemma, facts):
        self.lemma, self.text, self.facts = lemma, lemma.text, facts - {lemma.name}
        self.widest = max(WIDTH, *map(len, lemma.text.split("\n")))
        self.seen = set()

    def run(self, offsets):
        for start, end in offsets:
            start += body_start(self.text[start:end]) or end
            self.part(start, end, least=LEAST_LINES, may_count=True)
            if self.text[start:end].strip().count("\n") >= 2:
                self.behind_lets(start, end)
                self.in_brackets(start, end)

    def part(self, start, end, least, may_count=False):
        """Tries calls in place of a part."""
        while start < end and self.text[start] in " \n":
            start += 1
        while end > start and self.text[end - 1] in " \n":
            end -= 1
        part = self.text[start:end]
        if (start, end) in self.seen or part.count("\n") + 1 < least:
            return
        self.seen.add((start, end))
        names, terms = applied(self.text, start, end, self.facts)
        self.add(start, end, f"search (rules, {', '.join(names)})" if names else "search rules")
        if may_count and re.search("omega|≤", part) and not re.search("record|λ", part):
            self.add(start, end, f"omega (arith, {', '.join(terms)})" if terms else "omega arith")

    def add(self, start, end, call):
        made = self.with_call(start, end, call)
        if made and made.count("\n") < self.text.count("\n"):
            self.lemma.shorter.append(Shorter(self.lemma, start, end, made, drops=False))

    def with_call(self, start, end, call):
        """The text with this call in place of a part, or None where it is too wide."""
        head, behind = self.text[:start].rstrip(" \n"), self.text[end:]
        last, tail = head.rsplit("\n", 1)[-1], behind.split("\n", 1)[0]
        gap = "" if head[-1] in OPENING else " "
        if len(last) + 1 + len(call) + len(tail) <= self.widest:
            return f"{head}{gap}{call}{behind}"
        line = self.text.rfind("\n", 0, start) + 1
        depth = start - line if not self.text[line:start].strip() else indent(last) + 4
        return f"{head}\n{' ' * depth}{call}{behind}" if depth + len(call) + len(tail) <= self.widest else None

    def behind_lets(self, start, end):
        """Parts from a let on, the terms of lets, and lets that nothing names."""
        lets, last = lets_of(self.text, start, end)
        if not lets:
            return
        for number in sorted({1, len(lets) // 2, len(lets)}):
            self.part(lets[number].start if number < len(lets) else last, end, least=2 if number < len(lets) else 3)
        for it in lets:
            if it.is_typed:
                self.part(*it.term, least=2)
            if not names_a(it.name, self.text[it.end : end]):
                behind = it.end + len(self.text[it.end : end]) - len(self.text[it.end : end].lstrip(" \n"))
                made = self.text[: it.start] + self.text[behind:]
                self.lemma.shorter.append(Shorter(self.lemma, it.start, behind, made, drops=True))

    def in_brackets(self, start, end):
        opened = []
        for it in tokens(self.text, start, end):
            if it.text in OPENING:
                opened.append(it)
            elif it.text in CLOSING and opened:
                first = opened.pop()
                if first.text == "(" and self.text[first.end : it.start].count("\n") >= 2:
                    inner = LAMBDA.match(self.text, first.end, it.start)
                    at = inner.end() if inner else first.end
                    self.part(at, it.start, least=3)
                    self.behind_lets(at, it.start)
                if first.text == "{" and self.text[: first.start].rstrip().endswith("record"):
                    self.fields(first.end, it.start)

    def fields(self, start, end):
        depth, begins = 0, [start]
        ends = []
        for it in tokens(self.text, start, end):
            depth += (it.text in OPENING) - (it.text in CLOSING)
            if depth == 0 and it.text == ";":
                ends.append(it.start)
                begins.append(it.end)
        for first, last in zip(begins, [*ends, end]):
            words = tokens(self.text, first, last)
            if len(words) > 2 and words[1].text in ("=", ":"):
                self.part(words[1].end, last, least=2)
                inner = LAMBDA.match(self.text, words[1].end, last)
                at = inner.end() if inner else words[1].end
                self.part(at, last, least=2)
                self.behind_lets(at, last)


def shorter_in(lemma, facts):
    """Fills in what may shorten a lemma."""
    lines = lemma.text.split("\n")
    places = [0]
    for line in lines:
        places.append(places[-1] + len(line) + 1)
    Shortener(lemma, facts).run([(places[a - lemma.start], places[b - lemma.start] - 1) for a, b in lemma.clauses])


def copy_of(it):
    """The text of a copy, under its own name."""
    text = re.sub(r"^( *)pub ", r"\1", it.text)
    return re.sub(rf"(?<![^\s(\[{{,]){re.escape(it.lemma.name)}(?=[\s).,;\]}}]|$)", it.name, text)


def with_imports(lines):
    """The lines of a file, with imports for the sets of lemmas that its calls name."""
    behind = "\n".join(it for it in lines if not it.startswith("use "))
    imported = {word for it in lines if IMPORT.match(it) for word in re.findall(r"[^\s,{}]+", IMPORT.match(it)[2])}
    more = [name for name in SETS if name not in imported and re.search(rf"[ (]{name}[,) \n]", behind)]
    if not more:
        return lines
    for number, it in enumerate(lines):
        if it.startswith(f"use {COMMON}.{{"):
            return [*lines[:number], it[:-1] + ", " + ", ".join(more) + "}", *lines[number + 1 :]]
    at = next((number for number, it in enumerate(lines) if it.startswith("use ")), 0)
    return [*lines[:at], f"use {COMMON}.{{{', '.join(more)}}}", *lines[at:]]


class Crate:
    def __init__(self, built, name, parts):
        self.built, self.name, self.files, self.lemmas = built, name, {}, {}
        for path in sorted((TOP / "crates" / name / "proofs").rglob("*.antt")):
            if path.name in ("Invariants.antt", "Lib.antt", "Proof.antt") or parts and not any(it in str(path) for it in parts):
                continue
            self.files[path] = lines = path.read_text().split("\n")
            self.lemmas[path] = found = lemmas_of(path, lines)
            for lemma in found:
                shorter_in(lemma, facts_of(lines, found))
        self.copies = [it for found in self.lemmas.values() for lemma in found for it in lemma.shorter]
        for number, it in enumerate(self.copies):
            it.name = f"copy{number}"

    def check(self, *flags):
        """What a check of the crate said."""
        words = [sys.executable, str(TOP / "bench/over.py"), self.built, "check", self.name, *flags]
        ended = subprocess.run(words, cwd=TOP, capture_output=True, text=True, check=False)
        return ended.stdout + ended.stderr

    def write(self, text_of):
        """Writes each file with what stands for each lemma."""
        for path, lines in self.files.items():
            made, at = [], 0
            for lemma in self.lemmas[path]:
                made += lines[at : lemma.start] + text_of(lemma).split("\n")
                at = lemma.end
            made += lines[at:]
            path.write_text("\n".join(with_imports(made) if made != lines else lines))

    def held(self):
        """The copies that a check accepts."""
        try:
            self.write(lambda lemma: "\n\n".join([lemma.text, *map(copy_of, lemma.shorter)]))
            refused = refused_in(self.check())
        finally:
            self.write(lambda lemma: lemma.text)
        return [it for it in self.copies if it.name not in refused]


def refused_in(said):
    return set(re.findall(r"\.antt:\d+:\d+: error: `([^`]+)`", said))


def choices(good):
    """What to write of the copies of a lemma that hold, most lines saved first."""
    best = {}
    for it in good:
        known = best.get((it.start, it.end))
        if known is None or it.saved() > known.saved():
            best[it.start, it.end] = it
    order = sorted(best.values(), key=lambda it: (-it.saved(), it.end - it.start))
    together = []
    for it in order:
        if all(it.end <= other.start or other.end <= it.start for other in together):
            together.append(it)
    found = [together, [it for it in together if not it.drops], *([it] for it in order[:3])]
    return sorted(found, key=lambda them: -sum(it.saved() for it in them)) + [[]]


def text_of(lemma, written):
    text = lemma.text
    for it in sorted(written, key=lambda it: -it.start):
        text = it.in_place(text)
    return text


def main():
    if len(sys.argv) < 3:
        sys.exit(__doc__)
    crate = Crate(sys.argv[1], sys.argv[2], sys.argv[3:])
    print(f"{crate.name}: {len(crate.copies)} copies", flush=True)
    good = crate.held()
    print(f"{len(good)} hold", flush=True)
    left = {}
    for lemma in {id(it.lemma): it.lemma for it in good}.values():
        left[id(lemma)] = choices([it for it in good if it.lemma is lemma])
    for _ in range(MOST_ROUNDS):
        crate.write(lambda lemma: text_of(lemma, left[id(lemma)][0]) if id(lemma) in left else lemma.text)
        said = crate.check()
        refused = refused_in(said)
        too_much = [it for it in good if it.lemma.name in refused and len(left[id(it.lemma)]) > 1]
        if not too_much:
            break
        for key in {id(it.lemma) for it in too_much}:
            left[key].pop(0)
    if "logic=proved" in said:
        said = crate.check("--fix-imports")
    gone = sum(len(lines) - len(path.read_text().split("\n")) for path, lines in crate.files.items())
    print(f"{gone} lines gone; {'proved' if 'logic=proved' in said else 'not proved: look at what a check says'}")


if __name__ == "__main__":
    main()
