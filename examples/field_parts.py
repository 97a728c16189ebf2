#!/usr/bin/env python3
"""Compresses large fields of raw values in parts, restores them, and verifies the parts.

    python3 examples/field_parts.py compress FOLDER TYPE SHAPE MODE.. FILE.. [--rows N] [--anew]
    python3 examples/field_parts.py restore FOLDER TO [NAME..] [--anew]
    python3 examples/field_parts.py verify FOLDER [NAME..]

`compress` cuts each FILE, raw values of TYPE and SHAPE, along the last axis, whose rows lie one behind the
other. Each part is a stream: FOLDER/NAME/00000.zfpi and so on, where NAME is the name of the file. Beside
them FOLDER/NAME/manifest has type, shape, mode, rows, count, and the SHA-256 of each part, as `sha256sum -c`
reads it. The same call again goes on where one ended: a part stays where it has the sum of the manifest.
Where the manifest is of another type, shape, mode or number of rows, or of another state of the file, nothing
is done without `--anew`, which replaces the field.

`restore` makes TO/NAME of a field that has all its parts; `--anew` replaces a file that has the name.
`verify` compares each part with the manifest.

Each part is a task: `--jobs N` run at once on this machine, or with `--dask ADDRESS`, such as
tcp://head:8786, as many as that scheduler of dask.distributed has workers, which must see the same folders
and have the same Python and zfpi on PATH. What fails is named on standard error, and the rest is done. A file
gets its name once it is whole; what a killed run left beside it, the next run removes.

Exit status: 0 all is done; 1 something failed; 2 nothing was begun; 130 or 143 after a signal.
"""

import argparse
import concurrent.futures
import contextlib
import functools
import glob
import hashlib
import logging
import math
import os
import pathlib
import re
import shutil
import signal
import socket
import stat
import subprocess
import sys
import time
from dataclasses import dataclass
from typing import Callable, NamedTuple

# Bytes of a value. Those of one or two bytes are restored by naming the type, since their streams say int32.
SIZES = {"int8": 1, "uint8": 1, "int16": 2, "uint16": 2, "int32": 4, "int64": 8}
# The greatest number behind a mode that has one.
MOST_OF_MODE = {"rate": 32768, "precision": 128}
# The values that a stream may have, and the places along an axis of one, two, three and four dimensions.
MOST_VALUES = 2**27
MOST_PLACES = (2**48, 2**24, 2**16, 2**12)
# The values of a part, where nobody says how many rows it has.
PART_VALUES = 2**24
# A block has four rows: where no block is cut, the values come back as from one stream.
BLOCK_ROWS = 4
PIECE = 2**20
FIRST_LINE = "# a field of zfpi in parts: 1"
SUM_LINE = re.compile(r"([0-9a-f]{64})  (\d{5,})\.zfpi")
SECONDS_BETWEEN_LINES = 30
SECONDS_TO_CONNECT = 30
CLEAR = "\r\033[K"


class Unusable(Exception):
    """A field that is left out, and why."""


# Records of a task are data classes: dask cannot send a NamedTuple of a script to its workers.
@dataclass(frozen=True)
class Cut:
    """How a field is cut: `rows` of its last axis are a part. Type, shape and mode are words of zfpi."""

    type: str
    shape: str
    mode: str
    rows: int

    @property
    def sizes(self):
        return [int(size) for size in self.shape.split("x")]

    @property
    def count(self):
        """How many parts there are."""
        return -(-self.sizes[-1] // self.rows)

    @property
    def row_bytes(self):
        return math.prod(self.sizes[:-1]) * SIZES[self.type]

    @property
    def raw_bytes(self):
        return self.row_bytes * self.sizes[-1]

    @property
    def narrow(self):
        """The word that restores values of 8 or 16 bits, or none."""
        return [self.type] if SIZES[self.type] < 4 else []

    def rows_of(self, part):
        return min(self.rows, self.sizes[-1] - part * self.rows)

    def span_of(self, part):
        """The first byte of a part in the raw file, and how many bytes it has."""
        return part * self.rows * self.row_bytes, self.rows_of(part) * self.row_bytes

    def words_of(self, part):
        """The words that compress a part."""
        shape = "x".join(str(size) for size in [*self.sizes[:-1], self.rows_of(part)])
        return ["compress", self.type, shape, *self.mode.split()]


@dataclass(frozen=True)
class Task:
    """Work on one part, as a worker has to know it. `file` is raw; `sum` is the manifest's, or empty."""

    field: str
    part: int
    cut: Cut
    file: str
    stream: str
    sum: str

    @property
    def name(self):
        return f"{self.field}/{self.part:05}.zfpi"


@dataclass(frozen=True)
class Ended:
    """How a task ended: why it failed, or ""; the sum of its stream; whether nothing had to be done."""

    task: Task
    why: str
    sum: str = ""
    was_there: bool = False


# ------------------------------------------------------------------------------------------- work on one part


def sum_of(file):
    """The SHA-256 of a file, in hexadecimal digits."""
    digest = hashlib.sha256()
    with open(file, "rb", buffering=0) as source:
        while piece := source.read(PIECE):
            digest.update(piece)
    return digest.hexdigest()


def sum_if_there(file):
    """The sum of a file, or an empty text where there is none that can be read."""
    try:
        return sum_of(file)
    except OSError:
        return ""


def check_program():
    if shutil.which("zfpi") is None:
        raise Unusable(f"there is no zfpi on PATH of {socket.gethostname()}")


def started(words, **streams):
    """A running zfpi. Its error line is to be read from `stderr`."""
    check_program()
    return subprocess.Popen(["zfpi", *words], stderr=subprocess.PIPE, **streams)


def why_ended(run):
    """Why a run of zfpi failed, once it has ended, or an empty text."""
    line = run.stderr.read().decode(errors="replace").strip()
    code = run.wait()
    if code < 0:
        return f"zfpi: ended by signal {-code}"
    return "" if code == 0 else line or f"zfpi: code {code}"


def feed(pipe, source, count):
    """Gives bytes of a file to a pipe, and closes it. A reader that has gone says itself why."""
    with contextlib.suppress(BrokenPipeError), pipe:
        while count > 0 and (piece := source.read(min(count, PIECE))):
            pipe.write(piece)
            count -= len(piece)


def new_beside(file):
    """The name of a new file beside one, until it is whole."""
    return file.with_name(f".{file.name}.{socket.gethostname()}.{os.getpid()}.part")


@contextlib.contextmanager
def beside(file):
    """A new file that gets the name of `file` at the end, or is removed where that fails."""
    new = new_beside(file)
    try:
        yield new
        new.replace(file)
    finally:
        new.unlink(missing_ok=True)


def compress_part(task):
    """Makes the stream of a part, unless the one that the manifest means is there."""
    if task.sum and sum_if_there(task.stream) == task.sum:
        return Ended(task, "", task.sum, True)
    first, count = task.cut.span_of(task.part)
    with open(task.file, "rb") as source, beside(pathlib.Path(task.stream)) as new:
        source.seek(first)
        with open(new, "wb") as sink:
            with started(task.cut.words_of(task.part), stdin=subprocess.PIPE, stdout=sink) as run:
                feed(run.stdin, source, count)
                why = why_ended(run)
        if why:
            raise Unusable(why)
        made = sum_of(new)
    return Ended(task, "", made)


def verify_part(task):
    """Compares a part with the manifest."""
    if sum_of(task.stream) != task.sum:
        raise Unusable("its sum is not the one of the manifest")
    return Ended(task, "", task.sum)


def restore_part(task):
    """Writes the values of a part to their place in the raw file."""
    verify_part(task)
    first, count = task.cut.span_of(task.part)
    with open(task.stream, "rb") as source, open(task.file, "r+b", buffering=0) as sink:
        sink.seek(first)
        with started(["restore", *task.cut.narrow], stdin=source, stdout=sink) as run:
            why = why_ended(run)
        written = sink.tell() - first
    if why or written != count:
        raise Unusable(why or f"it has {written} bytes of values, and not {count}")
    return Ended(task, "", task.sum)


def text_of(error):
    """What an error says, without its number."""
    if isinstance(error, OSError) and error.strerror:
        return error.strerror + (f" ({error.filename})" if error.filename else "")
    return str(error) or type(error).__name__


def attempt(work, task):
    """Does the work of a task. Where it fails, the answer says why."""
    try:
        return work(task)
    except (OSError, Unusable) as error:
        return Ended(task, text_of(error))


# ---------------------------------------------------------------------------- tasks here and on many machines


def on_this_machine(jobs, work, tasks):
    """The ends of the tasks as they come, so many at once. Threads are enough: the work is done by zfpi."""
    with concurrent.futures.ThreadPoolExecutor(jobs) as pool:
        waiting = [pool.submit(attempt, work, task) for task in tasks]
        try:
            for done in concurrent.futures.as_completed(waiting):
                yield done.result()
        finally:
            pool.shutdown(cancel_futures=True)


def by_dask(client, work, tasks):
    """The ends of the tasks as they come from the workers of dask.distributed."""
    from distributed import as_completed

    tasks = list(tasks)
    waiting = [client.submit(attempt, work, task, pure=False) for task in tasks]
    task_of = {future.key: task for future, task in zip(waiting, tasks)}
    for done in as_completed(waiting):
        lost = "cancelled" if done.cancelled() else done.exception()
        yield Ended(task_of[done.key], f"the task was lost: {lost}") if lost else done.result()


@contextlib.contextmanager
def workers(words):
    """What does tasks, here or by dask.distributed. `Unusable`: a program, module or scheduler lacks."""
    if words.dask is None:
        check_program()
        yield functools.partial(on_this_machine, words.jobs)
        return
    try:
        from distributed import Client
    except ModuleNotFoundError as error:
        raise Unusable("--dask needs dask.distributed, which Debian has as python3-distributed") from error
    logging.getLogger("distributed").setLevel(logging.CRITICAL)
    try:
        client = Client(words.dask, timeout=SECONDS_TO_CONNECT)
    except (OSError, ValueError, TimeoutError) as error:
        raise Unusable(f"there is no scheduler at {words.dask}: {error}") from error
    with client:
        yield functools.partial(by_dask, client)


# ----------------------------------------------------------------------------------------------- the manifest


class Manifest(NamedTuple):
    """What a folder of parts holds: how the field is cut, its raw file, the sums of parts by number."""

    cut: Cut
    source: str
    sums: dict

    def text(self):
        facts = {**vars(self.cut), "count": self.cut.count, "source": self.source}
        lines = [FIRST_LINE, *(f"# {word}: {fact}" for word, fact in facts.items())]
        sums = [sum_line(part, its) for part, its in sorted(self.sums.items())]
        return "".join([*(f"{line}\n" for line in lines), *sums])

    def facts(self):
        """What has to be the same for a run that goes on."""
        return {**vars(self.cut), "source": self.source}


def sum_line(part, its):
    return f"{its}  {part:05}.zfpi\n"


def read_manifest(folder):
    """The manifest of a folder. A last line that a killed run left unfinished does not count."""
    text = (folder / "manifest").read_text("ascii", "replace")
    first, *lines = text[: text.rfind("\n") + 1].splitlines() or [""]
    facts = dict(re.findall(r"^# (\w+): (.+)$", text, re.M))
    found = [SUM_LINE.fullmatch(line) for line in lines if not line.startswith("#")]
    try:
        cut = Cut(facts["type"], facts["shape"], facts["mode"], int(facts["rows"]))
        check_words(cut.type, cut.shape, cut.mode)
        check_rows(cut)
        sums = {int(it[2]): it[1] for it in found if it}
        is_ours = first == FIRST_LINE and all(found) and facts["count"] == str(cut.count)
        if is_ours and all(part < cut.count for part in sums):
            return Manifest(cut, facts["source"], sums)
    except (KeyError, ValueError):
        pass
    raise Unusable(f"{folder / 'manifest'} is damaged, or of another program")


def write_manifest(folder, manifest):
    with beside(folder / "manifest") as new:
        new.write_text(manifest.text())


def note_sum(folder, part, its):
    """Adds the sum of a part. Where that fails, as on a full disk, no half of a line stays."""
    with open(folder / "manifest", "r+b", buffering=0) as manifest:
        end = manifest.seek(0, os.SEEK_END)
        line = sum_line(part, its).encode()
        try:
            if manifest.write(line) != len(line):
                raise OSError(0, "the manifest could not be written")
        except OSError:
            manifest.truncate(end)
            raise


# -------------------------------------------------------------------------------------------------- the words


def check_words(kind, shape, mode):
    """Raises a `ValueError` where these are no type, shape and mode of zfpi."""
    if kind not in SIZES:
        raise ValueError(f"{kind} is no type of zfpi: those are {' '.join(SIZES)}")
    if not re.fullmatch(r"[1-9]\d*(x[1-9]\d*){0,3}", shape, re.A):
        raise ValueError(
            f"{shape} is no shape: those are one to four sizes, the fastest axis first, as 48x32"
        )
    word, _, number = mode.partition(" ")
    most = MOST_OF_MODE.get(word, 0)
    is_number = re.fullmatch(r"[1-9]\d*", number, re.A) and int(number) <= most
    if not (is_number or mode == "reversible"):
        raise ValueError(f"{mode} is no mode: those are reversible, rate 1 to 32768, and precision 1 to 128")


def check_rows(cut):
    """Raises a `ValueError` where a part is none that zfpi takes."""
    *inner, last = cut.sizes
    rows = min(cut.rows, last)
    if cut.rows < 1 or cut.rows % BLOCK_ROWS:
        raise ValueError(f"--rows {cut.rows}: it has to be a multiple of {BLOCK_ROWS}")
    if max(*inner, rows, 1) > MOST_PLACES[len(inner)]:
        raise ValueError(f"{rows} rows of {cut.shape}: an axis has at most {MOST_PLACES[len(inner)]} places")
    if math.prod(inner) * rows > MOST_VALUES:
        raise ValueError(f"{rows} rows of {cut.shape}: a part has at most {MOST_VALUES} values")


def rows_for(shape):
    """The rows of a part, where nobody says them: as many whole blocks as fit."""
    *inner, last = [int(size) for size in shape.split("x")]
    most = min(PART_VALUES // math.prod(inner), MOST_PLACES[len(inner)], last + BLOCK_ROWS - 1)
    return max(most // BLOCK_ROWS, 1) * BLOCK_ROWS


def take_mode(words):
    """Takes the mode, of one word or two, from MODE.. FILE.., and checks it with type, shape and rows."""
    length = 1 if words.rest[0] == "reversible" else 2
    words.mode, words.names = " ".join(words.rest[:length]), words.rest[length:]
    check_words(words.type, words.shape, words.mode)
    rows = rows_for(words.shape) if words.rows is None else words.rows
    check_rows(Cut(words.type, words.shape, words.mode, rows))
    if not words.names:
        raise ValueError("there is no FILE")


USAGE = {
    "compress": "FOLDER TYPE SHAPE MODE.. FILE.. [--rows N] [--anew]",
    "restore": "FOLDER TO [NAME..] [--anew]",
    "verify": "FOLDER [NAME..]",
}


def parser():
    about, usage = __doc__.split("\n\n", 1)
    made = argparse.ArgumentParser(
        description=about, epilog=usage, formatter_class=argparse.RawDescriptionHelpFormatter
    )
    ways = made.add_subparsers(dest="way", required=True, metavar="compress|restore|verify")
    compress, restore, verify = (
        ways.add_parser(way, usage=f"%(prog)s {words} [--jobs N | --dask ADDRESS]")
        for way, words in USAGE.items()
    )
    for way in (compress, restore, verify):
        way.add_argument("folder", metavar="FOLDER", type=os.path.abspath)
        where = way.add_mutually_exclusive_group()
        where.add_argument(
            "--jobs", type=int, default=len(os.sched_getaffinity(0)), metavar="N", help="parts at once here"
        )
        where.add_argument("--dask", metavar="ADDRESS", help="a scheduler of dask.distributed")
    compress.add_argument("type", metavar="TYPE")
    compress.add_argument("shape", metavar="SHAPE")
    compress.add_argument("rest", nargs="+", metavar="MODE.. FILE..")
    compress.add_argument(
        "--rows", type=int, metavar="N", help="rows of the last axis in a part: a multiple of 4"
    )
    restore.add_argument("to", metavar="TO", type=os.path.abspath)
    for way in (compress, restore):
        way.add_argument("--anew", action="store_true", help="replace what is there")
    for way in (restore, verify):
        way.add_argument("names", nargs="*", metavar="NAME")
    return made


def parsed():
    """The words of the call. Wrong ones end the program with 2."""
    made = parser()
    words = made.parse_args()
    words.folder = pathlib.Path(words.folder)
    try:
        if words.way == "compress":
            take_mode(words)
        if words.jobs < 1:
            raise ValueError("--jobs is 1 or more")
    except ValueError as error:
        made.error(str(error))
    return words


# ----------------------------------------------------------------------------------------------------- fields


class Field(NamedTuple):
    """A field that is worked on: its folder, its manifest, and its raw file, or the one that will be it."""

    folder: pathlib.Path
    manifest: Manifest
    file: pathlib.Path

    def tasks(self):
        for part in range(self.manifest.cut.count):
            stream = self.folder / f"{part:05}.zfpi"
            its = self.manifest.sums.get(part, "")
            yield Task(self.folder.name, part, self.manifest.cut, str(self.file), str(stream), its)


def remove_left(folder, name):
    """Removes what killed runs left beside files of this name, which may be a pattern."""
    for left in folder.glob(f".{name}.*.part"):
        left.unlink(missing_ok=True)


def source_of(file):
    """The bytes of a raw file and when it changed, in nanoseconds. `Unusable`, `OSError`: it is none."""
    about = os.stat(file)
    if stat.S_ISDIR(about.st_mode):
        raise Unusable("it is a folder")
    if not stat.S_ISREG(about.st_mode):
        raise Unusable("it is no regular file")
    with open(file, "rb"):
        return f"{about.st_size} bytes, changed {about.st_mtime_ns}"


def differences(asked, there):
    """In what a manifest differs from the one that is asked for."""
    old = there.facts()
    changed = [(word, fact) for word, fact in asked.facts().items() if fact != old[word]]
    return ", ".join(f"{word} {old[word]} and not {fact}" for word, fact in changed)


def earlier_manifest(folder, anew):
    """The manifest of an earlier run, or `None`. A folder without one may hold nothing else."""
    if (folder / "manifest").exists():
        return None if anew else read_manifest(folder)
    if folder.exists() and any(not entry.name.startswith(".manifest.") for entry in folder.iterdir()):
        raise Unusable(f"{folder} has other files, and no manifest")
    return None


def field_to_compress(name, words):
    """The field of a raw file, with its folder and its manifest, which an earlier run may have begun."""
    file = pathlib.Path(os.path.abspath(name))
    source, folder = source_of(file), words.folder / file.name
    there = earlier_manifest(folder, words.anew)
    rows = words.rows or (there.cut.rows if there else rows_for(words.shape))
    asked = Manifest(Cut(words.type, words.shape, words.mode, rows), source, there.sums if there else {})
    if there and differences(asked, there):
        raise Unusable(f"its parts are of {differences(asked, there)}: take another folder, or --anew")
    if not source.startswith(f"{asked.cut.raw_bytes} bytes"):
        raise Unusable(f"it has {source.split(',')[0]}, and not {asked.cut.raw_bytes}")
    folder.mkdir(parents=True, exist_ok=True)
    remove_left(folder, "*")
    write_manifest(folder, asked)
    if there is None:
        for stream in folder.glob("*.zfpi"):
            stream.unlink()
    return Field(folder, asked, file)


def field_there(name, words):
    """A field whose parts are all in its manifest."""
    if name != pathlib.Path(name).name:
        raise Unusable("it is no name of a field")
    folder = words.folder / name
    manifest = read_manifest(folder)
    lacking = [part for part in range(manifest.cut.count) if part not in manifest.sums]
    if lacking:
        raise Unusable(f"{lacking[0]:05}.zfpi is not in its manifest, as where compress did not end")
    return Field(folder, manifest, folder)


def field_to_restore(name, words):
    """A field whose parts are all there, and a file of its length beside the one that is to be made."""
    field, to = field_there(name, words), pathlib.Path(words.to)
    if os.path.lexists(to / name) and not words.anew:
        raise Unusable("there is a file of this name: take another folder, or --anew")
    for task in field.tasks():
        os.stat(task.stream)
    to.mkdir(parents=True, exist_ok=True)
    remove_left(to, glob.escape(name))
    return field._replace(file=long_file(new_beside(to / name), field.manifest.cut.raw_bytes))


def long_file(file, length):
    """A new file of so many bytes, which have no room yet."""
    try:
        with open(file, "wb") as new:
            new.truncate(length)
    except OSError:
        file.unlink(missing_ok=True)
        raise
    return file


def end_compress(field, words):
    """Writes the manifest in order. A raw file that changed meanwhile makes the field a failed one."""
    write_manifest(field.folder, field.manifest)
    if source_of(field.file) != field.manifest.source:
        raise Unusable("it changed while it was compressed")


def drop_unfinished(field, words):
    """Removes what killed workers left. Parts that were made stay, for the next run."""
    remove_left(field.folder, "*")


def end_restore(field, words):
    field.file.replace(pathlib.Path(words.to, field.folder.name))


def drop_restored(field, words):
    """Removes a file that lacks parts."""
    remove_left(pathlib.Path(words.to), glob.escape(field.folder.name))


def end_verify(field, words):
    """Looks for streams that the manifest does not have."""
    known = {pathlib.Path(task.stream).name for task in field.tasks()}
    for stream in sorted(field.folder.glob("*.zfpi")):
        if stream.name not in known:
            raise Unusable(f"{stream.name} is not in its manifest")


class Way(NamedTuple):
    """How a command begins a field, works on a part, ends a field with all its parts, and drops others."""

    begin: Callable
    work: Callable
    end: Callable
    drop: Callable
    said: str


def drop_nothing(field, words):
    """Nothing was made."""


WAYS = {
    "compress": Way(field_to_compress, compress_part, end_compress, drop_unfinished, "compressed"),
    "restore": Way(field_to_restore, restore_part, end_restore, drop_restored, "restored"),
    "verify": Way(field_there, verify_part, end_verify, drop_nothing, "right"),
}


# -------------------------------------------------------------------------------------------------- the whole


class Report:
    """What is said: failures and progress on standard error as they come, and a line at the end."""

    def __init__(self):
        self.fields = self.whole = self.parts = self.done = self.there = self.failed = 0
        self.on_terminal = sys.stderr.isatty()
        self.begun = self.shown = time.monotonic()

    def say(self, line, end="\n"):
        print(f"{CLEAR * self.on_terminal}{line}", end=end, file=sys.stderr, flush=True)

    def fail(self, name, why):
        self.say(f"{name}: {why}")

    def count(self, ended):
        """Counts a task, says why it failed, and says now and then how far all is."""
        self.done += 1
        self.there += ended.was_there
        if ended.why:
            self.failed += 1
            self.fail(ended.task.name, ended.why)
        now = time.monotonic()
        if now - self.shown >= (0.2 if self.on_terminal else SECONDS_BETWEEN_LINES):
            self.shown = now
            line = f"{self.done} of {self.parts} parts, {self.failed} failed, {now - self.begun:.0f} s"
            self.say(line, end="" if self.on_terminal else "\n")

    def end(self, way):
        """Says the counts, and answers the exit status."""
        counts = [f"{self.done - self.there - self.failed} {way.said}", f"{self.failed} failed"]
        counts[1:1] = [f"{self.there} there before"] * (way.work is compress_part)
        self.say("", end="")
        print(f"{self.whole} of {self.fields} fields whole; parts: {', '.join(counts)}")
        return 0 if self.whole == self.fields else 1


def names_of(words):
    """The fields that are asked for: files to compress, or names in the folder. Without names it is all."""
    if words.names:
        return words.names
    try:
        found = sorted(entry.name for entry in words.folder.iterdir() if entry.is_dir())
    except OSError as error:
        raise Unusable(text_of(error)) from error
    if not found:
        raise Unusable(f"{words.folder} has no fields")
    return found


def begin(fields, way, words, report):
    """Fills in the fields that can be worked on, by name. Of the others is said what is wrong with them."""
    for name in names_of(words):
        report.fields += 1
        own = pathlib.Path(name).name
        try:
            if own in fields:
                raise Unusable("another one has this name")
            fields[own] = way.begin(name, words)
            report.parts += fields[own].manifest.cut.count
        except (OSError, Unusable) as error:
            report.fail(name, text_of(error))


def noted(field, ended):
    """Puts the sum of a part that was made into the manifest."""
    part = ended.task.part
    if ended.why or field.manifest.sums.get(part) == ended.sum:
        return ended
    try:
        note_sum(field.folder, part, ended.sum)
    except OSError as error:
        return Ended(ended.task, text_of(error))
    field.manifest.sums[part] = ended.sum
    return ended


def end_field(way, field, words, report):
    try:
        way.end(field, words)
        report.whole += 1
    except (OSError, Unusable) as error:
        report.fail(field.folder.name, text_of(error))


def work_on(fields, way, words, ends, report):
    """Does the tasks of all fields, and ends each field once it has all its parts."""
    lacks = {name: field.manifest.cut.count for name, field in fields.items()}
    tasks = (task for field in fields.values() for task in field.tasks())
    with contextlib.closing(ends(way.work, tasks)) as all_ended:
        for ended in all_ended:
            name = ended.task.field
            ended = noted(fields[name], ended)
            report.count(ended)
            lacks[name] -= not ended.why
            if lacks[name] == 0:
                end_field(way, fields[name], words, report)


def done(words):
    """Does what the words ask for, and answers the exit status."""
    way, report, fields = WAYS[words.way], Report(), {}
    try:
        with workers(words) as ends:
            begin(fields, way, words, report)
            work_on(fields, way, words, ends, report)
    finally:
        for field in fields.values():
            way.drop(field, words)
    return report.end(way)


def stop(number, _):
    """Ends the work once the parts that run have ended."""
    os.write(2, b"\nstopped: the same call goes on\n")
    raise SystemExit(128 + number)


def main():
    sys.stdout.reconfigure(errors="backslashreplace")
    words = parsed()
    for number in (signal.SIGINT, signal.SIGTERM):
        if signal.getsignal(number) != signal.SIG_IGN:
            signal.signal(number, stop)
    try:
        sys.exit(done(words))
    except Unusable as error:
        print(f"field_parts.py: {error}", file=sys.stderr)
        sys.exit(2)


if __name__ == "__main__":
    main()
