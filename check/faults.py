#!/usr/bin/env python3
"""Makes each system call of each command fail, and kills saves at each call.

    python3 check/faults.py [PROGRAM] [--seed N] [--quick]

Needs strace. After an error the run ends as without it, where it did not matter, or with the code
of the device; of reading, writing, bringing to the disk and renaming it does matter. The old or the
new file stands whole, the new one exactly where the code is 0 or 1, and nothing is left beside.
There is one exception, which README names: the disk's error when the folder is brought to it, the
last step of a save. A save that is killed leaves the old or the new file and at most a file beside
it, which nobody else may read, which the next save takes away, and a claim, which hinders no save.
Some calls move 200 KB each way; of these quick tries the errors of reading, writing, bringing to the
disk and renaming alone.
"""

import random
import re
import shutil
import stat
from typing import NamedTuple

from cases import COMMANDS, SCRIPT, Case
from shared import Check, error_line, files_of, put_files

# Of `brk` none: the C library does not expect one, since the system's call has none.
ERRORS = {
    "read": ("EIO", "EINTR"),
    "pread64": ("EIO", "EINTR"),
    "write": ("EIO", "ENOSPC", "EINTR"),
    "openat": ("EACCES", "EMFILE", "ENOSPC", "ENOMEM", "EINTR"),
    "statx": ("EACCES", "ENOMEM"),
    "fsync": ("EIO", "ENOSPC"),
    "fdatasync": ("EIO", "ENOSPC"),
    "rename": ("EIO", "ENOSPC"),
    "link": ("EIO", "EPERM", "EEXIST"),
    "symlink": ("EIO", "EPERM", "EEXIST"),
    "getdents64": ("EIO",),
    "getrandom": ("EIO",),
    "prlimit64": ("EPERM",),
    "fcntl": ("EBADF", "EMFILE"),
    "unlink": ("EACCES", "EBUSY"),
    "close": ("EIO",),
    "flock": ("ENOLCK", "EAGAIN"),
    "fchmod": ("EPERM", "EIO"),
    "fchown": ("EPERM",),
    "ftruncate": ("EIO",),
    "mmap": ("ENOMEM",),
    "mremap": ("ENOMEM",),
    "munmap": ("EINVAL",),
}
# The errors that have to change how a run ends, by call.
NEVER_IGNORED = {
    "read": ("EIO",),
    "write": ("EIO", "ENOSPC"),
    "fsync": ("EIO", "ENOSPC"),
    "rename": ("EIO", "ENOSPC"),
    "fchmod": ("EPERM", "EIO"),
}
# What the system's pages begin with, of limits and of an output's place: without them no limit is known.
PAGES = re.compile(r'read\(\d+, "(Limit  |pos:)')
# After these it has to be tried again.
AGAIN = ("read", "pread64", "write", "openat")
LINES = {
    10: ("read fault",),
    11: ("write fault",),
    12: ("load fault", "save fault"),
    20: ("out of memory",),
}
LEFT_OVER = re.compile(r"\.a\.zfpi(-[0-9a-f]{16}|@[0-9a-f]{32})")
# The calls that look for what was left over and take it away, and that take away what a save made.
TIDIES = ("openat", "statx", "flock", "unlink", "getdents64", "pread64")
# An old file has this mode: nobody else may read what it holds, nor what is to be in its place.
MODE = 0o600
# The calls that quick lets fail where much is moved.
MOVES = ("read", "write", "fsync", "rename")
# The program's first own call: it has not looked at its words before.
BEGINS = "rt_sigaction(SIGPIPE"


class Call(NamedTuple):
    """A system call of a run: its name, its number among those of the name, from 1, and its text."""

    name: str
    number: int
    text: str

    def file(self):
        """The number of the open file that it is on, if it is on one."""
        found = re.match(r"\w+\((\d+)", self.text)
        return int(found[1]) if found else None


class Seen(NamedTuple):
    """How a run ended, the files behind it, and those of them that others may read or write."""

    ended: tuple
    files: dict
    shown: tuple = ()


class Faults:
    def __init__(self, check):
        self.check, self.log = check, check.room / "calls"

    def run(self, case, inject=None, keep=False):
        """Runs a case under strace. With `keep` its folder stays as the last run has left it."""
        folder = self.check.room / "work"
        if not keep:
            put_files(self.check.folder(), case.files)
            for name in case.files:
                (folder / name).chmod(MODE)
        before = ["strace", "-o", str(self.log)] + (["-e", f"inject={inject}"] if inject else [])
        # The input is a file, of which each read gives what it is asked for.
        source = self.check.room / "input"
        source.write_bytes(case.data)
        with source.open("rb") as data:
            ended = self.check.run(case.words, folder=folder, before=before, stdin=data)
        modes = {it.name: it.lstat().st_mode for it in folder.iterdir()}
        shown = sorted(name for name, mode in modes.items() if stat.S_ISREG(mode) and mode & 0o077)
        return Seen(ended, files_of(folder), tuple(shown))

    def calls(self):
        """The calls of the last run from the program's own first one on."""
        calls, counts, begun = [], {}, False
        for text in self.log.read_text(errors="replace").splitlines():
            found = re.match(r"(\w+)\(", text)
            if found:
                name = found[1]
                counts[name] = counts.get(name, 0) + 1
                begun = begun or text.startswith(BEGINS)
                if begun:
                    calls.append(Call(name, counts[name], text))
        return calls

    def tries(self, case, names=ERRORS):
        """Makes each call of these names fail, and, where the case saves, kills it at each."""
        whole = self.run(case)
        calls = [call for call in self.calls() if names is ERRORS or call.name in names]
        is_good = whole.ended.code == case.code and calls
        self.check.expect(is_good, f"{case.name}: ends with {case.code}", *whole)
        is_kept = "a" not in case.files or not whole.shown
        self.check.expect(is_kept, f"{case.name}: nobody else may read it", whole.shown)
        for call in calls:
            for error in ERRORS.get(call.name, ()):
                seen = self.run(case, f"{call.name}:error={error}:when={call.number}")
                why = self.wrong(case, whole, call, error, seen)
                what = f"{case.name}: {error} at {call.text[:80]}: {why}"
                self.check.expect(why is None, what, seen.ended)
            if case.saves() and call.name != "exit_group":
                self.kill(case, whole, call)

    def wrong(self, case, whole, call, error, seen):
        """What is wrong with a run in which a call failed; none where nothing is."""
        if call.name == "write" and call.file() == 2:
            # The line alone is lost. The status is as it was.
            is_same = (seen.ended.code, seen.files) == (whole.ended.code, whole.files)
            return None if is_same else "another ending"
        if call.name == "write" and call.file() == 1 and case.code > 1:
            # What was refused is refused still: its output is worth nothing, and a fault changes no status.
            code, out, line = seen.ended
            is_same = code == case.code and line == whole.ended.line and seen.files == whole.files
            return None if is_same and whole.ended.out.startswith(out) else "another ending"
        if seen == whole:
            matters = error in NEVER_IGNORED.get(call.name, ()) and not PAGES.match(call.text)
            return "the error was ignored" if matters else None
        is_tidied_later = seen.ended == whole.ended and main_files(seen.files) == main_files(whole.files)
        if error == "EINTR" and call.name in AGAIN and not is_tidied_later:
            return "it was not tried again"
        return self.wrong_fault(case, whole, call, seen)

    def wrong_fault(self, case, whole, call, seen):
        """What is wrong with a run that ended otherwise."""
        code, out, line = seen.ended
        if code == case.code and (out, line) == whole.ended[1:]:
            # Nothing but what is left beside may differ, where what was there could not be taken away.
            is_same = call.name in TIDIES and main_files(seen.files) == main_files(whole.files)
            return None if is_same else "other files"
        wanted = {0: 10, 1: 11}.get(call.file()) if call.name in ("read", "write") else None
        if code not in ((wanted,) if wanted else (12, 20)) or line not in map(error_line, LINES[code]):
            return "another code or line"
        if not whole.ended.out.startswith(out):
            return "what was written is no prefix"
        # What was left over before may be gone.
        if main_files(seen.files) == main_files(case.files) and seen.files.items() <= case.files.items():
            return None
        is_last_step = call.name == "fsync" and code == 12 and seen.files == whole.files
        return None if is_last_step else "the file is not the old one, or something is left beside it"

    def kill(self, case, whole, call):
        """Kills a save at a call, and lets it run once more."""
        seen = self.run(case, f"{call.name}:signal=KILL:when={call.number}")
        beside = set(seen.files) - set(whole.files) - set(case.files)
        is_whole = main_files(seen.files) in (main_files(case.files), main_files(whole.files))
        self.check.expect(
            seen.ended.code in (-9, 137) and is_whole and all(map(LEFT_OVER.fullmatch, beside)),
            f"{case.name}: killed at {call.text}",
            seen.ended,
            sorted(seen.files),
        )
        is_hidden = "a" not in case.files or not seen.shown
        self.check.expect(is_hidden, f"{case.name}: killed at {call.text}: who may read it", seen.shown)
        again = self.run(case, keep=True)
        # A run that finds its change in the file writes nothing, and so leaves what is beside.
        is_same = main_files(again.files) == main_files(whole.files) and again.ended == whole.ended
        is_clean = again.files == whole.files or seen.files.get("a") == whole.files.get("a")
        self.check.expect(is_same and is_clean, f"{case.name}: again, after a kill at {call.text}", *again)

    def order(self, case):
        """Whether a save writes all, syncs, renames or links, and syncs the folder, in this order."""
        seen = self.run(case)
        names = ("openat", "write", "fsync", "rename", "link")
        texts = [call.text for call in self.calls() if call.name in names]
        new = next((opened(text) for text in texts if "O_CREAT" in text and ".a.zfpi-" in text), None)
        folders = [opened(text) for text in texts if text.startswith('openat(AT_FDCWD, ".",')]
        write, sync = re.compile(rf"write\({new}, .* = (\d+)$"), r"fsync\({}\) += 0"
        writes = [at for at, text in enumerate(texts) if write.match(text)]
        count = sum(int(write.match(texts[at])[1]) for at in writes)
        self.check.expect(count == len(seen.files["a"]), f"{case.name}: what is written", count)
        # The sync counts that comes behind the last write.
        at = max(writes, default=-1)
        steps = (sync.format(new), r"(rename|link)\(.*\) += 0", sync.format(f"({'|'.join(folders)})"))
        for step in steps:
            at = next((i for i in range(at + 1, len(texts)) if re.match(step, texts[i])), None)
            if at is None:
                break
        self.check.expect(at is not None, f"{case.name}: the steps of a save in their order", *texts)


def opened(text):
    """The number of the file that a call opened."""
    return text.rsplit(" = ", 1)[-1].split(" ")[0]


def main_files(files):
    """The files but those that a save leaves beside."""
    return {name: data for name, data in files.items() if not LEFT_OVER.fullmatch(name)}


def large_cases(check):
    """Calls that move 200 KB each way. Their first block is zeros."""
    rng, side = random.Random(check.seed), 224
    values = [0 if k % side < 4 and k < 4 * side else rng.randrange(-(2**31), 2**31) for k in range(side**2)]
    raw = b"".join(value.to_bytes(4, "little", signed=True) for value in values)
    shape = f"int32 {side}x{side}"
    stream = check.run(f"compress {shape} reversible".split(), raw).out
    array = check.run(f"compress {shape} rate 512".split(), raw).out
    gets = b"".join(b"get %d,%d\n" % (k % side, k * 7 % side) for k in range(18_000))
    return [
        Case("compress much", f"compress {shape} reversible".split(), raw),
        Case("restore much", ["restore"], stream),
        Case("new, much", f"new a {shape} 512".split()),
        Case("new over an old file, much", f"new a {shape} 512".split(), files={"a": array[:999]}),
        Case("run, much", ["run", "a"], SCRIPT[:-4] + gets, {"a": array}),
        Case("look, much", ["look", "s"], gets, {"s": stream}),
        Case("bound, much", ["bound", "a", "9"], files={"a": array}),
    ]


def main():
    check = Check(__doc__)
    faults = Faults(check)
    if shutil.which("strace") is None or faults.run(Case("none", ["frob"])).ended.code != 2:
        check.skip("all of it, since there is no strace, or it may not trace here")
        check.end()
    large = large_cases(check)
    for case in COMMANDS + large:
        if case.saves() and not case.name.endswith("changes nothing"):
            faults.order(case)
        faults.tries(case, MOVES if check.quick and case in large else ERRORS)
    check.end()


if __name__ == "__main__":
    main()
