#!/usr/bin/env python3
"""Saves beside neighbours who mean no good: others' files, claims, locks, links and rights.

    python3 check/neighbours.py [PROGRAM] [--seed N] [--quick]

Needs Linux, and root for what other users do: else that is left out. What needs a C compiler is left
out where there is none. Users and groups are numbers that nobody has.
"""

import fcntl
import os
import shutil
import stat
import subprocess
import time

from preload import Preload
from shared import Check, error_line, files_of

OWNER, SAVER, STRANGER, GROUP = 61001, 61002, 61234, 62000
ARRAY = b"zfp\x05\x70\0\0\0\0\0\xf0\x03" + bytes(20)
CHANGE = b"set 0 8192\n"
SAVE_FAULT = (12, error_line("save fault"))
GOOD = (0, b"")
MANY = 101
# A save that waits for another one gives that half a second.
SOON = 5


class Neighbours:
    """A folder in which everyone may write, and the program for everyone."""

    def __init__(self, check):
        self.check, self.is_root = check, os.geteuid() == 0
        check.room.chmod(0o755)
        self.program = str(check.room / "zfpi")
        shutil.copy(check.program, self.program)
        os.chmod(self.program, 0o755)
        self.fresh()

    def fresh(self, mode=0o777, owner=0):
        self.folder = self.check.folder()
        if self.is_root:
            os.chown(self.folder, owner, 0)
        self.folder.chmod(mode)
        return self.folder

    def put(self, name, data=ARRAY, mode=0o644, owner=None, group=None):
        file = self.folder / name
        file.write_bytes(data)
        if self.is_root:
            os.chown(file, owner or 0, group or owner or 0)
        file.chmod(mode)
        return file

    def start(self, words, user=None, groups=(), before=(), **streams):
        who = {"user": user, "group": user, "extra_groups": groups} if user else {}
        streams = {"stdin": subprocess.PIPE, "stdout": subprocess.PIPE, "stderr": subprocess.PIPE, **streams}
        return subprocess.Popen([*before, self.program, *words.split()], cwd=self.folder, **streams, **who)

    def ends(self, shows, words, ending, data=CHANGE, seconds=60, **how):
        """Runs the program once, whose code and line have to be these, within so many seconds."""
        begun = time.monotonic()
        run = self.start(words, **how)
        try:
            _, line = run.communicate(data, timeout=60)
        except subprocess.TimeoutExpired:
            run.kill()
            _, line = run.communicate()
        took = time.monotonic() - begun
        seen = (run.returncode, line)
        self.check.expect(seen == ending and took < seconds, f"{shows}: {words}", *seen, f"{took:.1f} s")

    def kept(self, shows, names):
        there = sorted(entry.name for entry in self.folder.iterdir())
        self.check.expect(there == sorted(names), f"{shows}: which files there are", there)


def names_of_others(neighbours):
    """A name alone makes no file a leftover: others' files stay, whatever they are called."""
    text = b"mine\n"
    names = [".data.new", ".data.new42", ".data.zfpi-0123456789abcdef", ".data.zfpi-000000000000000", ".zfpi"]
    names += [".data.zfpi@" + "0" * 32, ".data.zfpi-0123456789abcdeF", ".other.zfpi-0123456789abcdef"]
    for name in names:
        neighbours.put(name, text)
    neighbours.ends("others' files", "new data int32 16 64", GOOD, b"")
    neighbours.ends("others' files", "run data", GOOD)
    neighbours.kept("others' files", ["data", *names])
    files = files_of(neighbours.folder)
    neighbours.check.expect(all(files.get(name) == text for name in names), "others' files: what they hold", files)


def lay(folder, kind, name):
    """Lays something of a kind down under a name."""
    path = folder / name
    match kind:
        case "link to nothing":
            path.symlink_to("nowhere")
        case "link to no text":
            os.symlink(b"\xff\xfe", path)
        case "link to a file":
            path.symlink_to("victim")
        case "file":
            path.write_bytes(b"x\n")
        case "pipe":
            os.mkfifo(path)
        case "folder":
            path.mkdir()


def crowds(neighbours):
    """A hundred things that are called as a save's files or claims hinder no save, and stay."""
    for kind in ("link to nothing", "link to no text", "link to a file", "file", "pipe", "folder"):
        folder = neighbours.fresh()
        neighbours.put("victim", b"victim\n")
        number = f"{neighbours.put('a').stat().st_ino:016x}"
        names = [".a.new", *(f".a.new{k:02}" for k in range(MANY - 1))]
        names += [name for k in range(MANY) for name in (f".a.zfpi-{k:016x}", f".a.zfpi@{k:016x}{number}")]
        for name in names:
            lay(folder, kind, name)
        neighbours.ends(f"many of the kind {kind}", "run a", GOOD, seconds=SOON)
        neighbours.ends(f"many of the kind {kind}", "new a int32 8 64", GOOD, b"", seconds=SOON)
        neighbours.kept(f"many of the kind {kind}", ["a", "victim", *names])
        same = (folder / "victim").read_bytes() == b"victim\n"
        neighbours.check.expect(same, f"many of the kind {kind}: what a link leads to")


def sticky(neighbours):
    """In a folder where owners alone rename, a stranger's files and claims hinder no save."""
    folder = neighbours.fresh(0o1777)
    file = neighbours.put("a", owner=OWNER, mode=0o666)
    number = f"{file.stat().st_ino:016x}"
    for k in range(MANY):
        for name in (f".a.new{k:02}", f".a.zfpi-{k:016x}"):
            neighbours.put(name, b"x\n", owner=STRANGER)
        claim = folder / f".a.zfpi@{k:016x}{number}"
        claim.symlink_to(f".a.zfpi-{k:016x}")
        os.lchown(claim, STRANGER, STRANGER)
    neighbours.ends("a stranger's claims", "run a", GOOD, user=OWNER, seconds=SOON)
    neighbours.ends("who owns neither file nor folder", "run a", SAVE_FAULT, b"set 0 4096\n", user=SAVER)


def dead_saves(neighbours):
    """Saves that were killed hinder no later one, with locks as over NFS, without locks, and under any umask."""
    preload = Preload(neighbours.check)
    places = [({}, 0o022, True), ({}, 0o777, False)]
    if preload.is_built():
        places += [({"STRICT_LOCKS": 1}, 0o022, True), ({"NO_LOCKS": 1}, 0o022, False)]
    for settings, mask, is_swept in places:
        shows = f"{MANY} killed saves, {settings}, umask {mask:o}"
        folder = neighbours.fresh(owner=OWNER if neighbours.is_root else 0)
        who = {"user": OWNER} if neighbours.is_root else {}
        env = {**os.environ, **(preload.settings(**settings) if settings else {})}
        how = {**who, "env": env, "umask": mask}
        file = neighbours.put("a", mode=0o644, owner=OWNER)
        for k in range(2 if is_swept else MANY):
            stopped = ["strace", "-o", "/dev/null", "-e", "inject=fsync:signal=KILL:when=1"]
            run = neighbours.start("run a", before=stopped, **how)
            run.communicate(f"set 0 {1024 * (k + 1)}\n".encode())
        is_killed = run.returncode in (-9, 137)
        neighbours.check.expect(is_killed, f"{shows}: they are killed", run.returncode)
        neighbours.ends(shows, "run a", GOOD, seconds=SOON, **how)
        if is_swept:
            neighbours.kept(shows, ["a"])
            continue
        for entry in folder.iterdir():
            if entry != file:
                os.utime(entry, (time.time() - 200_000,) * 2)
        neighbours.ends(f"{shows}, two days on", "run a", GOOD, b"set 0 2048\n", **how)
        if mask == 0o022:
            neighbours.kept(f"{shows}, two days on", ["a"])


def locks_of_readers(neighbours):
    """Who may only read the folder and its files hinders no save by locks."""
    folder = neighbours.fresh(0o755)
    neighbours.put("a")
    for name in (".", "a"):
        for kind in (fcntl.LOCK_SH, fcntl.LOCK_EX):
            locked = os.open(folder / name, os.O_RDONLY)
            fcntl.flock(locked, kind)
            change = f"set 0 {1024 * (2 + kind)}\n".encode()
            neighbours.ends(f"a lock of {name}", "run a", GOOD, change, seconds=SOON)
            neighbours.ends(f"a lock of {name}", "new b int32 8 64", GOOD, b"", seconds=SOON)
            (folder / "b").unlink(missing_ok=True)
            os.close(locked)


def stuck_save(neighbours):
    """A save that is stuck hinders no other array, its own one for a moment, and ends as it has to."""
    neighbours.fresh()
    neighbours.put("a")
    neighbours.put("b")
    stuck = ["strace", "-o", "/dev/null", "-e", "inject=rename:delay_enter=4000000"]
    run = neighbours.start("run a", before=stuck)
    run.stdin.write(b"set 0 1024\n")
    run.stdin.close()
    run.stdin = None
    time.sleep(1)
    neighbours.ends("beside a save that is stuck", "run b", GOOD, seconds=2)
    neighbours.ends("behind a save that is stuck", "run a", GOOD, seconds=SOON)
    _, line = run.communicate(timeout=60)
    neighbours.check.expect((run.returncode, line) == SAVE_FAULT, "a save that was stuck", run.returncode, line)
    seen = neighbours.check.run(["look", "a"], b"get 0\n", neighbours.folder)
    neighbours.check.expect(seen == (0, b"8192\n", b""), "the later change stays", seen)
    neighbours.kept("a save that was stuck", ["a", "b"])


def without_links(neighbours):
    """Where a system has no links, saves agree by files."""
    preload = Preload(neighbours.check)
    if not preload.is_built():
        return
    folder = neighbours.fresh()
    env = {**os.environ, **preload.settings(NO_LINKS=1)}
    neighbours.ends("no links", "new a int32 16 64", GOOD, b"", env=env)
    neighbours.ends("no links", "run a", GOOD, env=env)
    neighbours.ends("no links", "new a int32 16 64", GOOD, b"", env=env)
    neighbours.kept("no links", ["a"])
    # What killed saves leave there: a claim with no name, one whose file is gone, and one whose file lies there.
    number = f"{(folder / 'a').stat().st_ino:016x}"
    (folder / f".a.zfpi@{0:016x}{number}").write_bytes(b"")
    (folder / f".a.zfpi@{1:016x}{number}").write_bytes(b".a.zfpi-0123456789abcdef")
    (folder / f".a.zfpi@{2:016x}{number}").write_bytes(b".a.zfpi-ffffffffffffffff")
    (folder / ".a.zfpi-ffffffffffffffff").write_bytes(b"")
    neighbours.ends("no links, and killed saves", "run a", GOOD, seconds=SOON, env=env)
    neighbours.kept("no links, and killed saves", ["a"])


def rights(neighbours):
    """Nobody may read or write the new file who might not do that with the old one."""
    for mode in (0o604, 0o666, 0o646, 0o444, 0o606, 0o664):
        neighbours.fresh()
        file = neighbours.put("a", mode=mode, owner=OWNER, group=GROUP)
        neighbours.ends(f"mode {mode:o}, by another user", "run a", GOOD, user=SAVER)
        now = file.stat()
        both = mode >> 3 & mode & 7
        seen = (now.st_uid, now.st_gid, stat.S_IMODE(now.st_mode))
        wanted = (SAVER, SAVER, mode & 0o700 | both << 3 | both)
        neighbours.check.expect(seen == wanted, f"mode {mode:o}, by another user", seen, wanted)
    for mode, wanted in ((0o660, 0o660), (0o640, 0o640), (0o464, 0o444), (0o646, 0o646)):
        neighbours.fresh()
        file = neighbours.put("a", mode=mode, owner=OWNER, group=GROUP)
        neighbours.ends(f"mode {mode:o}, by one of the group", "run a", GOOD, user=SAVER, groups=[GROUP])
        now = file.stat()
        seen = (now.st_uid, now.st_gid, stat.S_IMODE(now.st_mode))
        neighbours.check.expect(seen == (SAVER, GROUP, wanted), f"mode {mode:o}, by one of the group", seen)


def readable_meanwhile(neighbours):
    """Until its mode is set, the new file is its owner's alone."""
    for words, data in (("run a", CHANGE), ("new a int32 16 64", b"")):
        folder = neighbours.fresh()
        neighbours.put("a", mode=0o644)
        # It is stopped once, where its bytes are there, before it gets group, owner and mode.
        killed = ["strace", "-o", "/dev/null", "-e", "inject=fchmod:signal=KILL:when=1"]
        neighbours.start(words, before=killed).communicate(data)
        modes = [oct(stat.S_IMODE(it.stat().st_mode)) for it in folder.glob(".a.zfpi-*")]
        neighbours.check.expect(modes == ["0o600"], f"{words}: the mode of a new file", modes)


def links_of_strangers(neighbours):
    """A link that belongs to another user than the caller and the folder's owner is not saved through."""
    folder = neighbours.fresh()
    neighbours.put("t", mode=0o666)
    for name, target, owner in (("k", "t", STRANGER), ("own", "t", 0), ("behind", "k", 0)):
        (folder / name).symlink_to(target)
        os.lchown(folder / name, owner, owner)
    for name in ("k", "behind"):
        for words in (f"run {name}", f"new {name} int32 8 64"):
            neighbours.ends("a stranger's link", words, SAVE_FAULT)
        seen = neighbours.check.run(["look", name], b"get 0\n", folder)
        neighbours.check.expect(seen == (0, b"0\n", b""), "a stranger's link is read through", seen)
    neighbours.check.expect((folder / "t").read_bytes() == ARRAY, "a stranger's link: the file stays")
    neighbours.ends("a link of the caller", "run own", GOOD)
    os.chown(folder, STRANGER, STRANGER)
    neighbours.ends("a link of the folder's owner", "run k", GOOD, b"set 0 1024\n")


def long_names(neighbours):
    """A name of as many bytes as one may have is saved, behind a link too."""
    folder = neighbours.fresh()
    for length in (200, 201, 231, 254, 255):
        for letter in ("b", "\u00e9"):
            name = letter * (length // len(letter.encode()))
            (folder / name).write_bytes(ARRAY)
            (folder / "k").symlink_to(name)
            neighbours.ends(f"a name of {length} bytes", "run k", GOOD)
            neighbours.kept(f"a name of {length} bytes", [name, "k"])
            (folder / name).unlink()
            (folder / "k").unlink()


def pipe_for_a_file(neighbours):
    """A pipe under the name of an array is refused at once."""
    folder = neighbours.fresh()
    os.mkfifo(folder / "p")
    neighbours.ends("a pipe", "run p", (12, error_line("load fault")), seconds=SOON)
    neighbours.ends("a pipe", "new p int32 8 64", SAVE_FAULT, b"", seconds=SOON)


PARTS = (names_of_others, crowds, locks_of_readers, without_links, long_names, pipe_for_a_file)
AS_ROOT = (sticky, rights, links_of_strangers)
TRACED = (dead_saves, stuck_save, readable_meanwhile)


def main():
    check = Check(__doc__)
    parts = list(PARTS)
    if os.geteuid() == 0:
        parts += AS_ROOT
    else:
        check.skip("what other users do (not started as root)")
    if shutil.which("strace"):
        parts += TRACED
    else:
        check.skip("saves that are killed or stuck, since there is no strace")
    for part in parts:
        part(Neighbours(check))
    check.end()


if __name__ == "__main__":
    main()
