#!/usr/bin/env python3
"""Runs the program on streams that are closed, full or cut, on files of all kinds, and within limits.

    python3 check/devices.py [PROGRAM] [--seed N] [--quick]

Needs Linux (`/dev/full`). Started as root, it runs the program as nobody, since no file is
unreadable to root, and fills a small file system of its own; else that case is left out. Quick
leaves out the saves of large files.
"""

import contextlib
import os
import pathlib
import pty
import resource
import shutil
import signal
import stat
import subprocess
import threading
import time
import tty

from definition.commands import answer
from shared import Check, error_line

NOBODY = 65534
ZERO = b"zfp\x05\0\0\0\0\0\0\0\x88\0\0\0\0"
ARRAY = b"zfp\x05\x70\0\0\0\0\0\xf0\x03" + bytes(20)
SCRIPT = b"set 0 7\nget 0\n"
CHANGE = b"set 0 8192\n"
LOOK = b"get 0\n"
# What killed saves of the file `a` leave.
LEFT_OVER = {
    ".a.zfpi-0000000000000000": ARRAY,
    ".a.zfpi-0123456789abcdef": ARRAY[:7],
    ".a.zfpi-ffffffffffffffff": b"",
}
MOST_FILE_BYTES = 1_200_000_000
# What goes through a command where its first pieces are not all of it.
MUCH = 204_800
LONGER = "input is longer than the shape"
# How often what lasts some milliseconds is looked for.
MOST_TRIES = 20
SAVE_FAULT, LOAD_FAULT = (12, "save fault"), (12, "load fault")
READ_FAULT, WRITE_FAULT = (10, "read fault"), (11, "write fault")
GOOD = (0, "")


class Devices:
    """Runs the program in a folder that is its own, as someone to whom files can be refused."""

    def __init__(self, check):
        self.check = check
        check.room.chmod(0o755)
        self.folder = check.folder()
        self.who = {"user": NOBODY, "group": NOBODY, "extra_groups": []} if os.geteuid() == 0 else {}
        self.program = str(check.room / "zfpi")
        shutil.copy(check.program, self.program)
        os.chmod(self.program, 0o755)
        self.own(self.folder)
        self.folder.chmod(0o777)

    def own(self, path):
        if self.who:
            os.chown(path, NOBODY, NOBODY)

    def start(self, words, folder=None, **streams):
        command = [self.program, *words.split()]
        streams = {"cwd": folder or self.folder, "stderr": subprocess.PIPE, **streams}
        return subprocess.Popen(command, **streams, **self.who)

    def ends(self, shows, words, ending, data=b"", out=None, folder=None, **streams):
        """Runs the program once. The code, the line and what it writes have to be these."""
        streams.setdefault("stdin", subprocess.PIPE)
        streams.setdefault("stdout", subprocess.PIPE)
        run = self.start(words, folder, **streams)
        written, told = finished(run, data if streams["stdin"] == subprocess.PIPE else None)
        same = (run.returncode, told) == (ending[0], error_line(ending[1]))
        self.check.expect(same and out in (None, written), f"{shows}: {words}", run.returncode, told, written)

    def has(self, shows, name, data):
        file = self.folder / name
        self.check.expect(file.is_file() and file.read_bytes() == data, f"{shows}: what {name} holds")

    def put(self, name, data, mode=0o666):
        file = self.folder / name
        file.write_bytes(data)
        file.chmod(mode)
        self.own(file)
        return file

    def nothing_beside(self, shows, folder=None):
        left = sorted(entry.name for entry in (folder or self.folder).iterdir() if entry.name.startswith("."))
        self.check.expect(not left, f"{shows}: nothing is left beside", left)


def finished(run, data, seconds=60):
    """What a run wrote and told. One that hangs is killed."""
    try:
        return run.communicate(data, timeout=seconds)
    except BrokenPipeError:
        return b"", run.stderr.read()
    except subprocess.TimeoutExpired:
        run.kill()
        return run.communicate()


def closing(number):
    """What closes a stream of the program before it starts."""
    return lambda: os.close(number)


def inputs(devices):
    """Inputs that are closed, no stream of bytes, or end early."""
    for words, out in (("compress int32 1 reversible", ZERO[:8]), ("restore", b""), ("info", b"")):
        devices.ends("input closed", words, READ_FAULT, stdin=None, preexec_fn=closing(0), out=out)
        folder = os.open(devices.folder, os.O_RDONLY)
        devices.ends("input a folder", words, READ_FAULT, stdin=folder, out=out)
        os.close(folder)
    devices.put("a", ARRAY)
    folder = os.open(devices.folder, os.O_RDONLY)
    devices.ends("script a folder", "run a", READ_FAULT, stdin=folder, out=b"")
    os.close(folder)
    # The array is no script, though its file is opened when the number of the input is free.
    for words in ("run a", "look a"):
        devices.ends("script closed", words, READ_FAULT, stdin=None, preexec_fn=closing(0), out=b"")
    devices.has("script a folder", "a", ARRAY)
    short = (3, "input ends after 0 bytes")
    devices.ends("nothing comes", "compress int32 1 reversible", short, stdin=subprocess.DEVNULL)
    short = (3, "input ends after 3 bytes")
    devices.ends("a pipe ends early", "compress int32 1 reversible", short, bytes(3))
    devices.ends("a stream ends early", "restore", (4, "header: short"), ZERO[:11], out=b"")


def closed_where_nothing_is_read(devices):
    """An input that is closed is no script, also in a folder that may not be read."""
    devices.put("a", ARRAY)
    devices.folder.chmod(0o311)
    for words in ("run a", "look a"):
        devices.ends("script closed", words, READ_FAULT, stdin=None, preexec_fn=closing(0), out=b"")
    devices.folder.chmod(0o777)
    devices.has("script closed", "a", ARRAY)


def what_info_leaves(devices):
    """`info` reads 19 bytes and no more."""
    reader, writer = os.pipe()
    os.write(writer, ZERO + b"behind it")
    os.close(writer)
    devices.ends("what info leaves", "info", GOOD, stdin=reader)
    left = os.read(reader, 100)
    os.close(reader)
    devices.check.expect(left == b"ind it", "info reads 19 bytes and no more", left)


def outputs(devices):
    """Outputs that are closed, full, or close while they are written."""
    devices.put("a", ARRAY)
    calls = [("compress int32 1 reversible", bytes(4)), ("sample int32 4 1 reversible", b"")]
    calls += [(words, ZERO) for words in ("restore", "restore int8", "info")]
    calls += [("run a", SCRIPT), ("look a", LOOK), ("bound a 9", b"")]
    for words, data in calls:
        devices.ends("output closed", words, WRITE_FAULT, data, stdout=None, preexec_fn=closing(1))
        with open("/dev/full", "wb") as full:
            devices.ends("output full", words, WRITE_FAULT, data, stdout=full)
    devices.has("output full", "a", ARRAY)
    with open("/dev/full", "wb") as full:
        run = subprocess.run([devices.program, "frob"], stderr=full, check=False)
    devices.check.expect(run.returncode == 2, "error output full", run.returncode)
    run = subprocess.run([devices.program, b"\xff\xfe"], capture_output=True, check=False)
    devices.check.expect((run.returncode, run.stderr) == (22, b""), "words that are no UTF-8", run)


def large_inputs(devices):
    """Inputs that fail behind their first 4 KiB and 64 KiB: what came before is not taken for all of them."""
    try:
        for end in pty.openpty():
            os.close(end)
    except OSError:
        devices.check.skip("inputs that fail behind 4 KiB and 64 KiB (no terminal can be made)")
        return
    raw = os.urandom(MUCH)
    stream = devices.check.run(f"compress int32 {MUCH // 4} reversible".split(), raw).out
    gets = b"get 0\n" * 60_000
    calls = ((f"compress int32 {MUCH // 4} reversible", raw), ("restore", stream), ("look a", gets))
    calls += (("run a", b"set 0 7\n" + gets), ("compress int32 1024 reversible", raw))
    devices.put("a", ARRAY)
    for words, data in calls:
        for count in (1, 4095, 4097, 65_535, 65_537, 150_001):
            failing_input(devices, f"the input fails behind {count} bytes", words, data[:count])
    devices.has("the input fails", "a", ARRAY)
    devices.nothing_beside("the input fails")


def failing_input(devices, shows, words, data):
    """Runs the program on a terminal's far end, which gives these bytes and then an error."""
    source, near = pty.openpty()
    tty.setraw(near)
    run = devices.start(words, stdin=source, stdout=subprocess.PIPE)
    os.close(source)
    drain = threading.Thread(target=finish_into, args=(run, ending := []))
    drain.start()
    with contextlib.suppress(OSError):
        left = data
        while left:
            left = left[os.write(near, left[:4000]) :]
    os.close(near)
    drain.join()
    written, told = ending[0]
    # An input that was longer than the shape is refused before it fails.
    wanted = [READ_FAULT] if len(data) <= 4096 or "1024" not in words else [READ_FAULT, (3, LONGER)]
    seen = (run.returncode, told)
    is_wanted = seen in [(code, error_line(line)) for code, line in wanted]
    is_nothing = written == b"" or not words.startswith(("look", "run"))
    devices.check.expect(is_wanted and is_nothing, f"{shows}: {words}", *seen, len(written))


def finish_into(run, ending):
    ending.append(finished(run, None))


def large_outputs(devices):
    """Outputs that fill up behind their first 4 KiB and 64 KiB."""
    raw, limit = os.urandom(MUCH), {"restore_signals": False}
    stream = devices.check.run(f"compress int32 {MUCH // 4} reversible".split(), raw).out
    array = devices.check.run(f"compress int32 {MUCH // 4} rate 160".split(), raw).out
    script = b"set 0 7\n" + b"".join(b"get %d\n" % (k * 3 % (MUCH // 4)) for k in range(30_000))
    file = devices.put("o", b"")
    calls = ((f"compress int32 {MUCH // 4} reversible", raw), ("restore", stream))
    for words, data in calls + (("run a", script), ("look a", script[8:])):
        devices.put("a", array)
        whole = devices.check.run(words.split(), data, devices.folder).out
        devices.put("a", array)
        devices.check.expect(len(whole) > MUCH * 9 // 10, f"{words} writes {len(whole)} bytes")
        for most in (4096, 5000, 65_536, 70_000, 131_072, 150_000):
            shows = f"an output of {most} bytes"
            with file.open("wb") as out:
                limit["preexec_fn"] = limit_of_files(most)
                devices.ends(shows, words, WRITE_FAULT, data, stdout=out, **limit)
            devices.has(f"{shows}: {words}", "o", whole[:most])
            devices.has(f"{shows}: {words}", "a", array)
    devices.nothing_beside("large outputs")


def broken_pipe(devices):
    """A reader that leaves: the run ends at once, by its status or by the system's signal."""
    reader, writer = os.pipe()
    run = devices.start("compress int32 4194304 reversible", stdin=subprocess.PIPE, stdout=writer)
    os.close(writer)
    os.close(reader)
    _, told = finished(run, os.urandom(4 * 4194304))
    ending = (run.wait(), told)
    wanted = ((11, error_line("write fault")), (-signal.SIGPIPE, b""))
    devices.check.expect(ending in wanted, "a reader that leaves", ending)


def names(devices):
    """Names that are no plain files or may not be read, and a folder in which nothing may be written."""
    (devices.folder / "d").mkdir()
    os.mkfifo(devices.folder / "p")
    (devices.folder / "l").symlink_to("nothing")
    (devices.folder / "z").symlink_to("/dev/zero")
    for shows, name in (("a folder", "d"), ("a pipe", "p"), ("a link to nothing", "l"), ("a device", "z")):
        devices.ends(shows, f"run {name}", LOAD_FAULT, SCRIPT, out=b"")
        devices.ends(shows, f"look {name}", LOAD_FAULT, LOOK, out=b"")
        devices.ends(shows, f"bound {name} 9", LOAD_FAULT, out=b"")
        devices.ends(shows, f"new {name} int32 4 64", SAVE_FAULT, out=b"")
    kinds = [stat.S_IFMT((devices.folder / name).lstat().st_mode) for name in "dplz"]
    same = kinds == [stat.S_IFDIR, stat.S_IFIFO, stat.S_IFLNK, stat.S_IFLNK]
    devices.check.expect(same and not (devices.folder / "nothing").exists(), "they are what they were", kinds)
    devices.put("u", ARRAY, mode=0)
    devices.ends("an unreadable file", "run u", LOAD_FAULT, SCRIPT, out=b"")
    devices.ends("no such name", "run nosuch", (7, "no such file"), SCRIPT, out=b"")
    devices.nothing_beside("names that are refused")
    devices.put("a", ARRAY)
    devices.folder.chmod(0o555)
    shows = "a folder that may not be written"
    devices.ends(shows, "new n int32 4 64", SAVE_FAULT, out=b"")
    devices.ends(shows, "run a", SAVE_FAULT, SCRIPT, out=b"7\n")
    devices.ends(shows, "run a", GOOD, b"get 0\n", out=b"0\n")
    devices.folder.chmod(0o777)
    devices.has(shows, "a", ARRAY)
    devices.check.expect(not (devices.folder / "n").exists(), shows)


def folders_not_to_be_read(devices):
    """In a folder that may be written and not read a save fails, and nothing else does; in one that may not
    be entered nothing is found."""
    devices.put("a", ARRAY)
    shows = "a folder that may not be read"
    devices.folder.chmod(0o311)
    devices.ends(shows, "look a", GOOD, LOOK, out=b"0\n")
    devices.ends(shows, "bound a 9", GOOD)
    devices.ends(shows, "run a", GOOD, b"get 0\n", out=b"0\n")
    devices.ends(shows, "run a", SAVE_FAULT, SCRIPT, out=b"7\n")
    devices.ends(shows, "new a int32 8 64", GOOD, out=b"")
    devices.ends(shows, "new a int32 16 64", SAVE_FAULT, out=b"")
    devices.ends(shows, "new n int32 8 64", SAVE_FAULT, out=b"")
    devices.folder.chmod(0o666)
    shows = "a folder that may not be entered"
    devices.ends(shows, "look a", LOAD_FAULT, LOOK, out=b"")
    devices.ends(shows, "run a", LOAD_FAULT, SCRIPT, out=b"")
    devices.ends(shows, "new a int32 16 64", SAVE_FAULT, out=b"")
    devices.folder.chmod(0o777)
    devices.has(shows, "a", ARRAY)
    devices.check.expect(not (devices.folder / "n").exists(), shows)
    devices.nothing_beside("folders that may not be read")


def kinds_of_file(devices):
    """What else a file is, and what is left beside it."""
    for mode in (0o640, 0o600, 0o444):
        file = devices.put("a", ARRAY, mode)
        for name, data in LEFT_OVER.items():
            devices.put(name, data, 0o600)
        devices.ends("what was left is no hindrance", "run a", GOOD, SCRIPT)
        devices.nothing_beside("what was left")
        is_kept = file.stat().st_mode & 0o7777 == mode and file.read_bytes() != ARRAY
        devices.check.expect(is_kept, f"mode {mode:o} stays", oct(file.stat().st_mode))
    devices.ends("new keeps the mode", "new a int32 8 64", GOOD)
    mode = file.stat().st_mode & 0o7777
    devices.check.expect(mode == 0o444, "new keeps the mode", oct(mode))
    was = file.stat()
    devices.ends("nothing changes", "run a", GOOD, b"get 0\n")
    now = file.stat()
    same = (now.st_ino, now.st_mtime_ns) == (was.st_ino, was.st_mtime_ns)
    devices.check.expect(same, "a file that does not change is not written", was, now)


def owners(devices):
    """A first file has the mode that the system's mask leaves; of another's file owner and group stay."""
    masked = {"preexec_fn": lambda: os.umask(0o027)}
    devices.ends("a first file", "new m int32 8 64", GOOD, **masked)
    mode = (devices.folder / "m").stat().st_mode & 0o7777
    devices.check.expect(mode == 0o640, "the mode of a first file", oct(mode))
    if not devices.who:
        devices.check.skip("owner and group of another's file (not started as root)")
        return
    file = devices.put("a", ARRAY, 0o640)
    os.chown(file, 1234, 2345)
    ended = devices.check.run(["run", "a"], CHANGE, devices.folder)
    now = file.stat()
    same = (ended.code, now.st_uid, now.st_gid, now.st_mode & 0o7777) == (0, 1234, 2345, 0o640)
    devices.check.expect(same and file.read_bytes() != ARRAY, "owner and group stay", ended, now)


def links(devices):
    """A link is followed; of two names of one file the new array has the name of the run alone."""
    below = devices.folder / "below"
    below.mkdir()
    devices.own(below)
    devices.put("below/b", ARRAY, 0o600)
    link = devices.folder / "k"
    link.symlink_to("below/b")
    devices.ends("a link", "run k", GOOD, CHANGE)
    devices.check.expect(link.is_symlink(), "the link is one still")
    devices.ends("what a link leads to", "look b", GOOD, LOOK, out=b"8192\n", folder=below)
    devices.nothing_beside("a link")
    devices.nothing_beside("a link", below)
    devices.ends("new through a link", "new k int32 8 64", GOOD)
    devices.has("new through a link", "below/b", ARRAY)
    devices.put("h", ARRAY)
    os.link(devices.folder / "h", devices.folder / "other")
    devices.ends("a file of two names", "run h", GOOD, CHANGE)
    devices.ends("the name of the run", "look h", GOOD, LOOK, out=b"8192\n")
    devices.has("the other name", "other", ARRAY)


def meanwhile(devices, shows, data, ending, change):
    """A run that has loaded `a`, and gets its script once something else was done to that."""
    run = devices.start("run a", stdin=subprocess.PIPE, stdout=subprocess.PIPE)
    while run.poll() is None and not has_open(run.pid, devices.folder / "a"):
        time.sleep(0.001)
    time.sleep(0.1)
    change()
    _, told = finished(run, data)
    same = (run.returncode, told) == (ending[0], error_line(ending[1]))
    devices.check.expect(same, shows, run.returncode, told)


def changed(devices, shows, data, ending, other):
    """A run that has loaded `a`, and gets its script once another run has changed it."""
    meanwhile(devices, shows, data, ending, lambda: devices.ends("another run", "run a", GOOD, other))


def has_open(process, file):
    try:
        return any(os.path.realpath(it) == str(file) for it in pathlib.Path(f"/proc/{process}/fd").iterdir())
    except OSError:
        return False


def two_at_once(devices):
    """A run whose file another one changes while it waits for its script."""
    devices.put("a", ARRAY)
    changed(devices, "a run that comes later", b"set 0 4096\n", SAVE_FAULT, b"set 0 1024\n")
    devices.ends("the first change stays", "look a", GOOD, LOOK, out=b"1024\n")
    changed(devices, "a run that only reads", b"get 0\n", GOOD, b"set 0 2048\n")
    devices.ends("the first change stays", "look a", GOOD, LOOK, out=b"2048\n")
    devices.nothing_beside("two runs at once")


def touched_in_place(devices):
    """What was written into the file is found, also where its time was put back; a new mode is no change."""
    file = devices.put("a", ARRAY)
    other, was = answer(["run", "a"], CHANGE, {"a": ARRAY}).files["a"], file.stat()

    def write_in_place():
        file.write_bytes(other)
        os.utime(file, ns=(was.st_atime_ns, was.st_mtime_ns))

    meanwhile(devices, "written in place", b"set 0 4096\n", SAVE_FAULT, write_in_place)
    devices.has("written in place", "a", other)
    meanwhile(devices, "another mode", b"set 0 4096\n", GOOD, lambda: file.chmod(0o640))
    second = devices.folder / "second"
    meanwhile(devices, "a second name", b"set 0 2048\n", GOOD, lambda: os.link(file, second))
    devices.ends("a second name", "look a", GOOD, LOOK, out=b"2048\n")
    devices.nothing_beside("touched in place")


def limit_of_files(most):
    """Lets no file grow beyond this. A write that goes on there ends a process that does not look before."""

    def limit():
        signal.signal(signal.SIGXFSZ, signal.SIG_DFL)
        resource.setrlimit(resource.RLIMIT_FSIZE, (most, most))
        resource.setrlimit(resource.RLIMIT_CORE, (0, 0))

    return limit


def outputs_within_limits(devices):
    """An output beyond the limit of a file's length is a write fault, and one that is no file has none."""
    raw = os.urandom(MUCH)
    stream = devices.check.run(f"compress int32 {MUCH // 4} reversible".split(), raw).out
    file = devices.put("o", b"")
    for most in (0, 1, 5000, 65536, 150_000, len(raw) - 1, len(raw)):
        limited = {"preexec_fn": limit_of_files(most), "restore_signals": False}
        shows, ending = f"files of {most} bytes", GOOD if most == len(raw) else WRITE_FAULT
        with file.open("wb") as out:
            devices.ends(shows, "restore", ending, stream, stdout=out, **limited)
        devices.has(shows, "o", raw[:most])
        devices.ends(f"{shows}, and a pipe", "restore", GOOD, stream, out=raw, **limited)
        with open("/dev/null", "wb") as out:
            devices.ends(f"{shows}, and a device", "restore", GOOD, stream, stdout=out, **limited)
        file.write_bytes(bytes(most))
        with file.open("ab") as out:
            devices.ends(f"{shows}, and a full one", "restore", WRITE_FAULT, stream, stdout=out, **limited)
        devices.has(shows, "o", bytes(most))


def little_address_space(devices):
    """Where the system gives no more memory, a run says so, or does all its work."""
    large = "new a int32 1048576 64"
    devices.ends("a large array", large, GOOD)
    old = devices.folder / "a"
    whole = old.read_bytes()
    for most in range(3000, 12000, 500 if devices.check.quick else 50):

        def limit(most=most):
            resource.setrlimit(resource.RLIMIT_AS, (most * 1024, most * 1024))
            resource.setrlimit(resource.RLIMIT_CORE, (0, 0))

        run = devices.start("run a", stdin=subprocess.PIPE, stdout=subprocess.PIPE, preexec_fn=limit)
        written, told = finished(run, SCRIPT)
        # Below some size the system's loader does not come to the program, and ends with 127 or by a signal.
        unstarted = written == b"" and not told.startswith(b"zfpi") and run.returncode != 0
        is_refused = run.returncode in (12, 20) and told.startswith(b"zfpi")
        good = (run.returncode, written) == (0, b"7\n") or is_refused
        same = run.returncode == 0 or old.read_bytes() == whole
        what = f"address space of {most} KiB"
        devices.check.expect((good or unstarted) and same, what, run.returncode, told)
        if run.returncode == 0:
            devices.put("a", whole)


def full_places(devices):
    """Saves for which there is no room: the old file stands, and nothing is left beside it."""
    devices.put("a", ARRAY)
    limited = {"preexec_fn": limit_of_files(10_000), "restore_signals": False}
    devices.ends("no larger files", "new a int32 16384 64", SAVE_FAULT, **limited)
    devices.has("no larger files", "a", ARRAY)
    devices.nothing_beside("no larger files")
    devices.ends("no larger files", "run a", SAVE_FAULT, b"resize 16384\nset 0 1\n", **limited)
    devices.has("no larger files", "a", ARRAY)
    devices.nothing_beside("no larger files")
    limited = {"preexec_fn": limit_of_files(150_000), "restore_signals": False}
    devices.ends("no much larger files", "new a int32 131072 64", SAVE_FAULT, **limited)
    devices.ends("no much larger files", "run a", SAVE_FAULT, b"resize 131072\nset 0 1\n", **limited)
    devices.has("no much larger files", "a", ARRAY)
    devices.nothing_beside("no much larger files")
    disk = devices.check.folder("disk")
    mounted = ["mount", "-t", "tmpfs", "-o", "size=64k,mode=0777", "none", str(disk)]
    if not shutil.which("mount") or subprocess.run(mounted, capture_output=True, check=False).returncode != 0:
        devices.check.skip("a full disk and one that is only read (no file system can be mounted)")
        return
    try:
        on_disk(devices, disk)
    finally:
        subprocess.run(["umount", str(disk)], check=True)


def on_disk(devices, disk):
    """Saves on a disk that is too small, and on one that is only read."""
    devices.ends("a small disk", "new a int32 1024 64", GOOD, folder=disk)
    old = (disk / "a").read_bytes()
    devices.ends("a full disk", "new a int32 40960 64", SAVE_FAULT, folder=disk)
    devices.ends("a full disk", "new b int32 40960 64", SAVE_FAULT, folder=disk)
    with contextlib.suppress(OSError):
        (disk / "most").write_bytes(bytes(60 * 1024))
    devices.ends("a full disk", "run a", SAVE_FAULT, b"fill 9999\n", folder=disk)
    same = (disk / "a").read_bytes() == old and sorted(it.name for it in disk.iterdir()) == ["a", "most"]
    devices.check.expect(same, "a full disk: the old file stands, and nothing is left beside")
    subprocess.run(["mount", "-o", "remount,ro", str(disk)], check=True)
    devices.ends("a disk that is only read", "run a", SAVE_FAULT, b"fill 9999\n", folder=disk)
    devices.ends("a disk that is only read", "run a", GOOD, b"get 0\n", out=b"0\n", folder=disk)
    devices.check.expect((disk / "a").read_bytes() == old, "a disk that is only read")
    subprocess.run(["mount", "-o", "remount,rw", str(disk)], check=True)
    (disk / "most").unlink()
    outputs_on_disk(devices, disk)


def outputs_on_disk(devices, disk):
    """An output of 200 KB on a disk with room for less: what was written stays, and the fault is told."""
    raw = os.urandom(MUCH)
    stream = devices.check.run(f"compress int32 {MUCH // 4} reversible".split(), raw).out
    for words, data in (("restore", stream), (f"compress int32 {MUCH // 4} reversible", raw)):
        with (disk / "out").open("wb") as out:
            devices.ends("an output on a full disk", words, WRITE_FAULT, data, stdout=out)
        written, whole = (disk / "out").read_bytes(), raw if words == "restore" else stream
        same = whole.startswith(written) and len(written) > 16_384
        devices.check.expect(same, "what was written on a full disk", len(written))
        (disk / "out").unlink()


def long_files(devices):
    """A file that is longer than one may be is refused at once, whatever it begins with."""
    for length in (MOST_FILE_BYTES + 1, 9_000_000_000):
        file = devices.put("long", ARRAY)
        os.truncate(file, length)
        begun = time.monotonic()
        for words in ("run long", "look long", "bound long 9"):
            devices.ends(f"a file of {length} bytes", words, (9, "file too long"), LOOK, out=b"")
        took = time.monotonic() - begun
        devices.check.expect(took < 10, f"a file of {length} bytes is refused at once", took)
        file.unlink()


def lengths_beside(devices):
    """How long the files are that saves of `a` have beside it."""
    lengths = []
    for entry in devices.folder.glob(".a.zfpi-*"):
        with contextlib.suppress(OSError):
            lengths.append(entry.stat().st_size)
    return lengths


def killed(devices, words, data, old):
    """Starts a command that saves a large file, and kills it while it writes. Says whether a save was cut."""
    run = devices.start(words, stdin=subprocess.PIPE, stdout=subprocess.PIPE)
    run.stdin.write(data)
    run.stdin.close()
    while run.poll() is None and not any(length > 1 << 20 for length in lengths_beside(devices)):
        time.sleep(0.001)
    run.kill()
    run.wait()
    cut = bool(lengths_beside(devices))
    if cut:
        devices.has("a save that is killed", "a", old)
    return cut


def modes_meanwhile(devices):
    """Until it has the mode of the old file, the new one is nobody else's to read or to write."""
    file = devices.put("a", bytes(64), 0o600)
    modes = set()
    for _ in range(MOST_TRIES):
        file.write_bytes(b"old")
        run = devices.start("new a int32 524288 512", stdin=subprocess.DEVNULL)
        while run.poll() is None:
            for entry in devices.folder.glob(".a.zfpi-*"):
                with contextlib.suppress(OSError):
                    modes.add(oct(stat.S_IMODE(entry.stat().st_mode)))
        finished(run, None)
        if modes:
            break
    devices.check.expect(modes == {"0o600"}, "the mode of a new file while it is written", modes)
    mode = stat.S_IMODE(file.stat().st_mode)
    devices.check.expect(mode == 0o600, "its mode at the end", oct(mode))


def large_saves(devices):
    """Saves of large files that are killed midway leave the old file, and the next save is not hindered."""
    large = "new a int32 16777216 800"
    devices.put("a", ARRAY)
    cuts = sum(killed(devices, large, b"", ARRAY) for _ in range(3))
    devices.ends("after a save that was killed", large, GOOD)
    devices.nothing_beside("after a save that was killed")
    old = (devices.folder / "a").read_bytes()
    cuts += sum(killed(devices, "run a", b"set 0 1\n", old) for _ in range(2))
    devices.check.expect(cuts > 0, "some save was cut", cuts)


LONG_PARTS = (large_saves,)
PARTS = (
    inputs,
    closed_where_nothing_is_read,
    what_info_leaves,
    large_inputs,
    outputs,
    large_outputs,
    broken_pipe,
    names,
    folders_not_to_be_read,
    kinds_of_file,
    owners,
    links,
    two_at_once,
    touched_in_place,
    modes_meanwhile,
    outputs_within_limits,
    little_address_space,
    full_places,
    long_files,
)


def can_start(check):
    """Whether the program starts as someone to whom files can be refused."""
    try:
        run = Devices(check).start("frob")
    except OSError:
        return False
    finished(run, None)
    return run.returncode == 2


def main():
    check = Check(__doc__)
    if not can_start(check):
        check.skip("all of it, since root cannot run the program as nobody here")
        check.end()
    for part in PARTS if check.quick else PARTS + LONG_PARTS:
        check.folder().chmod(0o777)
        part(Devices(check))
    check.end()


if __name__ == "__main__":
    main()
