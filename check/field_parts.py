#!/usr/bin/env python3
"""Compresses, restores and verifies fields in parts by examples/field_parts.py, where much goes wrong.

    python3 check/field_parts.py [PROGRAM] [--seed N] [--quick]

A worker or the client is killed; files cannot be read, are folders, or links to nothing; there is no program;
the disk is full; a part is missing or damaged; a second run has another rate or shape. What fails has to be
named and the rest done, with no traceback and nothing left beside, and the next run has to go on. The file of
another user and the full disk need root; workers on other machines need dask.distributed.
"""

import contextlib
import os
import re
import shutil
import signal
import subprocess
import sys
import time

from shared import TOP, Check, Ended

NOBODY = 65534
SYSTEM_PYTHON = "/usr/bin/python3"
SECONDS = 120
# Rows of eight values, in parts of four rows: four of these, and one of two rows.
SHAPE, LAST = "8x18", "8x2"
COMPRESS = ("compress", "packed", "int32", SHAPE)
# type, bytes of a value, shape of 144 values, rows of a part, mode
FIELDS = (
    ("int32", 4, "144", 40, "reversible"),
    ("int64", 8, "12x12", 8, "rate 100"),
    ("uint8", 1, "6x4x6", 4, "reversible"),
    ("int8", 1, "12x12", 4, "rate 90"),
    ("int16", 2, "3x4x3x4", 4, "precision 9"),
    ("uint16", 2, "9x16", 12, "rate 128"),
)
WRONG_WORDS = (
    "",
    "pack",
    "compress",
    "compress packed int32 8x18 reversible",
    "compress packed int32 8x18 rate 64",
    "compress packed int32 8x18 rate a",
    "compress packed int32 8x18 rate 0 a",
    "compress packed int32 8x18 precision 129 a",
    "compress packed int32 8x18 lossless a",
    "compress packed uint32 8x18 reversible a",
    "compress packed int32 8x reversible a",
    "compress packed int32 70000x10x10 reversible a",
    "compress packed int32 8x18 reversible a --rows 6",
    "compress packed int32 8x18 reversible a --rows 0",
    "compress packed int32 8x18 reversible a --jobs 0",
    "verify packed",
    "restore packed out",
)
PROGRESS = re.compile(r"^\d+ of \d+ parts, .*\n", re.M)
MARK = "mark"
# A zfpi that does something else for the last part of a field; $1 is the program.
KILLED = f"#!/bin/sh\ncase $* in *{LAST}*) kill -9 $$;; esac\nexec '{{program}}' \"$@\"\n"
SLOW = (
    f"#!/bin/sh\ncase $* in *{LAST}*) if mkdir {{mark}} 2> /dev/null; then\n"
    "echo $$ > {mark}/own; echo $PPID > {mark}/parent; exec sleep 60; fi;; esac\nexec '{program}' \"$@\"\n"
)
CLUSTER = """
import distributed, logging, sys
if __name__ == "__main__":
    with distributed.LocalCluster(n_workers=2, threads_per_worker=1, dashboard_address=None) as cluster:
        logging.getLogger("distributed").setLevel(logging.CRITICAL)
        print(cluster.scheduler_address, flush=True)
        sys.stdin.read()
"""


class Parts:
    """The tool in a folder of its own, which has the raw files, and in `bin` the program as `zfpi`."""

    def __init__(self, check):
        self.check, self.folder = check, check.folder()
        check.room.chmod(0o755)
        self.tool = check.room / "field_parts.py"
        shutil.copy(TOP / "examples/field_parts.py", self.tool)
        self.bin = self.programs("bin", "#!/bin/sh\nexec '{program}' \"$@\"\n")
        self.python = sys.executable

    def programs(self, name, text):
        """A folder with a zfpi of this text in it."""
        folder = self.check.room / name
        folder.mkdir(exist_ok=True)
        script = folder / "zfpi"
        script.write_text(text.format(program=self.check.program, mark=self.check.room / MARK))
        script.chmod(0o755)
        return folder

    def fresh(self):
        """An empty folder to work in."""
        self.folder = self.check.folder()
        shutil.rmtree(self.check.room / MARK, ignore_errors=True)

    def raw(self, *names, values=144, size=4):
        """Raw files of these names with values of their own, which lie close together."""
        for name in names:
            level, data = 0, b""
            for _ in range(values):
                level += self.check.random.randint(-9, 9)
                data += level.to_bytes(size, "little", signed=True)
            (self.folder / name).write_bytes(data)

    def begin(self, *words, programs=None, **how):
        """The running tool. `programs` is the folder of another zfpi."""
        how.setdefault("env", {**os.environ, "PATH": f"{programs or self.bin}:/usr/bin:/bin", "LC_ALL": "C"})
        streams = {"stdout": subprocess.PIPE, "stderr": subprocess.PIPE}
        command = [self.python, str(self.tool), *map(str, words)]
        return subprocess.Popen(command, cwd=self.folder, **streams, **how)

    def run(self, *words, **how):
        """How the tool ends on these words."""
        with self.begin(*words, **how) as run:
            try:
                out, line = run.communicate(timeout=SECONDS)
            except subprocess.TimeoutExpired:
                run.kill()
                return Ended(None, *run.communicate())
            return Ended(run.returncode, out, line)

    def ends(self, what, code, words, *named, said="", **how):
        """Runs the tool. It has to end with this code and name these texts, and leave nothing beside."""
        ended = self.run(*words, **how)
        lines = PROGRESS.sub("", ended.line.decode())
        good = ended.code == code and all(name in lines for name in named) and "Traceback" not in lines
        good = good and said in ended.out.decode() and bool(lines) == bool(code)
        self.check.expect(good, f"{what}: ends with {code} and names {named} {said}", *ended)
        left = [str(it) for it in self.folder.rglob("*.part")]
        self.check.expect(not left, f"{what}: nothing is left beside", left)
        return ended

    def stream(self, name, part):
        return self.folder / "packed" / name / f"{part:05}.zfpi"

    def streams(self, *names):
        """What the folder of the parts holds, without the manifests."""
        files = sorted(file for name in names for file in (self.folder / "packed" / name).glob("*.zfpi"))
        return {str(file.relative_to(self.folder)): file.read_bytes() for file in files}

    def are_right(self, what, mode, *names):
        """The streams of these fields have to be those that the program makes of each part."""
        wanted = {}
        for name in names:
            data = (self.folder / name).read_bytes()
            for part in range(5):
                shape = LAST if part == 4 else "8x4"
                raw = data[part * 128 : part * 128 + 128]
                made = self.check.run(["compress", "int32", shape, *mode.split()], raw)
                wanted[f"packed/{name}/{part:05}.zfpi"] = made.out
        self.check.expect(self.streams(*names) == wanted, f"{what}: the streams of {names}")


def there_and_back(parts):
    """Fields of every type and number of dimensions come back as from one stream, and sha256sum agrees."""
    for kind, size, shape, rows, mode in FIELDS:
        parts.fresh()
        parts.raw("a b", values=144, size=8)
        file = parts.folder / "a b"
        file.write_bytes(file.read_bytes()[:: 8 // size][: 144 * size])
        what = f"{kind} {shape} {mode}"
        parts.ends(what, 0, ["compress", "packed", kind, shape, *mode.split(), "a b", "--rows", rows])
        parts.ends(f"{what}: verify", 0, ["verify", "packed"], said="1 of 1 fields whole")
        parts.ends(f"{what}: restore", 0, ["restore", "packed", "out"], said="1 of 1 fields whole")
        stream = parts.check.run(["compress", kind, shape, *mode.split()], file.read_bytes()).out
        whole = parts.check.run(["restore", *([kind] if size < 4 else [])], stream).out
        parts.check.expect((parts.folder / "out/a b").read_bytes() == whole, f"{what}: as from one stream")
        folder = parts.folder / "packed/a b"
        summed = subprocess.run(
            ["sha256sum", "-c", "--quiet", "manifest"], cwd=folder, capture_output=True, check=False
        )
        parts.check.expect(summed.returncode == 0, f"{what}: sha256sum reads the manifest", summed.stderr)


def words_and_program(parts):
    """Wrong words and a missing program: nothing is begun."""
    parts.fresh()
    parts.raw("a")
    for line in WRONG_WORDS:
        words = line.split()
        parts.ends(f"words {words}", 2, words)
    nothing = parts.check.folder("nothing")
    parts.ends(
        "no program",
        2,
        [*COMPRESS, "reversible", "a"],
        "there is no zfpi on PATH",
        env={"PATH": str(nothing)},
    )
    parts.check.expect(not (parts.folder / "packed").exists(), "nothing is begun")


def broken_files(parts):
    """Files of many kinds that are none: each is named, and the good one is done."""
    parts.fresh()
    parts.raw("a", "b", "short", "secret")
    folder = parts.folder
    (folder / "short").write_bytes(bytes(575))
    (folder / "empty").touch()
    (folder / "sub").mkdir()
    (folder / "sub/a").symlink_to("../a")
    (folder / "link").symlink_to("nowhere")
    os.mkfifo(folder / "pipe")
    named = [
        "short: it has 575 bytes, and not 576",
        "empty: it has 0 bytes",
        "sub: it is a folder",
        "sub/a: another one has this name",
        "link: No such file",
        "pipe: it is no regular file",
        "none: No such file",
    ]
    files = ["a", "short", "empty", "sub", "sub/a", "b", "link", "pipe", "none"]
    said = "2 of 9 fields whole; parts: 10 compressed, 0 there before, 0 failed"
    parts.ends("broken files", 1, [*COMPRESS, "reversible", *files, "--rows", 4], *named, said=said)
    parts.are_right("broken files", "reversible", "a", "b")
    unreadable(parts)


def unreadable(parts):
    """A file that may not be read, as another user where this one is root, who may read all."""
    as_root = os.geteuid() == 0
    other = {"user": NOBODY, "group": NOBODY, "extra_groups": []} if as_root else {}
    if as_root and subprocess.run([SYSTEM_PYTHON, "-c", ""], check=False, **other).returncode != 0:
        parts.check.skip("a file of another user: no Python that another user may run")
        return
    public = parts.check.room / "program"
    shutil.copy(parts.check.program, public)
    public.chmod(0o755)
    before, parts.python = parts.python, SYSTEM_PYTHON if as_root else parts.python
    folder = parts.programs("public", f"#!/bin/sh\nexec '{public}' \"$@\"\n")
    (parts.folder / "secret").chmod(0o000)
    parts.folder.chmod(0o777)
    words = ["compress", "others", "int32", SHAPE, "rate", "64", "secret", "a", "--rows", "4"]
    said = "1 of 2 fields whole; parts: 5 compressed"
    parts.ends(
        "an unreadable file", 1, words, "secret: Permission denied", said=said, programs=folder, **other
    )
    parts.python = before


def killed_worker(parts):
    """The zfpi of one part is killed: it is named, the others are made, and the next run makes it."""
    parts.fresh()
    parts.raw("a", "b")
    words = [*COMPRESS, "rate", "64", "a", "b", "--rows", 4]
    named = [f"{name}/00004.zfpi: zfpi: ended by signal 9" for name in "ab"]
    said = "0 of 2 fields whole; parts: 8 compressed, 0 there before, 2 failed"
    parts.ends("a worker killed", 1, words, *named, said=said, programs=parts.programs("killed", KILLED))
    parts.ends("verify", 1, ["verify", "packed"], "a: 00004.zfpi is not in its manifest", "b: ")
    parts.ends("restore", 1, ["restore", "packed", "out"], "a: 00004.zfpi", "b: ")
    parts.check.expect(not (parts.folder / "out").exists(), "no part of a field is restored")
    said = "2 of 2 fields whole; parts: 2 compressed, 8 there before, 0 failed"
    parts.ends("the next run", 0, words, said=said)
    parts.are_right("a worker killed", "rate 64", "a", "b")


def wait_for(file):
    """Waits for a file of a number, and answers that."""
    end = time.monotonic() + SECONDS
    while time.monotonic() < end:
        with contextlib.suppress(OSError, ValueError):
            return int(file.read_text())
        time.sleep(0.02)
    raise TimeoutError(file)


def killed_client(parts, number):
    """The tool is ended by a signal while a part runs: the next run goes on where it was."""
    parts.fresh()
    parts.raw("a")
    words = [*COMPRESS, "rate", "64", "a", "--rows", 4, "--jobs", 2]
    manifest = parts.folder / "packed/a/manifest"
    with parts.begin(*words, programs=parts.programs("slow", SLOW)) as run:
        own = wait_for(parts.check.room / MARK / "own")
        end = time.monotonic() + SECONDS
        while manifest.read_text().count(".zfpi") < 4 and time.monotonic() < end:
            time.sleep(0.02)
        run.send_signal(number)
        if number == signal.SIGKILL:
            run.wait()
        else:
            time.sleep(0.2)
        os.kill(own, signal.SIGKILL)
        _, line = run.communicate()
    code = -number if number == signal.SIGKILL else 128 + number
    good = run.returncode == code and b"Traceback" not in line
    parts.check.expect(good, f"signal {number} ends the client with {code}", run.returncode, line)
    if number == signal.SIGKILL:
        # as if it had been cut off while it wrote the last line
        manifest.write_text(manifest.read_text() + "0123456789abcdef")
    parts.ends("the next run", 0, words, said="1 of 1 fields whole; parts: 1 compressed, 4 there before")
    parts.are_right(f"the client ended by signal {number}", "rate 64", "a")


def full_disk(parts):
    """A disk that is too small: what has no room is named, and the next run goes on."""
    parts.fresh()
    parts.raw("a", "b", "c", values=8 * 800)
    disk = parts.check.folder("disk")
    mounted = ["mount", "-t", "tmpfs", "-o", "size=32k", "none", str(disk)]
    if not shutil.which("mount") or subprocess.run(mounted, capture_output=True, check=False).returncode != 0:
        parts.check.skip("a full disk (no file system can be mounted)")
        return
    try:
        words = ["compress", disk / "packed", "int32", "8x800", "reversible", "a", "b", "c", "--rows", 80]
        ended = parts.ends("a full disk", 1, words, "a/", said=" of 3 fields whole")
        parts.check.expect(
            b"write fault" in ended.line or b"No space left" in ended.line, "a full disk", ended.line
        )
        left = list(disk.rglob("*.part"))
        parts.check.expect(not left, "a full disk: nothing is left beside", left)
        subprocess.run(["mount", "-o", "remount,size=200k", str(disk)], check=True)
        parts.ends("with more room", 0, words, said="3 of 3 fields whole")
        parts.ends(
            "with more room", 0, ["verify", disk / "packed"], said="3 of 3 fields whole; parts: 30 right"
        )
        about = os.statvfs(disk)
        room = (about.f_blocks - about.f_bfree) * about.f_frsize + 40 * 1024
        subprocess.run(["mount", "-o", f"remount,size={room}", str(disk)], check=True)
        ended = parts.ends("a full disk", 1, ["restore", disk / "packed", disk / "out"], "write fault")
        restored = {file.name: file.read_bytes() for file in (disk / "out").iterdir()}
        good = all(data == (parts.folder / name).read_bytes() for name, data in restored.items())
        parts.check.expect(good and len(restored) < 3, "no short file is restored", list(restored))
    finally:
        subprocess.run(["umount", str(disk)], check=True)


def missing_and_damaged(parts):
    """A part that is missing, or has another byte: it is named, no file is restored, and it is made again."""
    parts.fresh()
    parts.raw("a", "b")
    words = [*COMPRESS, "rate", "64", "a", "b", "--rows", 4]
    parts.ends("compress", 0, words, said="10 compressed")
    stream = parts.stream("b", 2)
    data = stream.read_bytes()
    at, bit = parts.check.random.randrange(len(data)), 1 << parts.check.random.randrange(8)
    other = parts.check.run(["compress", "int32", "8x4", "rate", "60"], bytes(128)).out
    for what, put, named in (
        ("a part missing", None, "b: No such file or directory"),
        ("a flipped byte", data[:at] + bytes([data[at] ^ bit]) + data[at + 1 :], "b/00002.zfpi: its sum"),
        ("a cut part", data[:-8], "b/00002.zfpi: its sum"),
        ("a part of another rate", other, "b/00002.zfpi: its sum"),
    ):
        stream.unlink()
        if put is not None:
            stream.write_bytes(put)
        parts.ends(
            f"{what}: verify",
            1,
            ["verify", "packed"],
            "b/00002.zfpi: ",
            said="1 of 2 fields whole; parts: 9 right",
        )
        shutil.rmtree(parts.folder / "out", ignore_errors=True)
        parts.ends(f"{what}: restore", 1, ["restore", "packed", "out"], named, said="1 of 2 fields whole")
        restored = [file.name for file in (parts.folder / "out").iterdir()]
        parts.check.expect(restored == ["a"], f"{what}: no short file is restored", restored)
        parts.ends(f"{what}: the next run", 0, words, said="parts: 1 compressed, 9 there before")
        parts.check.expect(stream.read_bytes() == data, f"{what}: is made again")
    (stream.parent / "00005.zfpi").write_bytes(data)
    parts.ends("a part too many", 1, ["verify", "packed", "b"], "b: 00005.zfpi is not in its manifest")
    (stream.parent / "manifest").write_bytes(parts.check.random.randbytes(200))
    for way in (["verify", "packed"], ["restore", "packed", "other"], words):
        parts.ends(
            f"a damaged manifest: {way[0]}", 1, way, "b: ", "manifest is damaged", said="1 of 2 fields whole"
        )


def other_words(parts):
    """A second run at another rate, shape or type changes nothing; with --anew it replaces all."""
    parts.fresh()
    parts.raw("a")
    words = [*COMPRESS, "rate", "64", "a"]
    parts.ends("compress", 0, [*words, "--rows", 4])
    before = parts.streams("a")
    for what, second, named in (
        ("another rate", [*COMPRESS, "rate", "128", "a"], "mode rate 64 and not rate 128"),
        ("another mode", [*COMPRESS, "reversible", "a"], "mode rate 64 and not reversible"),
        (
            "another shape",
            ["compress", "packed", "int32", "16x9", "rate", "64", "a"],
            "shape 8x18 and not 16x9",
        ),
        (
            "another type",
            ["compress", "packed", "int64", "8x9", "rate", "64", "a"],
            "type int32 and not int64",
        ),
        ("other rows", [*words, "--rows", 8], "rows 4 and not 8"),
    ):
        parts.ends(what, 1, second, f"a: its parts are of {named}", said="0 of 1 fields whole")
        parts.check.expect(parts.streams("a") == before, f"{what}: nothing is changed")
    parts.ends("the same again", 0, words, said="parts: 0 compressed, 5 there before, 0 failed")
    os.utime(parts.folder / "a", ns=(1, 1))
    parts.ends("a file that changed", 1, words, "source 576 bytes, changed", said="0 of 1 fields whole")
    parts.ends(
        "anew",
        0,
        [*COMPRESS, "rate", "128", "a", "--rows", 8, "--anew"],
        said="parts: 3 compressed, 0 there before",
    )
    parts.check.expect(
        sorted(parts.streams("a")) == [f"packed/a/{part:05}.zfpi" for part in range(3)], "no old part stays"
    )
    parts.ends("restore", 0, ["restore", "packed", "out"])
    old = (parts.folder / "out/a").read_bytes()
    parts.ends(
        "a file that is there",
        1,
        ["restore", "packed", "."],
        "a: there is a file of this name",
        said="0 of 1 fields whole",
    )
    parts.ends(
        "a folder of others",
        1,
        ["compress", ".", "int32", SHAPE, "rate", "64", "a"],
        "a: ",
        said="0 of 1 fields",
    )
    parts.ends("anew", 0, ["restore", "packed", "out", "a", "--anew"])
    parts.check.expect((parts.folder / "out/a").read_bytes() == old, "a file is restored anew")


def with_dask(parts):
    """The same by dask.distributed, also where a worker is killed while it has a part."""
    pythons = [sys.executable, SYSTEM_PYTHON]
    has_dask = [
        it
        for it in pythons
        if not subprocess.run([it, "-c", "import distributed"], capture_output=True).returncode
    ]
    if not has_dask:
        parts.check.skip("dask.distributed, which is not there")
        return
    parts.fresh()
    parts.raw("a", "b")
    before, parts.python = parts.python, has_dask[0]
    env = {**os.environ, "PATH": f"{parts.programs('slow', SLOW)}:/usr/bin:/bin"}
    pipes = {"stdin": subprocess.PIPE, "stdout": subprocess.PIPE, "stderr": subprocess.DEVNULL}
    script = parts.check.room / "cluster.py"
    script.write_text(CLUSTER)
    with subprocess.Popen(
        [has_dask[0], str(script)], env=env, cwd=parts.check.room, text=True, **pipes
    ) as cluster:
        address = cluster.stdout.readline().strip()
        words = [*COMPRESS, "rate", "64", "a", "b", "--rows", 4, "--dask", address]
        with parts.begin(*words) as run:
            own = wait_for(parts.check.room / MARK / "own")
            os.kill(wait_for(parts.check.room / MARK / "parent"), signal.SIGKILL)
            os.kill(own, signal.SIGKILL)
            out, line = run.communicate(timeout=SECONDS)
        good = run.returncode == 0 and b"2 of 2 fields whole; parts: 10 compressed" in out
        parts.check.expect(good, "dask: a worker killed", run.returncode, out, line)
        parts.are_right("dask", "rate 64", "a", "b")
        parts.ends("dask: verify", 0, ["verify", "packed", "--dask", address], said="parts: 10 right")
        parts.ends(
            "dask: restore", 0, ["restore", "packed", "out", "--dask", address], said="2 of 2 fields whole"
        )
        parts.stream("a", 1).unlink()
        parts.ends(
            "dask: verify",
            1,
            ["verify", "packed", "--dask", address],
            "a/00001.zfpi: No such",
            said="9 right",
        )
        cluster.stdin.close()
    parts.python = before


def main():
    check = Check(__doc__)
    parts = Parts(check)
    there_and_back(parts)
    words_and_program(parts)
    broken_files(parts)
    killed_worker(parts)
    for number in (signal.SIGKILL, signal.SIGTERM, signal.SIGINT)[: 1 if check.quick else 3]:
        killed_client(parts, number)
    full_disk(parts)
    missing_and_damaged(parts)
    other_words(parts)
    if check.quick:
        check.skip("dask.distributed, which takes some seconds to begin")
    else:
        with_dask(parts)
    check.end()


if __name__ == "__main__":
    main()
