#!/usr/bin/env python3
"""The library in one process beside zfp (zfpy) and blosc: MB of raw values a second, there / back.

    ZFPI_LIBRARY=libzfpi.so.1 python3 bench/library.py [--rounds N] [--small] [--threads]

Fields are waves with noise of the last bits, int32 and int64, from 4x4 on. Each call is the fastest of its calls in rounds
that go by turns, so that a slow minute falls on all. zfpy and zfpi write the same modes; blosc keeps every value. `--threads`
adds four threads at once, each on a quarter of a field. Needs numpy and zfpy, and blosc where it is to be shown.
"""

import argparse
import pathlib
import statistics
import sys
import time
from concurrent.futures import ThreadPoolExecutor

import numpy
import zfpy

sys.path.insert(0, str(pathlib.Path(__file__).resolve().parent.parent / "python"))
import zfpi  # noqa: E402

try:
    import blosc
except ImportError:
    blosc = None

SHAPES = ((4, 4), (16, 16, 16), (64, 64, 64), (128, 128, 128), (256, 256, 256), (4096, 4096))
KINDS = ("int32", "int64")


def waves(shape, kind):
    grid = numpy.meshgrid(*(numpy.arange(n) for n in shape), indexing="ij", sparse=True)
    smooth = sum(numpy.sin(axis / (30 + 10 * k)) for k, axis in enumerate(grid))
    noise = numpy.random.default_rng(1).integers(-2000, 2000, shape)
    return (1e6 * smooth + noise).astype(kind)


def modes(dims):
    """Of each mode its name, zfpi's words and zfpy's."""
    yield "reversible", {}, {}
    yield "8 bits a value", {"rate": 8}, {"rate": 8}
    yield "16 planes", {"precision": 16}, {"precision": 16}


def calls_of(field, ours, theirs):
    """Calls there and back of each library, by name."""
    out, back = numpy.empty(zfpi.most_bytes(field, **ours), "u1"), numpy.empty_like(field)
    stream = out[: zfpi.compress_into(field, out, **ours)]
    other = zfpy.compress_numpy(field, write_header=True, **theirs)
    calls = {
        "zfpi": (lambda: zfpi.compress_into(field, out, **ours), lambda: zfpi.decompress_into(stream, back)),
        "zfpy": (lambda: zfpy.compress_numpy(field, write_header=True, **theirs), lambda: zfpy.decompress_numpy(other)),
    }
    if blosc and not ours:
        packed = blosc.compress(field, field.itemsize, shuffle=blosc.BITSHUFFLE, cname="lz4")
        kept = {"typesize": field.itemsize, "shuffle": blosc.BITSHUFFLE, "cname": "lz4"}
        calls["blosc"] = (lambda: blosc.compress(field, **kept), lambda: blosc.decompress(packed))
    return calls


def least(calls, rounds, seconds):
    """The least seconds of each call, by turns."""
    took = {}
    for _ in range(rounds):
        for name, both in calls.items():
            for way, call in enumerate(both):
                until = time.perf_counter() + seconds
                while True:
                    begun = time.perf_counter()
                    call()
                    ended = time.perf_counter()
                    took[name, way] = min(took.get((name, way), 9e9), ended - begun)
                    if ended > until:
                        break
    return took


def table(rounds, shapes):
    print("| Field | Mode | zfpi | zfpy | times zfpy | blosc |")
    print("|---|---|---|---|---|---|")
    for shape in shapes:
        for kind in KINDS:
            field = waves(shape, kind)
            mb = field.nbytes / 1e6
            for name, ours, theirs in modes(len(shape)):
                took = least(calls_of(field, ours, theirs), rounds, 0.05)
                said = lambda who: " / ".join(f"{mb / took[who, way]:.0f}" for way in (0, 1)) if (who, 0) in took else ""
                times = " / ".join(f"{took['zfpy', way] / took['zfpi', way]:.2f}" for way in (0, 1))
                print(f"| {kind} {'x'.join(map(str, shape[::-1]))} | {name} | {said('zfpi')} | {said('zfpy')} | {times} | {said('blosc')} |", flush=True)


def four_times_one(field, rounds):
    """Times one thread's speed of four threads on four parts of a field, compressing and restoring: the median of rounds."""
    parts = [numpy.ascontiguousarray(part) for part in numpy.array_split(field, 4)]
    rooms = [numpy.empty(zfpi.most_bytes(part), "u1") for part in parts]
    backs = [numpy.empty_like(part) for part in parts]
    sizes = [0] * 4

    def compress(k):
        sizes[k] = zfpi.compress_into(parts[k], rooms[k])

    def restore(k):
        zfpi.decompress_into(rooms[k][: sizes[k]], backs[k])

    def work(call, mine):
        # Several times each, so that it weighs little when threads are woken.
        for _ in range(4):
            for k in mine:
                call(k)

    def seconds(pool, call, shares):
        begun = time.perf_counter()
        list(pool.map(work, [call] * len(shares), shares))
        return time.perf_counter() - begun

    times = {compress: [], restore: []}
    with ThreadPoolExecutor(1) as one, ThreadPoolExecutor(4) as four:
        for _ in range(rounds):
            for call, took in times.items():
                took.append(seconds(one, call, [range(4)]) / seconds(four, call, [[k] for k in range(4)]))
    return [statistics.median(took) for took in times.values()]


def threads(rounds):
    there, back = four_times_one(waves((256, 256, 256), "int32"), rounds)
    print(f"four threads on four parts: {there:.2f} / {back:.2f} times one")


def main():
    parser = argparse.ArgumentParser(description=__doc__.splitlines()[0])
    parser.add_argument("--rounds", type=int, default=5)
    parser.add_argument("--threads", action="store_true")
    parser.add_argument("--small", action="store_true", help="fields up to 64x64x64 alone")
    words = parser.parse_args()
    table(words.rounds, SHAPES[:3] if words.small else SHAPES)
    if words.threads:
        threads(words.rounds)


if __name__ == "__main__":
    main()
