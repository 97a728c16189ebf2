#!/usr/bin/env python3
"""What a call on a cached array costs, beside zfp's own cached arrays.

    python3 bench/arrays.py [--count] [--runs N] [--only ROWS] [--script ZFPI] [PROGRAM] [OTHER]

PROGRAM is the built crate zfpi_bench, by default crates/zfpi_bench/out/zfpi_bench (`rt run -- int32 get row 1` in its folder builds it). It is a proved program
that calls the library. OTHER is another, such as one before a change, whose cost stands beside. Beside both stands the same program over zfp's arrays in C++, built by g++ -O2; Debian's libzfp-dev is needed.

Both have an array of 1024x1024 values at 16 bits a value, filled with the same numbers: int32 beside float, int64 beside double. zfp's arrays hold no whole
numbers, so its blocks cost the steps to and from floating point that ours don't have. A row is a call and an order of positions:

    get, set, add    one call each; elems: the values of a window by an iterator
    row              64 values of a row, again and again: all hits
    raster           a window of 64x64 values, row by row: all hits
    random           positions of that window at random: all hits
    blocks           one value of each block, by 16 lines: all misses; with set, each also writes a block back

Printed are nanoseconds a call of processor time, ours and zfp's, and their ratio. The time of a tenth of the rounds is taken off, so that the making of the
array is left out; of N runs (5) in turn the least counts. With --count it is instructions a call, counted by valgrind, which other work on the machine does not
change. With --script ZFPI the line `vsum` of a script is measured too, by that built program. Plain numbers: nothing is claimed of them.
"""

import argparse
import os
import pathlib
import re
import subprocess
import sys
import tempfile

HERE = pathlib.Path(__file__).resolve().parent
SIDE = 1024

# the call, the order, how many rounds are timed, and how many calls a round has
ROWS = [
    *((call, order, 20000, 64 * 64) for call in ("get", "set", "add") for order in ("row", "raster", "random")),
    ("elems", "raster", 20000, 64 * 64),
    ("get", "blocks", 20, SIDE // 4 * SIDE // 4),
    ("set", "blocks", 10, SIDE // 4 * SIDE // 4),
]

PROGRAM_OF_ZFP = r"""
#include <zfp/array2.hpp>
#include <cstdint>
#include <cstdio>
#include <cstdlib>
#include <string>

const size_t FIRST = 100;

struct Get {
  template <class A, class V> static V call(A& a, size_t x, size_t y, V n) { const A& b = a; return n + b(x, y); }
};

struct Set {
  template <class A, class V> static V call(A& a, size_t x, size_t y, V n) { a(x, y) = n; return n; }
};

struct Add {
  template <class A, class V> static V call(A& a, size_t x, size_t y, V n) { a(x, y) += n; return n; }
};

template <class V, class C> static V once(zfp::array2<V>& a, const std::string& order, V n) {
  if (order == "row") {
    for (uint64_t i = 0; i < 4096; i++) n = C::call(a, FIRST + i % 64, FIRST, n);
  } else if (order == "raster") {
    for (size_t y = 0; y < 64; y++)
      for (size_t x = 0; x < 64; x++) n = C::call(a, FIRST + x, FIRST + y, n);
  } else if (order == "random") {
    uint64_t state = 1;
    for (int i = 0; i < 4096; i++) {
      state = state * 6364136223846793005u + 1442695040888963407u;
      uint64_t at = state >> 33;
      n = C::call(a, FIRST + at % 64, FIRST + at / 64 % 64, n);
    }
  } else {
    for (size_t y = 0; y < 256; y++)
      for (size_t x = 0; x < 256; x++) n = C::call(a, 4 * x, 4 * y, n);
  }
  return n;
}

template <class V> static V elems(zfp::array2<V>& a, V n) {
  typename zfp::array2<V>::const_view view(&a, FIRST, FIRST, 64, 64);
  for (auto at = view.begin(); at != view.end(); ++at) n += *at;
  return n;
}

template <class V> static double measured(const std::string& kind, const std::string& order, long rounds) {
  const size_t side = 1024;
  zfp::array2<V> a(side, side, 16, nullptr, (order == "blocks" ? 16 : 65536) * 16 * sizeof(V));
  for (size_t top = 0; top < side; top += 4)
    for (size_t left = 0; left < side; left += 4)
      for (uint64_t y = top; y < top + 4; y++)
        for (uint64_t x = left; x < left + 4; x++)
          a(x, y) = V(40 * x + 30 * y + (x * 7919 + y * 104729) % 251);
  a.flush_cache();
  V n = 0;
  for (long k = 0; k < rounds; k++) {
    if (kind == "get") n = once<V, Get>(a, order, n);
    else if (kind == "set") n = once<V, Set>(a, order, n);
    else if (kind == "add") n = once<V, Add>(a, order, n);
    else n = elems<V>(a, n);
  }
  return n;
}

int main(int count, char** words) {
  if (count != 5) return 1;
  std::string type = words[1];
  long rounds = std::atol(words[4]);
  std::printf("%g\n", type == "int64" ? measured<double>(words[2], words[3], rounds) : measured<float>(words[2], words[3], rounds));
}
"""


def seconds_of(words, source=None):
    """Seconds of processor time of a command."""
    with open(source or os.devnull, "rb") as given:
        process = subprocess.Popen(words, stdin=given, stdout=subprocess.DEVNULL)
        _, status, used = os.wait4(process.pid, 0)
        process.returncode = os.waitstatus_to_exitcode(status)
    if process.returncode != 0:
        sys.exit(f"{' '.join(map(str, words))}: exit code {process.returncode}")
    return used.ru_utime + used.ru_stime


def count_of(words, source=None):
    """Instructions of a command."""
    with open(source or os.devnull, "rb") as given:
        command = ["valgrind", "--tool=callgrind", "--callgrind-out-file=/dev/null", *map(str, words)]
        done = subprocess.run(command, stdin=given, stdout=subprocess.DEVNULL, stderr=subprocess.PIPE, text=True, check=True)
    return int(re.search(r"Collected : (\d+)", done.stderr)[1])


def costs(programs, words, rounds, calls, runs, count):
    """What one call costs with each program: the least of some runs, in turn."""
    few = rounds // 10
    if count:
        rounds, few = max(rounds // 1000, 2), 1
    measure = count_of if count else seconds_of
    least = [[None, None] for _ in programs]
    for _ in range(1 if count else runs):
        for program, best in zip(programs, least):
            for k, number in enumerate((rounds, few)):
                cost = measure([program, *words, str(number)])
                best[k] = cost if best[k] is None else min(best[k], cost)
    unit = 1 if count else 1e9
    return [(long - short) * unit / ((rounds - few) * calls) for long, short in least]


def cost_of_vsum(program, folder, runs, count):
    """What a value costs that the line `vsum` of a script adds up, over a window whose blocks are all in the cache."""
    with open(folder / "raw", "wb") as sink:
        for y in range(SIDE):
            sink.write(b"".join((40 * x + 30 * y + (x * 7919 + y * 104729) % 251).to_bytes(8, "little") for x in range(SIDE)))
    with open(folder / "raw", "rb") as source, open(folder / "field", "wb") as sink:
        subprocess.run([program, "compress", "int64", f"{SIDE}x{SIDE}", "rate", "256"], stdin=source, stdout=sink, check=True)
    # the name of an array is one of the current folder
    os.chdir(folder)
    words = [program, "run", "field", "lines", "65536"]
    measure = count_of if count else seconds_of
    least = [None, None]
    numbers = (11, 1) if count else (2001, 1)
    for _ in range(1 if count else runs):
        for k, number in enumerate(numbers):
            (folder / "script").write_text("view 100,100 64x64 1,1\n" + "vsum\n" * number)
            cost = measure(words, folder / "script")
            least[k] = cost if least[k] is None else min(least[k], cost)
    return (least[0] - least[1]) * (1 if count else 1e9) / ((numbers[0] - numbers[1]) * 64 * 64)


def built(folder):
    """The program over zfp's arrays."""
    (folder / "arrays.cpp").write_text(PROGRAM_OF_ZFP)
    subprocess.run(["g++", "-O2", "-o", str(folder / "arrays"), str(folder / "arrays.cpp"), "-lzfp"], check=True)
    return folder / "arrays"


def main():
    asked = argparse.ArgumentParser(description=__doc__.splitlines()[0])
    asked.add_argument("program", nargs="?", default=HERE.parent / "crates/zfpi_bench/out/zfpi_bench")
    asked.add_argument("other", nargs="?")
    asked.add_argument("--count", action="store_true")
    asked.add_argument("--runs", type=int, default=5)
    asked.add_argument("--script")
    asked.add_argument("--only", default="", help="rows of which the name begins so, such as `get`")
    given = asked.parse_args()
    unit = "instructions" if given.count else "ns"
    with tempfile.TemporaryDirectory() as name:
        folder = pathlib.Path(name)
        programs = [pathlib.Path(given.program).resolve(), built(folder)]
        if given.other:
            programs.append(pathlib.Path(given.other).resolve())
        iterators = {}
        for type_ in ("int32", "int64"):
            for call, order, rounds, calls in ROWS:
                if not f"{call} {order}".startswith(given.only):
                    continue
                ours, zfp, *other = costs(programs, [type_, call, order], rounds, calls, given.runs, given.count)
                if call == "elems":
                    iterators[type_] = zfp
                beside = f", other {other[0]:8.2f}, ratio {other[0] / zfp:5.2f}" if other else ""
                print(f"{type_} {call:5} {order:6} {ours:8.2f} {unit}, zfp {zfp:8.2f}, ratio {ours / zfp:5.2f}{beside}", flush=True)
        if given.script:
            ours = cost_of_vsum(pathlib.Path(given.script).resolve(), folder, given.runs, given.count)
            beside = f", zfp's iterator {iterators['int64']:8.2f}, ratio {ours / iterators['int64']:5.2f}" if "int64" in iterators else ""
            print(f"int64 vsum  raster {ours:8.2f} {unit}{beside}")


if __name__ == "__main__":
    main()
