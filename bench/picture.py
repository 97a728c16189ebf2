#!/usr/bin/env python3
"""Draws the sample array, what two rates make of it, and the difference; and prints a table of bits a value against change.

    python3 bench/picture.py [PROGRAM] [--table]

PROGRAM is the built program, by default crates/zfpi/out/zfpi. Needs numpy, and matplotlib for the picture, which is written to docs/plate.svg. With `--table` only
the table is printed.
"""

import pathlib
import subprocess
import sys

import numpy

TOP = pathlib.Path(__file__).resolve().parent.parent
SHAPE = (32, 48)
WORDS = "48x32"
RATES = (32, 64, 96, 128, 192, 256)


def zfpi(program, data, *words):
    return subprocess.run([program, *words], input=data, capture_output=True, check=True).stdout


def read(data):
    return numpy.frombuffer(data, dtype="<i4").reshape(SHAPE).astype(numpy.int64)


def table(program, raw, plate):
    """Bits a block and a value, bytes, and how far values are from what they were."""
    print("| Mode | Bits a value | Bytes | Greatest change | Mean change |")
    print("|---|---|---|---|---|")
    for mode in [*(("rate", str(rate)) for rate in RATES), ("reversible",)]:
        stream = zfpi(program, raw, "compress", "int32", WORDS, *mode)
        change = abs(read(zfpi(program, stream, "restore")) - plate)
        bits = 8 * len(stream) / plate.size
        print(f"| `{' '.join(mode)}` | {bits:.2f} | {len(stream)} | {change.max()} | {change.mean():.1f} |")


def picture(program, raw, plate, file):
    import matplotlib

    matplotlib.use("svg")
    matplotlib.rcParams["svg.hashsalt"] = "zfpi"
    from matplotlib import pyplot

    figure, places = pyplot.subplots(2, 3, figsize=(10.5, 5.2), layout="constrained")
    low, high = plate.min(), plate.max()
    shown = places[0, 0].imshow(plate, cmap="inferno", vmin=low, vmax=high)
    places[0, 0].set_title("the plate, 32 bits a value")
    figure.colorbar(shown, ax=places[0, :], label="millikelvin", shrink=0.9)
    places[1, 0].axis("off")
    places[1, 0].text(0, 0.5, "48 x 32 values of int32.\nAbove: what two rates give back.\nRight: the change of each value,\nin millikelvin, each on its scale.", va="center")
    for place, rate in ((1, 32), (2, 64)):
        back = read(zfpi(program, zfpi(program, raw, "compress", "int32", WORDS, "rate", str(rate)), "restore"))
        places[0, place].imshow(back, cmap="inferno", vmin=low, vmax=high)
        places[0, place].set_title(f"rate {rate}: {rate // 16} bits a value")
        change = back - plate
        most = abs(change).max()
        shown = places[1, place].imshow(change, cmap="RdBu", vmin=-most, vmax=most)
        places[1, place].set_title(f"what was lost: at most {most}")
        figure.colorbar(shown, ax=places[1, place], shrink=0.8)
    for place in places.flat:
        place.set_xticks([])
        place.set_yticks([])
    figure.savefig(file, metadata={"Date": None})


def main():
    words = [word for word in sys.argv[1:] if word != "--table"]
    program = words[0] if words else str(TOP / "crates/zfpi/out/zfpi")
    raw = (TOP / "data/plate.i32").read_bytes()
    plate = read(raw)
    table(program, raw, plate)
    if "--table" not in sys.argv:
        picture(program, raw, plate, TOP / "docs/plate.svg")


if __name__ == "__main__":
    main()
