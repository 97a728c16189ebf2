#!/usr/bin/env python3
"""Makes and restores again each of the streams that zfp 1.0.0 wrote (data/zfp-1.0.0.json).

    python3 check/vectors.py [PROGRAM] [--seed N] [--quick] [--rows]

The gate has those of at most 300 bytes as tests. With `--rows` their tables are written, as they stand
in crates/zfp_vectors/src/tests.rt, and nothing else is done.
"""

import json
import sys

from shared import TOP, Check

MOST_BYTES = 300
MODES = {"rate": "Mode::Rate({})", "precision": "Mode::Precision({})", "reversible": "Mode::Reversible"}


def streams():
    return json.loads((TOP / "data/zfp-1.0.0.json").read_text())


def literal(data):
    """Bytes as a literal of the language."""
    return 'b"' + "".join("\\0" if byte == 0 else f"\\x{byte:02x}" for byte in data) + '"'


def row_text(row):
    """A row of the gate's table."""
    _, kind, shape, mode, *number = row["words"].split()
    sizes = [*shape.split("x"), "1"][:2]
    dims = 1 + shape.count("x")
    cells = ["Ty::I" + kind[3:], str(dims), f"[{', '.join(sizes)}]", MODES[mode].format(*number)]
    cells += [literal(bytes.fromhex(row[key])) for key in ("raw", "stream", "restored")]
    return "    (\n" + "".join(f"        {cell},\n" for cell in cells) + "    ),\n"


def write_rows():
    """Three tables, since what the prover takes for one grows faster than its bytes."""
    rows = [row for row in streams() if len(row["stream"]) <= 2 * MOST_BYTES]
    at_a_rate = [row for row in rows if " rate " in row["words"]]
    narrow = [row for row in at_a_rate if " int32 " in row["words"]]
    wide = [row for row in at_a_rate if row not in narrow]
    others = [row for row in rows if row not in at_a_rate]
    for name, some in (("NARROW_AT_A_RATE", narrow), ("WIDE_AT_A_RATE", wide), ("OTHERS", others)):
        print(f"static {name}: [Vector; {len(some)}] = [\n{''.join(map(row_text, some))}];\n")


def main():
    if "--rows" in sys.argv:
        write_rows()
        return
    check = Check(__doc__)
    for row in streams():
        raw, stream, restored = (bytes.fromhex(row[key]) for key in ("raw", "stream", "restored"))
        made = check.run(row["words"].split(), raw)
        check.expect((made.code, made.out) == (0, stream), f"{row['words']}: made", made, stream)
        back = check.run(["restore"], stream)
        check.expect((back.code, back.out) == (0, restored), f"{row['words']}: restored", back, restored)
    check.end()


if __name__ == "__main__":
    main()
