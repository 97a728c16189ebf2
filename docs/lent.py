#!/usr/bin/env python3
"""Whether a slice that an array lends can be kept across a call on the array: the compiler has to refuse it.

    python3 docs/lent.py

It adds a function that keeps one to a copy of crates/zfpi_uses, and looks for the error borrow-e0499, which is the E0499
of Rust. Needs `rt`; takes a minute over what checks kept, and as long as a first check of the crates below where nothing
is kept.
"""

import pathlib
import shutil
import subprocess
import sys
import tempfile

TOP = pathlib.Path(__file__).resolve().parent.parent
CRATE = "crates/zfpi_uses"
# as `fill_first` there, but with a call between the loan and its use
KEEPS = """
fn keep_first(view: &mut View<'_, i32, 1>, v: i32) {
    let run = view.run_mut(Pos::new([0]));
    view.set(Pos::new([0]), v);
    run.fill(v);
}
"""


def refusal():
    """What the compiler says of the function."""
    with tempfile.TemporaryDirectory() as name:
        copy = pathlib.Path(name)
        shutil.copytree(TOP / "crates", copy / "crates", ignore=shutil.ignore_patterns("out"))
        for file in ("crates.txt", "HANDLES"):
            shutil.copy(TOP / file, copy)
        source = copy / CRATE / "src/window.rt"
        source.write_text(source.read_text() + KEEPS)
        command = ["rt", "check", "--only", "window::keep_first"]
        done = subprocess.run(command, cwd=copy / CRATE, capture_output=True, text=True, check=False)
    return done.stdout + done.stderr


def main():
    if shutil.which("rt") is None:
        print("rt is not there")
        return
    said = refusal()
    refused = "borrow-e0499" in said
    print("E0499: a lent slice is not kept across a call" if refused else said)
    sys.exit(0 if refused else 1)


if __name__ == "__main__":
    main()
