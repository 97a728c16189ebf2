"""Runs the program and measures how much memory it held, and how long it took."""

import shutil
import time


class Measure:
    """Measures by the program `time`, since a run that Python starts itself counts Python's memory too."""

    def __init__(self, check):
        self.check, self.told = check, check.room / "held"
        self.time = shutil.which("time")

    def is_possible(self):
        if self.time is None:
            self.check.skip("memory is not measured, since there is no program `time`")
        return self.time is not None

    def run(self, words, data=b"", folder=None):
        """How a run ended, the kilobytes that it held, 0 where that is not measured, and its seconds."""
        before = [self.time, "-q", "-o", str(self.told), "-f", "%M"] if self.time else []
        begun = time.monotonic()
        ended = self.check.run(words, data, folder, before)
        seconds = time.monotonic() - begun
        return ended, int(self.told.read_text().split()[-1]) if self.time else 0, seconds
