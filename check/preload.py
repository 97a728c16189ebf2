"""Runs the program with check/preload.c between it and the C library."""

import shutil
import subprocess

from shared import TOP


class Preload:
    """The library, in the check's folder."""

    def __init__(self, check):
        self.check = check
        self.library, self.asked = check.room / "preload.so", check.room / "asked"

    def is_built(self):
        """Builds the library. Where that cannot be, the check is left out."""
        command = ["cc", "-O1", "-shared", "-fPIC", "-o", self.library, TOP / "check/preload.c", "-ldl"]
        if shutil.which("cc") and subprocess.run(command, capture_output=True, check=False).returncode == 0:
            return True
        self.check.skip("all of it, since there is no C compiler (cc) that builds check/preload.c")
        return False

    def settings(self, **settings):
        """The words that are set for a program which is to run under these settings."""
        settings = {name: str(number) for name, number in settings.items()}
        return settings | {"LD_PRELOAD": str(self.library), "ASKED": str(self.asked)}

    def run(self, words, data=b"", folder=None, **settings):
        """How a run ends under these settings, and how often it asked for memory."""
        self.asked.unlink(missing_ok=True)
        ended = self.check.run(words, data, folder, env=self.settings(**settings))
        return ended, int(self.asked.read_text()) if self.asked.exists() else 0
