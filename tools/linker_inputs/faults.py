"""What can't be told in a manifest: faults, which end the tool, and warnings, which don't."""

import sys


class Fault(Exception):
    """A file or a word of which no manifest can be made."""

    def __init__(self, where, what):
        super().__init__(f"{where}: {what}")


class Warnings:
    """Warnings on standard error, each once."""

    def __init__(self, stream=None):
        self.stream = stream or sys.stderr
        self.told = set()

    def tell(self, where, what):
        """Tells a warning of a file or a word, unless it was told before."""
        line = f"warning: {where}: {what}"
        if line not in self.told:
            self.told.add(line)
            print(line, file=self.stream, flush=True)
