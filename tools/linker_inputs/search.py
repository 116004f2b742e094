"""Where files and libraries are found."""

import os

from . import archives, elf
from .faults import Fault


class Search:
    """The directories of the words and of linker scripts, and what was found there."""

    def __init__(self, command):
        self.root = command.system_root
        self.folders = [self.rooted(folder) for folder in command.search]
        self.machine = None

    def rooted(self, path):
        """A path whose `=` or `$SYSROOT` in front stands for the system's root."""
        for mark in ("=", "$SYSROOT"):
            if path.startswith(mark):
                return self.root + path.removeprefix(mark)
        return path

    def library(self, name, shared):
        """The file of `-l`: in each directory a shared object before an archive, where shared objects are taken."""
        if name.startswith(":"):
            names = [name[1:]]
        else:
            names = [f"lib{name}.so", f"lib{name}.a"] if shared else [f"lib{name}.a"]
        for folder in self.folders:
            for file in names:
                path = os.path.join(folder, file)
                if os.path.isfile(path) and not self.is_of_another_kind(path):
                    return path
        raise Fault(f"-l{name}", "is in none of the directories")

    def script_input(self, name, script):
        """The file that a script names: by its path, beside the script, or in the directories."""
        path = self.rooted(name)
        if os.path.isabs(path):
            under_root = self.root + path
            inside = self.root and os.path.abspath(script).startswith(self.root + "/")
            return under_root if inside and os.path.exists(under_root) else path
        for folder in [os.path.curdir, os.path.dirname(script), *self.folders]:
            found = os.path.normpath(os.path.join(folder, path))
            if os.path.isfile(found):
                return found
        raise Fault(script, f"names {name}, which is in none of the directories")

    def is_of_another_kind(self, path):
        """Whether a library is of 32 bits or of another machine than the objects before it, so that it is passed over."""
        with open(path, "rb") as file:
            start = file.read(4096)
        at = 0
        if start.startswith(archives.PLAIN):
            at = start.find(elf.MAGIC)
        if at < 0 or not start.startswith(elf.MAGIC, at) or len(start) < at + 20:
            return False
        machine = int.from_bytes(start[at + 18 : at + 20], "little" if start[at + 5] == 1 else "big")
        return start[at + 4] != 2 or (self.machine is not None and machine != self.machine)
