"""The files of a link in their order: each object, each member of an archive, each shared object, and what scripts say."""

import mmap
import os
import sys
import time

from . import archives, elf, linker_script
from .faults import Fault
from .references import Referring
from .search import Search

INTERMEDIATE_CODE = (b"BC\xc0\xde", b"\xde\xc0\x17\x0b")
SECONDS_BETWEEN_LINES = 2


class Entry:
    """A table and what the words say of its file."""

    def __init__(self, table, archive, state):
        self.table = table
        self.archive = archive
        self.whole_archive = archive and state.whole_archive
        self.as_needed = table.dynamic and state.as_needed


class Inputs:
    """Reads the files of a command. Archives and shared objects count once each; objects and scripts, as often as they are named."""

    referring = Referring  # what reads the sections of an object, where they are collected

    def __init__(self, command, warnings):
        self.warnings = warnings
        self.search = Search(command)
        self.entries = []
        self.scripts = []
        self.undefined = []
        self.keeps = []
        self.read_more = self.referring if command.collects else None
        self.read = {}  # the entries of each archive and shared object, by its real path
        self.read_scripts = set()
        self.open_scripts = []
        self.symbols = 0
        self.began = self.told = time.monotonic()
        for kind, name, state in command.inputs:
            path = self.search.library(name, state.shared) if kind == "library" else name
            self.add(path, state)

    def has_shared(self):
        """Whether a shared object is among the files."""
        return any(entry.table.dynamic for entry in self.entries)

    def machines_agree(self, name, data):
        """Notes the machine of the first object, and refuses another one's."""
        if len(data) < 64:
            raise Fault(name, "is cut short")
        machine = int.from_bytes(data[18:20], "little" if data[5] == 1 else "big")
        if self.search.machine is None:
            self.search.machine = machine
        elif self.search.machine != machine:
            raise Fault(name, f"is of machine {machine}, and not {self.search.machine}")

    def add(self, path, state):
        """A file of any kind."""
        key = os.path.realpath(path)
        if key in self.read:
            self.again(self.read[key], state)
            return
        data = open_file(path)
        start = len(self.entries)
        magic = bytes(data[:8])
        if magic.startswith(elf.MAGIC):
            self.add_table(path, data, state.lazy, state)
            if not self.entries[-1].table.dynamic:
                return
        elif magic in (archives.PLAIN, archives.THIN):
            for name, member in archives.members(path, data, open_file):
                self.add_member(f"{path}({name})", member, state)
        elif magic.startswith(INTERMEDIATE_CODE):
            raise Fault(path, "holds intermediate code of a compiler, which only its plugin reads")
        else:
            self.add_script(path, key, bytes(data), state)
            return
        self.read[key] = self.entries[start:]

    def again(self, entries, state):
        """An archive or a shared object that comes again: it is as needed only where it always is, and whole where it once is."""
        for entry in entries:
            entry.whole_archive |= entry.archive and state.whole_archive
            entry.as_needed &= state.as_needed

    def add_member(self, name, data, state):
        """A member of an archive; what is no object is passed over, as linkers pass it over."""
        magic = bytes(data[:4])
        if magic.startswith(INTERMEDIATE_CODE):
            raise Fault(name, "holds intermediate code of a compiler, which only its plugin reads")
        if magic == elf.MAGIC:
            self.add_table(name, data, True, state)
        elif len(data):
            self.warnings.tell(name, "is no object, and passed over")

    def add_table(self, name, data, archive, state):
        """A file of symbols."""
        self.machines_agree(name, data)
        table = elf.read_elf(name, data, self.warnings, self.read_more)
        self.entries.append(Entry(table, archive and not table.dynamic, state))
        self.symbols += len(table.symbols)
        now = time.monotonic()
        if now - self.told > SECONDS_BETWEEN_LINES:
            self.told = now
            print(f"manifest: {len(self.entries)} objects, {self.symbols} symbols", file=sys.stderr, flush=True)

    def add_script(self, path, key, data, state):
        """A linker script: its inputs take the place where it stands. Where it comes again, its inputs do, and nothing else of it."""
        if key in self.open_scripts:
            raise Fault(path, "includes itself")
        script = linker_script.read_script(path, data)
        self.open_scripts.append(key)
        if key not in self.read_scripts:
            self.read_scripts.add(key)
            self.take_statements(script)
        for name in script.includes:
            self.add(self.search.script_input(name, path), state)
        for name, as_needed in script.inputs:
            inner = state.copy()
            inner.as_needed |= as_needed
            is_library = name.startswith("-l")
            found = self.search.library(name[2:], state.shared) if is_library else self.search.script_input(name, path)
            self.add(found, inner)
        self.open_scripts.pop()

    def take_statements(self, script):
        """What a script says beside its inputs."""
        self.search.folders += [self.search.rooted(folder) for folder in script.search]
        self.undefined += script.undefined
        self.keeps += script.keeps
        if script.lays_out:
            self.warnings.tell(script.name, "of SECTIONS, only the symbols that it defines are told, and what its KEEP names")
        if script.entry is not None or script.version is not None or script.symbols:
            self.scripts.append(script)


def open_file(path):
    """The bytes of a file."""
    try:
        with open(path, "rb") as file:
            if os.fstat(file.fileno()).st_size == 0:
                return memoryview(b"")
            return memoryview(mmap.mmap(file.fileno(), 0, access=mmap.ACCESS_READ))
    except (OSError, ValueError) as reason:
        raise Fault(path, getattr(reason, "strerror", None) or "can't be opened") from None
