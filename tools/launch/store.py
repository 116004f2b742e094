"""The programs that were built, in the folder build/ at the top: which stand, and whether their sources have changed since.

A program is put there whole: it is made under another name, and what tells of it (`built.json`) is written last. So a build that is
interrupted leaves nothing that a later call takes for a program. What `built.json` tells of the sources is taken before the build
begins, so one that is edited meanwhile makes the program old."""

import contextlib
import fcntl
import hashlib
import json
import os
import pathlib
import shutil

from .progress import tell

CHECKED, PROVED = "checked", "proved"


class Store:
    """The programs of one kind, `CHECKED` or `PROVED`, of the crate `name`."""

    def __init__(self, crates, name, kind):
        self.crates, self.name, self.kind = crates, name, kind
        self.folder = pathlib.Path(crates.top) / "build" / kind
        self.program = self.folder / name
        self.told = self.folder / "built.json"

    def read(self):
        """What was told of the program that stands, or None."""
        try:
            with open(self.told, encoding="utf-8") as file:
                told = json.load(file)
            return told if os.access(self.program, os.X_OK) else None
        except (OSError, ValueError):
            return None

    def stands(self):
        """Whether a program stands, of whatever sources."""
        return self.read() is not None

    def is_current(self):
        """Whether a program stands that is made of the sources as they are. Files with other dates and the same bytes, as git
        leaves them when a branch comes and goes, change nothing."""
        told = self.read()
        if told is None:
            return False
        dates = dates_of(self.crates, self.name)
        if told.get("dates") == dates:
            return True
        if told.get("sum") != sum_of(self.crates, self.name):
            return False
        self.note(told, dates)
        return True

    def note(self, told, dates):
        """Notes the dates of the sources of which `told` tells, so that the next call needn't read them. Not while another call builds."""
        with contextlib.suppress(OSError), open(self.folder / "lock", "w", encoding="utf-8") as lock:
            fcntl.flock(lock, fcntl.LOCK_EX | fcntl.LOCK_NB)
            if self.read() == told:
                self.write({**told, "dates": dates})

    def write(self, told):
        """Writes what is told of the program, whole or not at all."""
        new = self.folder / "built.json.new"
        new.write_text(json.dumps(told) + "\n")
        os.replace(new, self.told)

    @contextlib.contextmanager
    def building(self):
        """Keeps other builds of the kind out, and removes what an interrupted one left."""
        self.folder.mkdir(parents=True, exist_ok=True)
        with open(self.folder / "lock", "w", encoding="utf-8") as lock:
            try:
                fcntl.flock(lock, fcntl.LOCK_EX | fcntl.LOCK_NB)
            except BlockingIOError:
                tell("wolzhyke: waiting for another call that builds the program\n")
                fcntl.flock(lock, fcntl.LOCK_EX)
            for left in self.folder.glob("new-*"):
                shutil.rmtree(left)
            yield

    @contextlib.contextmanager
    def room(self):
        """Where a build puts its program, under the lock of `building`: in a new folder, which is removed at the end."""
        room = self.folder / f"new-{os.getpid()}"
        room.mkdir()
        try:
            yield room / self.name
        finally:
            shutil.rmtree(room, ignore_errors=True)

    def put(self, made, sources, **told):
        """Puts a program in its place. `sources` is what `sources_of` told before the build began."""
        with contextlib.suppress(FileNotFoundError):
            self.told.unlink()
        os.replace(made, self.program)
        self.write({**sources, **told})


def sources_of(crates, name):
    """What is noted of the sources of a crate and of those below it. Dates come first: a file that changes meanwhile has another one."""
    return {"dates": dates_of(crates, name), "sum": sum_of(crates, name)}


def dates_of(crates, name):
    """A checksum of the names, sizes and dates of these sources, which is had without reading them. Among the dates is that of the
    last change of any kind, which can't be set: so a file that is put back with an old date has another one."""
    found = hashlib.sha256()
    for path in crates.sources(name):
        held = os.stat(path)
        found.update(f"{path}\0{held.st_size}\0{held.st_mtime_ns}\0{held.st_ctime_ns}\0".encode(errors="surrogateescape"))
    return found.hexdigest()


def sum_of(crates, name):
    """A checksum of the sources of a crate and of those below it."""
    found = hashlib.sha256()
    for path in crates.sources(name):
        if os.path.isfile(path):
            held = pathlib.Path(path).read_bytes()
            found.update(f"{os.path.relpath(path, crates.top)}\0{len(held)}\0".encode())
            found.update(held)
    return found.hexdigest()
