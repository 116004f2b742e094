"""The crates of a repository, as its crates.txt lists them."""

import functools
import os
import pathlib

# What a program is made of. A crate's README, its must-fail edits and what `rt` keeps in out/ are no sources.
PARTS = ("src", "specs", "proofs")
PROVED_PARTS = ("src", "proofs")


class Crates:
    """Which crates there are, and which libraries of the repository each stands on."""

    def __init__(self, top):
        self.top = pathlib.Path(top)
        self.list = self.top / "crates.txt"
        lines = [line.partition("#")[0].split(":") for line in self.list.read_text().splitlines()]
        named = {words[0].split()[0]: words[1].split() for words in lines if len(words) == 2}
        self.deps = {name: [dep for dep in deps if dep in named] for name, deps in named.items()}

    @functools.lru_cache(maxsize=None)
    def below(self, name):
        """The crates that a crate stands on, itself last, each behind those that it stands on."""
        found = []
        for dep in self.deps[name]:
            found += [it for it in self.below(dep) if it not in found]
        return [*found, name]

    def sources(self, name):
        """The files of which a crate and those below it are made, with their folders, and crates.txt."""
        yield str(self.list)
        for crate in self.below(name):
            yield from self.own_sources(crate)

    def own_sources(self, name, parts=PARTS):
        """The files of which a crate itself is made, and their folders, in an order that is always the same."""
        for part in parts:
            for folder, folders, files in os.walk(f"{self.top}/crates/{name}/{part}"):
                folders.sort()
                yield folder
                yield from (f"{folder}/{file}" for file in sorted(files))

    def lines(self, name):
        """How many lines of code and proofs a crate has: a measure of how long its check takes. Definitions cost little."""
        files = [path for path in self.own_sources(name, PROVED_PARTS) if os.path.isfile(path)]
        return sum(pathlib.Path(path).read_bytes().count(b"\n") for path in files)
