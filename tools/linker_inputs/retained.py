"""The sections that `--gc-sections` keeps for a reason which stands in another file than theirs, or in the words."""

import fnmatch
import os
import re

from .elf import IDENTIFIER
from .names import json_of

VISIBLE = {0, 3}  # default and protected visibility
# Of a list of exported names: comments, blocks whose names are those of another language, and what stands around C's own names.
NO_NAMES = re.compile(r'/\*.*?\*/|extern\s+"(?!C")[^"]*"\s*\{[^{}]*\}|extern\s+"C"', re.S)
LISTED = re.compile(r'"([^"]*)"|([^\s;{}]+)')


class Retained:
    """Says which sections of each object are kept."""

    def __init__(self, command, inputs, output):
        objects = [entry.table.referring for entry in inputs.entries if entry.table.referring]
        self.keeps = inputs.keeps
        self.sections = set()
        # A partial output has no start and stop symbols.
        if not command.drops_named_sections and output != "partial":
            asked = set().union(*(referring.undefined for referring in objects))
            named = {name[len(mark) :] for name in asked for mark in (b"__start_", b"__stop_") if name.startswith(mark)}
            self.sections = set(filter(IDENTIFIER.match, named))
        self.names = {os.fsencode(name) for name in (command.first_call, command.last_call)}
        self.keeps_all = command.keeps_exported or command.exports_all and output == "dynamic"
        self.exported, self.patterns = set(), None
        if output == "dynamic":
            self.patterns = exported_patterns(command)
            self.exported = set().union(*(names_of(entry.table) for entry in inputs.entries if entry.table.dynamic))

    def of(self, entry):
        """The numbers of the sections of an object that are kept."""
        referring = entry.table.referring
        found = set(referring.retained)
        for name, section, visibility in referring.definitions:
            if name in self.names or visibility in VISIBLE and self.is_exported(name):
                found.add(section)
        for number, name in enumerate(referring.names):
            if referring.with_output[number] and (name in self.sections or self.is_kept(entry.table.name, name)):
                found.add(number)
        return sorted(found)

    def is_exported(self, name):
        """Whether the output exports a name that is defined in it, where it isn't shared."""
        if self.keeps_all or self.patterns and self.patterns.match(os.fsdecode(name)):
            return True
        return bool(self.exported) and json_of(name) in self.exported

    def is_kept(self, file, name):
        """Whether the `KEEP` of a script names a section."""
        return any(keep.matches(file, os.fsdecode(name)) for keep in self.keeps)


def exported_patterns(command):
    """The names that the words and their list have an executable export, as one pattern, or None."""
    text = NO_NAMES.sub(" ", os.fsdecode(command.export_list or b""))
    words = [fnmatch.translate(word) for word in command.force_export]
    words += [fnmatch.translate(word) if word else re.escape(quoted) + r"\Z" for quoted, word in LISTED.findall(text)]
    return re.compile("|".join(words)) if words else None


def names_of(table):
    """The names that a shared object defines or asks for, as JSON."""
    return {entry[len('{"name":') : entry.index(',"place":')] for entry in table.symbols if ',"vis":"hidden"' not in entry}
