"""What linkers remove with `--gc-sections`, and in which ways they are known to answer otherwise than `gc`.

Each known difference changes a manifest so that `gc` answers as the linker does. So what only follows from one is no further
difference. docs/LINKERS.md lists them, with the reason of each.
"""
import collections
import os
import pathlib
import re
import subprocess
import tempfile

from compare import linker_name
from linker_inputs.elf import IDENTIFIER
from linker_inputs.inputs import Inputs
from linker_inputs.names import json_of
from linker_inputs.references import ALLOCATED, LINK_ORDER, NOTE, Referring, relocations, unwind_records
from linker_inputs.response_files import joined
from linker_inputs.retained import names_of

EXECUTABLE = 0x4
COMMANDS = {"lld": "ld.lld", "GNU ld": "ld"}
# GNU ld tells the signature of a section's group behind the section's name.
REMOVED = {
    "lld": re.compile(r"removing unused section (?P<file>.*):\((?P<section>.*)\)"),
    "GNU ld": re.compile(r"removing unused section '(?P<section>.*?)(?:\[.*\])?' in file '(?P<file>.*)'"),
}
MEMBER = re.compile(r"\((.*)\)([^()]*)")


class KeptReferring(Referring):
    """What an object tells of its sections, with its file."""

    def __init__(self, file, groups, warnings):
        super().__init__(file, groups, warnings)
        self.file = file


class KeptInputs(Inputs):
    """Inputs whose objects keep their files."""

    referring = KeptReferring


class Answer:
    """What a linker says: how often it removes a section of a name in a file, and its files in the order in which it loads them."""

    def __init__(self, linker, words):
        self.linker = linker
        lines = messages(linker, words)
        found = (match for match in map(REMOVED[linker].search, lines) if match)
        self.removed = collections.Counter((match["file"], match["section"]) for match in found)
        self.order = {}
        for line in lines:
            member = MEMBER.fullmatch(line)
            self.order.setdefault(f"{member[1]}({member[2]})" if member else line, len(self.order))

    def name_of(self, file):
        """The name that the linker has for a file: GNU ld has the own name of a member of a thin archive."""
        return linker_name(file) if self.linker == "GNU ld" else file

    def named(self, counted):
        """Counts of sections by the linker's names of their files."""
        found = collections.Counter()
        for (file, section), count in counted.items():
            found[self.name_of(file), section] += count
        return found


def messages(linker, words):
    """The lines that a linker writes of a link; it is given a response file."""
    with tempfile.TemporaryDirectory() as folder:
        output, word_file = (os.path.join(folder, name) for name in ("output", "words"))
        pathlib.Path(word_file).write_bytes(os.fsencode(joined(words)))
        more = ["-o", output, "--print-gc-sections", "-t", "-t", "--noinhibit-exec", "--unresolved-symbols=ignore-all"]
        how = {"capture_output": True, "text": True, "errors": "backslashreplace", "env": {**os.environ, "LC_ALL": "C"}}
        done = subprocess.run([COMMANDS[linker], f"@{word_file}", *more], **how)
    if done.returncode != 0:
        raise SystemExit(f"{linker} ends with {done.returncode}: {done.stderr[-2000:]}")
    return (done.stdout + done.stderr).splitlines()


def objects_of(manifest, inputs):
    """The objects of a manifest that aren't shared, each with what its file tells."""
    for file, entry in zip(manifest["objects"], inputs.entries):
        if entry.table.referring:
            yield file, entry.table.referring


def keep_tables(manifest, inputs, _):
    """Lets `.eh_frame` refer to routines and to tables itself, but not to tables in groups and to those that live with others."""
    for file, referring in objects_of(manifest, inputs):
        for number, places, symbols in relocations(referring.file):
            records = unwind_records(referring.file, number, places, symbols) if referring.names[number] == b".eh_frame" else None
            for asked, common in records or ():
                symbols = asked if common is None else [symbol for symbol in asked[1:] if is_table(referring, referring.homes[symbol])]
                file["section_refs"] += [{"from": number, "to": symbol} for symbol in symbols]


def is_table(referring, section):
    """Whether lld keeps a section for the records that refer to it."""
    return not referring.file.sections[section][2] & (EXECUTABLE | LINK_ORDER) and section not in referring.in_groups


def silence_notes(manifest, inputs, _):
    """Leaves out what notes refer to that don't come into memory."""
    for file, referring in objects_of(manifest, inputs):
        notes = {number for number, section in enumerate(referring.file.sections) if section[1] == NOTE and not section[2] & ALLOCATED}
        file["section_refs"] = [pair for pair in file["section_refs"] if pair["from"] not in notes]


def drop_kept(manifest, inputs, answer, is_such):
    """Lets sections of a kind that are kept here be kept only where the linker doesn't remove them."""
    for file, referring in objects_of(manifest, inputs):
        name = answer.name_of(file["name"])
        removed = (number for number in file["retain"] if answer.removed[name, referring.names[number].decode()])
        dropped = {number for number in removed if is_such(referring, number)}
        file["retain"] = [number for number in file["retain"] if number not in dropped]


def drop_named(manifest, inputs, answer):
    """Sections that are kept for their names alone."""
    drop_kept(manifest, inputs, answer, lambda referring, number: IDENTIFIER.match(referring.names[number]) and number not in referring.retained)


def drop_laid_out(manifest, inputs, answer):
    """What is kept by its kind, where a script says what is kept."""
    if inputs.keeps:
        drop_kept(manifest, inputs, answer, lambda referring, number: number in referring.retained)


def drop_frames(manifest, inputs, answer):
    """`.eh_frame`, where the output is an object again."""
    if manifest["output"] == "partial":
        drop_kept(manifest, inputs, answer, lambda referring, number: referring.names[number] == b".eh_frame")


def keep_excluded(manifest, inputs, _):
    """Keeps what a script's `KEEP` names in the files that it excludes too."""
    for file, referring in objects_of(manifest, inputs):
        for number in (number for number, has_output in enumerate(referring.with_output) if has_output):
            if any(keep.matches(file["name"], referring.names[number].decode(), False) for keep in inputs.keeps):
                file["retain"].append(number)


def link_sections(manifest, inputs, _):
    """Gives a local symbol to each section that is kept since it lives with another one and has none, and lets this one refer to it."""
    for file, referring in objects_of(manifest, inputs):
        for number in set(file["retain"]) - {number for number in file["retain"] if referring.is_retained(number)}:
            _, _, flags, _, _, _, owner, *_ = referring.file.sections[number]
            if flags & LINK_ORDER and owner:
                file["retain"].remove(number)
                file["symbols"].append({"name": "", "place": number, "bind": "local"})
                file["section_refs"].append({"from": owner, "to": len(file["symbols"])})


def drop_exported(manifest, inputs, answer):
    """Sections of definitions for others, one of which another file has too."""
    every = collections.Counter(name for _, referring in objects_of(manifest, inputs) for name, _, _ in referring.definitions)

    def has_rival(referring, number):
        return any(section == number and every[name] > 1 for name, section, _ in referring.definitions)

    drop_kept(manifest, inputs, answer, has_rival)


def drop_unneeded(manifest, inputs, answer):
    """Sections of definitions for shared objects that are taken only where they are needed."""
    asked = set().union(*(names_of(entry.table) for entry in inputs.entries if entry.as_needed))

    def is_asked(referring, number):
        return any(section == number and json_of(name) in asked for name, section, _ in referring.definitions)

    drop_kept(manifest, inputs, answer, is_asked)


def drop_targets(manifest, inputs, answer):
    """Lets redirects ask for none of the definitions that the linker removes."""
    removed = set()
    for file, referring in objects_of(manifest, inputs):
        name = answer.name_of(file["name"])
        removed |= {target.decode() for target, section, _ in referring.definitions if answer.removed[name, referring.names[section].decode()]}
    for redirect in [*manifest.get("defsym", []), *(symbol for script in manifest.get("scripts", []) for symbol in script.get("symbols", []))]:
        redirect["targets"] = [target for target in redirect.get("targets", []) if target not in removed]


def hide(manifest, inputs, _):
    """Adds an object that has hidden references to what is hidden, so that it isn't exported."""
    names = {symbol["name"]: None for file in manifest["objects"] for symbol in file["symbols"] if symbol.get("vis") == "hidden" and not file.get("dynamic")}
    symbols = [{"name": name, "place": "undefined", "bind": "weak", "vis": "hidden"} for name in names]
    manifest["objects"].append({"name": "hidden references", "symbols": symbols, "section_refs": [], "retain": []})


# The linker, what it does, and what changes a manifest so that `gc` does so too.
KNOWN = [
    ("lld", "keeps the routines and tables of `.eh_frame` whether their functions are live", keep_tables),
    ("lld", "keeps nothing for a note that doesn't come into memory", silence_notes),
    ("lld", "keeps named sections for their start and stop symbols only behind -z nostart-stop-gc", drop_named),
    ("GNU ld", "keeps named sections only where what is live asks for their start or stop symbol", drop_named),
    ("lld", "keeps sections that live with others by their numbers, not by symbols", link_sections),
    ("GNU ld", "keeps sections that live with others by their numbers, not by symbols", link_sections),
    ("lld", "takes .eh_frame for a section as any other in a partial output", drop_frames),
    ("lld", "passes over the files that the KEEP of a script excludes", keep_excluded),
    ("GNU ld", "keeps by their kind only what its script keeps, so with a script of one's own what this one does", drop_laid_out),
    ("lld", "exports of the definitions of a name only the one that counts", drop_exported),
    ("GNU ld", "exports of the definitions of a name only the one that counts", drop_exported),
    ("GNU ld", "keeps nothing for a shared object as needed that nothing needs", drop_unneeded),
    ("GNU ld", "keeps what a redirect refers to only where what is live asks for the redirect", drop_targets),
    ("lld", "exports no hidden definition", hide),
    ("GNU ld", "exports no hidden definition", hide),
]


def as_answered(manifest, inputs, answer):
    """Changes a manifest by what its linker is known to do otherwise."""
    for linker, _, change in KNOWN:
        if linker == answer.linker:
            change(manifest, inputs, answer)
