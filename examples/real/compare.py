#!/usr/bin/env python3
"""Compares the report of a link with what GNU ld says of the same link.

    python3 examples/real/compare.py PROGRAM -- LINKER WORDS

Makes the manifest of the words, runs PROGRAM on it (one or more words, `link 2` comes behind them), and runs `ld` with
the same words and with -t -t, -Map and --cref. Compared are the files that are loaded (of shared objects, those that the
output asks for), the sections of COMDAT groups that are left out, the names to which no definition is found, for each
name that a loaded object defines, which file defines it, and the names that a shared output exports, with their versions.
What differs is told, a line each. A line that begins with `known: ` is of a kind that docs/LINKERS.md lists; where
there is another one, the status is 1.
"""
import collections
import functools
import json
import os
import pathlib
import re
import shlex
import struct
import subprocess
import sys
import tempfile

sys.path.insert(0, str(pathlib.Path(__file__).resolve().parents[2] / "tools"))

from linker_inputs import archives  # noqa: E402
from linker_inputs.elf import DYNAMIC, RELOCATABLE, VERSION_NUMBERS, ElfFile, regular_table, shared_table  # noqa: E402
from linker_inputs.faults import Warnings  # noqa: E402
from linker_inputs.inputs import Inputs  # noqa: E402
from linker_inputs.manifest import manifest_pieces  # noqa: E402
from linker_inputs.names import Names  # noqa: E402
from linker_inputs.response_files import joined  # noqa: E402
from linker_inputs.words import read_words  # noqa: E402

# A name to which references disappear as GNU ld relaxes thread-local accesses of an executable.
RELAXED = {"__tls_get_addr"}
# The mark of a shared object's name in a dynamic section.
NEEDED = 1


class KeptInputs(Inputs):
    """Inputs whose bytes are kept, so that their sections can be named."""

    def __init__(self, command, warnings):
        self.data = []
        self.is_partial, self.is_shared = command.output == "partial", command.output == "shared"
        self.grouped = None
        super().__init__(command, warnings)

    def add_table(self, name, data, archive, state):
        self.data.append(data)
        super().add_table(name, data, archive, state)

    def names_in_groups(self):
        """The file and the name of each symbol that a section of a COMDAT group holds."""
        if self.grouped is None:
            self.grouped = set()
            for entry in self.entries:
                members = {number for group in entry.table.groups if group["comdat"] for number in group["members"]}
                symbols = (json.loads(symbol) for symbol in entry.table.symbols) if members else ()
                self.grouped |= {(entry.table.name, symbol["name"]) for symbol in symbols if symbol["place"] in members}
        return self.grouped


class Answer:
    """What a linker says of a link."""

    def __init__(self):
        self.loaded = set()
        self.shared = set()  # the names by which the output asks for shared objects
        self.discarded = collections.Counter()  # pairs of a file and a section's name
        self.undefined = set()
        self.definer = {}  # the file that defines a name
        self.exports = {}  # the number of the version of each name that a shared output exports


def shown(symbol):
    """The name of a definition; one that doesn't stand for its plain name is told with its version."""
    return symbol["name"] if symbol.get("default", True) else f"{symbol['name']}@{symbol['version']}"


@functools.cache
def is_thin(path):
    """Whether an archive is a thin one."""
    with open(path, "rb") as file:
        return file.read(8) == archives.THIN


def linker_name(name):
    """The name that GNU ld has for a file: a member of a thin archive has its own."""
    path, mark, member = name.rstrip(")").partition("(")
    if mark and is_thin(path):
        return os.path.join(os.path.dirname(path), member)
    return name


def owners_of(manifest):
    """The object and the entry of each symbol of a manifest, by its id; none for what stands before the objects."""
    first = 1 + sum(len(manifest.get(key, [])) for key in ("linker_symbols", "force_undefined", "defsym"))
    owners = [(None, None)] * first
    for place, file in enumerate(manifest["objects"]):
        owners += [(place, symbol) for symbol in [None, *file["symbols"]]]
    return owners


def parts_of_report(report):
    """The loaded objects, the kept groups, the undefined names, what each symbol means with its flags, and versions."""
    loaded, kept, undefined, meaning, versions = set(), set(), set(), [], {}
    for line in report.splitlines():
        words = line.split(" ")
        if words[0] == "loaded":
            loaded.add(int(words[1]))
        elif words[0] == "kept":
            kept.add((int(words[1]), int(words[2])))
        elif words[0] == "undefined":
            undefined.add(words[2].partition("@")[0])
        elif words[0] == "symbol":
            target, flags = line[line.rindex(" -> ") + 4 :].split(" ", 1)
            meaning.append((int(target), flags))
        elif words[0] == "version":
            versions[int(words[1])] = int(words[2])
    return loaded, kept, undefined, meaning, versions


def answer_of_report(manifest, report, inputs):
    """The answer that a report gives, with the names of the manifest's files."""
    answer = Answer()
    objects = manifest["objects"]
    files = [linker_name(file["name"]) for file in objects]
    loaded, kept, undefined, meaning, versions = parts_of_report(report)
    for place in loaded:
        if objects[place].get("dynamic"):
            answer.shared.add(objects[place].get("lib_name", os.path.basename(files[place])))
        else:
            answer.loaded.add(files[place])
    for number, (place, symbol) in enumerate(owners_of(manifest)):
        if symbol is None or place not in loaded or objects[place].get("dynamic") or symbol.get("bind") == "local":
            continue
        if symbol["place"] == "undefined":
            if symbol["name"] in undefined and symbol.get("bind") != "weak":
                answer.undefined.add(symbol["name"])
        elif meaning[number][0] == number:
            answer.definer[shown(symbol)] = files[place]
            if symbol.get("vis") != "hidden" and "DOWNGRADE_TO_LOCAL" not in meaning[number][1]:
                answer.exports[shown(symbol)] = versions.get(number, 1)
    answer.discarded = discarded_sections(objects, loaded, kept, inputs)
    return answer


def discarded_sections(objects, loaded, kept, inputs):
    """The sections with content of the COMDAT groups that aren't kept."""
    found = collections.Counter()
    for place in loaded:
        if objects[place].get("dynamic"):
            continue
        groups = [group for number, group in enumerate(objects[place].get("groups", [])) if group["comdat"] and (place, number) not in kept]
        if groups:
            file = ElfFile(objects[place]["name"], inputs.data[place])
            for section in sum((group["members"] for group in groups), []):
                header = file.sections[section]
                if header[1] not in (4, 9) and header[5]:
                    found[file.name, file.section_names.bytes(header[0]).decode()] += 1
    return found


def group_sections(inputs):
    """The file and the name of each section of a COMDAT group."""
    found = set()
    for entry, data in zip(inputs.entries, inputs.data):
        groups = [group for group in entry.table.groups if group["comdat"]]
        if groups:
            file = ElfFile(entry.table.name, data)
            names = (file.section_names.bytes(file.sections[number][0]).decode() for group in groups for number in group["members"])
            found |= {(file.name, name) for name in names}
    return found


def run_linker(words, folder):
    """What GNU ld writes: its messages, its map with the table of cross references, and its output. It is given a response file."""
    map_file, output, word_file = (os.path.join(folder, name) for name in ("map", "output", "words"))
    pathlib.Path(word_file).write_bytes(os.fsencode(joined(words)))
    more = ["-o", output, "-Map", map_file, "--cref", "-t", "-t", "--no-demangle"]
    more += ["--warn-unresolved-symbols", "--noinhibit-exec"]
    environment = {**os.environ, "LC_ALL": "C"}
    done = subprocess.run(["ld", f"@{word_file}", *more], capture_output=True, text=True, errors="backslashreplace", env=environment)
    messages = done.stdout + done.stderr
    if done.returncode != 0 or not os.path.exists(output):
        raise SystemExit(f"ld ends with {done.returncode}: {messages[-2000:]}")
    return messages, pathlib.Path(map_file).read_text(errors="backslashreplace"), output


def answer_of_linker(messages, map_text, output, is_shared):
    """The answer that GNU ld gives."""
    answer = Answer()
    for line in messages.splitlines():
        member = re.fullmatch(r"\((.*)\)([^()]*)", line)
        if member:
            answer.loaded.add(f"{member[1]}({member[2]})")
        elif os.path.exists(line):
            answer.loaded.add(line)
        undefined = re.search(r"undefined reference to `(.*?)(?:@.*)?'$", line)
        if undefined and not re.match(r"ld: \S+\.so[.\d]*: ", line):
            answer.undefined.add(undefined[1])
    rest = map_text.partition("\nDiscarded input sections\n")[2]
    discarded = rest.partition("\nMemory Configuration\n")[0]
    for section, size, file in re.findall(r"^ (\S+)\s+0x0+\s+0x([0-9a-f]+) (.+)$", discarded, re.M):
        if int(size, 16):
            answer.discarded[file, section] += 1
    answer.definer = definers(map_text.partition("\nCross Reference Table\n")[2])
    read_output(answer, output, is_shared)
    return answer


def definers(references):
    """The first file of each name in a table of cross references; it defines the name, where any file does."""
    found, name = {}, None
    for line in references.splitlines()[2:]:
        if line and not line.startswith(" "):
            name, _, line = line.partition(" ")
        if name and line.strip():
            found.setdefault(name.partition("@@")[0], line.strip())
    return found


def exports_of(file):
    """The number of the version of each name that a shared output exports."""
    symbols = [json.loads(entry) for entry in shared_table(file).symbols]
    number = file.first_of(VERSION_NUMBERS)
    numbers = file.words("H", file.bytes_of(number))[1:] if number is not None else [1] * len(symbols)
    exported = [(symbol, number) for symbol, number in zip(symbols, numbers) if symbol["place"] != "undefined"]
    return {shown(symbol): number & 0x7FFF for symbol, number in exported if symbol.get("bind") != "local"}


def read_output(answer, output, is_shared):
    """What the output itself tells: the shared objects that it asks for, the undefined names of a partial one, and exports."""
    file = ElfFile(output, pathlib.Path(output).read_bytes())
    if file.type == RELOCATABLE:
        symbols = [json.loads(entry) for entry in regular_table(file, Warnings()).symbols]
        answer.undefined = {symbol["name"] for symbol in symbols if symbol["place"] == "undefined" and symbol.get("bind") != "weak"}
    if is_shared:
        answer.exports = exports_of(file)
    number = file.first_of(DYNAMIC)
    if number is not None:
        names = Names(file.bytes_of(file.sections[number][6]))
        for tag, value in struct.iter_unpack(file.order + "qQ", file.bytes_of(number)):
            if tag == NEEDED:
                answer.shared.add(names.bytes(value).decode())


def differences(ours, theirs, inputs):
    """Lines that tell where two answers differ."""
    objects = {entry.table.name for entry in inputs.entries if not entry.table.dynamic}
    undefined = {(name, "known: " if name in RELAXED else "") for name in ours.undefined - theirs.undefined}
    found = [f"loaded here, not by ld: {name}" for name in sorted(ours.loaded - theirs.loaded)]
    found += [f"loaded by ld, not here: {name}" for name in sorted(theirs.loaded & objects - ours.loaded)]
    found += [f"{known}undefined here, not by ld: {name}" for name, known in sorted(undefined)]
    found += [f"undefined by ld, not here: {name}" for name in sorted(theirs.undefined - ours.undefined)]
    if not inputs.is_partial:
        found += [f"asked for here, not by ld: {name}" for name in sorted(ours.shared - theirs.shared)]
        found += [f"asked for by ld, not here: {name}" for name in sorted(theirs.shared - ours.shared)]
    if inputs.is_shared:
        for name in sorted(ours.definer):
            here, there = ours.exports.get(name), theirs.exports.get(name)
            if here != there:
                found.append(f"{name}: exported with version {here} here, {there} by ld")
    return found + other_copies(ours, theirs, inputs)


def other_copies(ours, theirs, inputs):
    """Lines of sections that are left out, and of definitions. Another copy of a COMDAT group is a known difference."""
    found = []
    in_groups = group_sections(inputs)
    discarded = collections.Counter({key: count for key, count in theirs.discarded.items() if key in in_groups})
    counts = [collections.Counter(), collections.Counter()]
    for number, counted in enumerate((ours.discarded, discarded)):
        for (_, section), count in counted.items():
            counts[number][section] += count
    for file, section in sorted(set(ours.discarded) | set(discarded)):
        here, there = ours.discarded[file, section], discarded[file, section]
        if here != there:
            known = "known: " if counts[0][section] == counts[1][section] else ""
            found.append(f"{known}left out {here} times here, {there} by ld: {section} of {file}")
    for name, file in sorted(ours.definer.items()):
        other = theirs.definer.get(name)
        if other != file:
            known = "known: " if {(file, name), (other, name)} <= inputs.names_in_groups() else ""
            found.append(f"{known}{name}: defined by {file} here, by {other} for ld")
    return found


def compare(program, words, warnings=None):
    """Compares a link of some words; answers what differs, and what was compared."""
    warnings = warnings or Warnings()
    command = read_words(words, warnings)
    inputs = KeptInputs(command, warnings)
    written = "".join(manifest_pieces(command, inputs)).encode()
    done = subprocess.run([*program, "link", "2"], input=written, capture_output=True)
    if done.returncode != 0:
        return [f"the program ends with {done.returncode}: {done.stdout.decode(errors='replace').strip()[:2000]}"], None
    with tempfile.TemporaryDirectory() as folder:
        theirs = answer_of_linker(*run_linker(words, folder), inputs.is_shared)
    ours = answer_of_report(json.loads(written), done.stdout.decode(), inputs)
    return differences(ours, theirs, inputs), ours


def summary(found, ours):
    """A line that tells what was compared."""
    known = sum(line.startswith("known: ") for line in found)
    parts = [f"{len(ours.loaded)} objects", f"{len(ours.shared)} shared", f"{len(ours.definer)} definitions"]
    parts += [f"{sum(ours.discarded.values())} sections left out", f"{len(ours.undefined)} names undefined"]
    return ", ".join(parts) + f": {len(found) - known} differences, {known} known ones"


def main():
    cut = sys.argv.index("--") if "--" in sys.argv else 0
    if cut < 2:
        sys.exit(__doc__)
    found, ours = compare([word for part in sys.argv[1:cut] for word in shlex.split(part)], sys.argv[cut + 1 :])
    for line in found:
        print(line)
    if ours:
        print(summary(found, ours))
    sys.exit(1 if any(not line.startswith("known: ") for line in found) else 0)


if __name__ == "__main__":
    main()
